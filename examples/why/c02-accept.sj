protocol p { begin.!<int> }
protocol q { begin.?(int) }
party a { request x p to b; send x 5; close x; }
party b { accept y q from c; recv y n int; close y; }
