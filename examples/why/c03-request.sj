protocol p { begin.!<int> }
protocol q { begin.?(int) }
party a { let x = 5; request x p to b; send x 5; close x; }
party b { accept y q from a; recv y n int; close y; }
