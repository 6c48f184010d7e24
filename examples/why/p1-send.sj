protocol p { begin.!<int> }
protocol q { begin.?(int) }
party a { sned x 5; close x; }
party b { recv y n int; close y; }
connect a x p to b y q;
