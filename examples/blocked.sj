// A file that is accepted, and blocks. Each party takes on one session before it sends on the
// other one, and they take in opposite order. So each waits for the other.
protocol p { begin.!<int> }
protocol q { begin.?(int) }
party a { recv x n int; send w 1; close x; close w; }
party b { recv z n int; send y 1; close y; close z; }
connect a x q to b y p;
connect a w p to b z q;
