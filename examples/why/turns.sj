protocol p { begin.![!<int>]* }
protocol q { begin.?[?(int)]* }
party a { let n = 500 * 3; outwhile x n { send x n; } close x; }
party b { inwhile y { recv y n int; } close y; }
connect a x p to b y q;
