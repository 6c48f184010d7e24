protocol p { begin.![!<int>]* }
protocol q { begin.?[?(int)]* }
party a { outwhile x 3 { } close x; }
party b { inwhile y { recv y n int; } close y; }
connect a x p to b y q;
