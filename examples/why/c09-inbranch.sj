protocol p { begin.!{YES: !<int>, NO:} }
protocol q { begin.?{YES: ?(int), NO:} }
party a { outbranch x YES; send x 5; close x; }
party b { inbranch y { YES: { recv y n int; close y; } NO: { } } }
connect a x p to b y q;
