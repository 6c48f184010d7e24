protocol p { begin.!{YES: !<int>, LATER:} }
protocol q { begin.?{YES: ?(int), NO:} }
party a { outbranch x YES; send x 5; close x; }
party b { inbranch y { YES: { recv y n int; close y; } NO: { close y; } } }
connect a x p to b y q;
