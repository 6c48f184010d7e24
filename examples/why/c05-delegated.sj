protocol p { begin.!<int> }
protocol q { begin.?(int) }
protocol g { begin.!<?(int)> }
protocol h { begin.?(?(int)) }
party a { send x 5; close x; }
party b { delegate z y; close y; close z; }
party c { recv u s session q; recv s n int; close s; close u; }
connect a x p to b y q;
connect b z g to c u h;
