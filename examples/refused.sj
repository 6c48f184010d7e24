// A file that is refused. b delegates its end y to c, and then closes it: it has no such end then.
// Without close y; the file is accepted.
protocol p { begin.?(int) }
protocol q { begin.!<int> }
protocol g { begin.!<!<int>> }
protocol h { begin.?(!<int>) }
party a { recv x n int; close x; }
party b { delegate z y; close y; close z; }
party c { recv u y session q; send y 9; close y; close u; }
connect a x p to b y q;
connect b z g to c u h;
