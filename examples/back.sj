// An end that comes back. b delegates its end to c, and c to b. Then b takes what a sent.
protocol p { begin.!<int> }
protocol q { begin.?(int) }
protocol g { begin.!<?(int)>.?(?(int)) }
protocol h { begin.?(?(int)).!<?(int)> }
party a { send x 1; close x; }
party b { delegate z y; recv z y session q; close z; recv y n int; close y; }
party c { recv u y session q; delegate u y; close u; }
connect a x p to b y q;
connect b z g to c u h;
