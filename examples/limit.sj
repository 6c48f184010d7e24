// A file that comes to a limit: an end is delegated at most 100 times. b and c delegate an end to
// and fro, 50 times each, and in turn 51 b may not delegate it again.
protocol p { begin.!<int> }
protocol q { begin.?(int) }
protocol g { begin.![!<?(int)>.?(?(int))]* }
protocol h { begin.?[?(?(int)).!<?(int)>]* }
party a { send x 1; close x; }
party b { outwhile z 51 { delegate z y; recv z y session q; } close z; recv y n int; close y; }
party c { inwhile u { recv u y session q; delegate u y; } close u; }
connect a x p to b y q;
connect b z g to c u h;
