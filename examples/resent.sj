// Resending from a closed end. a sends three numbers and closes its end. b takes the first of them,
// and delegates its end to c. What b had not taken a sends again, to c.
protocol p { begin.!<int>.!<int>.!<int> }
protocol q { begin.?(int).?(int).?(int) }
protocol r { begin.?(int).?(int) }
protocol g { begin.!<?(int).?(int)> }
protocol h { begin.?(?(int).?(int)) }
party a { send x 1; send x 2; send x 3; close x; }
party b { recv y n int; delegate z y; close z; }
party c { recv u y session r; recv y n int; recv y n int; close y; close u; }
connect a x p to b y q;
connect b z g to c u h;
