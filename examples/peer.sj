// An end that goes to the holder of the other end. a delegates its end to b, and b then has both
// ends of session 0: it takes what it sent itself.
protocol p { begin.!<int> }
protocol q { begin.?(int) }
protocol g { begin.!<!<int>> }
protocol h { begin.?(!<int>) }
party a { delegate z x; close z; }
party b { recv u x session p; send x 4; recv y n int; close x; close y; close u; }
connect a x p to b y q;
connect a z g to b u h;
