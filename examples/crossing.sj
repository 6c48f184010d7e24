// Both ends of a session are delegated at once: a delegates its end to c, and b the other end
// to d. c goes on where a stopped, and d takes what both of them sent, in order.
protocol p { begin.!<int>.!<int> }
protocol q { begin.?(int).?(int) }
protocol p1 { begin.!<int> }
protocol gp { begin.!<!<int>> }
protocol hp { begin.?(!<int>) }
protocol gq { begin.!<?(int).?(int)> }
protocol hq { begin.?(?(int).?(int)) }
party a { send x 1; delegate z x; close z; }
party b { delegate z y; close z; }
party c { recv u x session p1; send x 2; close x; close u; }
party d { recv u y session q; recv y n int; recv y n int; close y; close u; }
connect a x p to b y q;
connect a z gp to c u hp;
connect b z gq to d u hq;
