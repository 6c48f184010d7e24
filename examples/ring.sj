// A ring of three parties. Each waits for a number from the one before it, and would send the next
// number on: none of them begins. Each has two connections, so `forest` takes nobody away and
// answers `forest no a b c`. Such a file may block, and this one does.
protocol p { begin.!<int> }
protocol q { begin.?(int) }
party a { recv u n int; send x n + 1; close x; close u; }
party b { recv y n int; send z n + 1; close z; close y; }
party c { recv w n int; send v n + 1; close v; close w; }
connect a x p to b y q;
connect b z p to c w q;
connect c v p to a u q;
