// The same three parties as a tree: the number comes back over the sessions on which it went out,
// and the third connection is gone. So `forest` answers `forest yes`: in whatever order each party
// does what its protocols allow, such a file never blocks.
protocol p { begin.!<int>.?(int) }
protocol q { begin.?(int).!<int> }
party a { send x 1; recv x n int; close x; }
party b { recv y n int; send z n + 1; recv z m int; send y m; close z; close y; }
party c { recv w n int; send w n + 1; close w; }
connect a x p to b y q;
connect b z p to c w q;
