protocol p { begin.![!<int>]* }
protocol q { begin.?[?(int)]* }
party a {
  let n = 9223372036854775807;
  outwhile x n + 1 { send x n; }
  close x;
}
party b { inwhile y { recv y n int; } close y; }
connect a x p to b y q;
