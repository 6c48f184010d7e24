// One party says before each turn that there is one more, and at last that the loop stops. The
// other one follows it.
protocol counts { begin.![!<int>]*.?(int) }
protocol adds { begin.?[?(int)]*.!<int> }

party teller {
  let n = 0;
  // Three turns. One turn does what stands in the brackets of the protocol.
  outwhile x 3 { let n = n + 1; send x n; }
  recv x sum int;
  close x;
}

party adder {
  let sum = 0;
  inwhile y { recv y n int; let sum = sum + n; }
  send y sum;
  close y;
}

connect teller x counts to adder y adds;
