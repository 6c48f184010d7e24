protocol p { begin.!<int> }
party a { request x p to b; send x 5; close x; }
party b { }
