// A session has two ends. What one end sends, the other one takes: their protocols are dual, with
// `!` in the one where `?` is in the other.
protocol asks { begin.!<String>.?(String) }
protocol says { begin.?(String).!<String> }

// A party does its statements in order, and closes an end when nothing is ahead of it.
party ann { send x "Hello, Bob"; recv x answer String; close x; }
party bob { recv y words String; send y "Hello, Ann"; close y; }

connect ann x asks to bob y says;
