protocol asks { begin.!<String>.?(int) }
protocol says { begin.?(String).!<int> }
protocol gives { begin.!<?(String).!<int>> }
protocol gets { begin.?(?(String).!<int>) }
party ann { send x "an umbrella"; recv x price int; close x; }
party desk { delegate z y; close z; }
party store { recv u s session says; close u; recv s what String; send s 12; close s; }
connect ann x asks to desk y says;
connect desk z gives to store u gets;
