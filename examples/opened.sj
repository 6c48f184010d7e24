// Sessions opened at run time. The agency opens a session to the supplier for each customer
// (request), and the supplier accepts them in that order (accept). Ann asks the agency, which asks
// the supplier. Bob gets the end of the second session, accepted or not, and asks himself.
protocol ask { begin.!<String>.?(int) }
protocol tell { begin.?(String).!<int> }
protocol gives { begin.!<!<String>.?(int)> }
protocol gets { begin.?(!<String>.?(int)) }

party ann { send x "Rome"; recv x price int; close x; }

party agency {
  recv y place String;
  request s ask to supplier;
  send s place;
  recv s price int;
  close s;
  send y price;
  close y;
  // For Bob: a session of its own, whose end goes to him at once.
  request t ask to supplier;
  delegate z t;
  close z;
}

party bob { recv u t session ask; send t "Oslo"; recv t price int; close t; close u; }

party supplier {
  accept s tell from agency;
  recv s place String;
  send s 300;
  close s;
  // It is the agency that opened this one, too, whoever has its other end by now.
  accept s tell from agency;
  recv s place String;
  send s 200;
  close s;
}

connect ann x ask to agency y tell;
connect agency z gives to bob u gets;
