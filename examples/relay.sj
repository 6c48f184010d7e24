// A relay stands between two loops. Before each turn it takes more or stop on one session, and
// sends the same on the other one.
protocol gives { begin.![!<int>]* }
protocol takes { begin.?[?(int)]* }

party source { outwhile x 2 { send x 7; } close x; }
// A turn of a relay is a turn of both loops.
party middle { relay y z { recv y n int; send z n * 10; } close y; close z; }
party sink { let sum = 0; inwhile u { recv u n int; let sum = sum + n; } close u; }

connect source x gives to middle y takes;
connect middle z gives to sink u takes;
