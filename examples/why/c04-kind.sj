protocol p { begin.!<int> }
protocol q { begin.?(boolean) }
party a { send x 5; close x; }
party b { recv y n boolean; close y; }
connect a x p to b y q;
