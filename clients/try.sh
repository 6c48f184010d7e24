#!/bin/sh
# Tries the clients of this folder on files of examples/, the program in README.md, and examples/desk.py and front.py. SJSEAT names the
# program where it isn't as `rt ci` leaves it. What isn't installed is left out, and that is said. Last three parties of desk.sj in three
# languages are processes over a Redis server, at a port that is free, or PORT. The last line is `N tried, M bad`; the status is 1 where one
# was bad.
cd "$(dirname "$0")" || exit 2
SJSEAT=${SJSEAT:-$(pwd)/../crates/sjseat/out/sjseat}
export SJSEAT
if [ ! -x "$SJSEAT" ]; then
    echo "the clients are left out: $SJSEAT isn't built"
    exit 0
fi
unset SEAT
work=$(mktemp -d) || exit 2
server=''
trap '[ -z "$server" ] || kill "$server"; rm -rf "$work"' EXIT
tried=0
bad=0

# The client of these words says what stands in the wanted file.
is() {
    name=$1
    shift
    "$@" >"$work/said" 2>&1
    tried=$((tried + 1))
    cmp -s "$work/wanted" "$work/said" && return
    bad=$((bad + 1))
    echo "$name:"
    diff "$work/wanted" "$work/said"
}

# The transcript of opened.sj with the ends of opened sessions by session and side, as a run with a seat has them.
by_ends() {
    sed 's/^session \(16[0-9]\) \([a-z]*\) [a-z]* \([a-z]*\) [a-z]*$/session \1 \2 \1.0 \3 \1.1/' ../examples/opened.txt
}

{ echo 'int 12'; cat ../examples/desk.txt; } >"$work/wanted"
is 'a shell script asks the desk' ./seat.sh ../examples/desk.sj ann x 'an umbrella'
{ echo 'String "Hello, Ann"'; cat ../examples/greeting.txt; } >"$work/wanted"
is 'a shell script greets' ./seat.sh ../examples/greeting.sj ann x 'Hello, Bob'
if command -v python3 >/dev/null; then
    # the program in README.md, and what it prints
    cp seat.py ../examples/desk.sj "$work"
    # shellcheck disable=SC2016 # these are no expressions
    sed -n '/^```python$/,/^```$/{/^```/d; p;}' README.md >"$work/store.py"
    # shellcheck disable=SC2016
    sed -n '/^It prints$/,/^done$/{/^It prints$/d; /^```/d; /^$/d; p;}' README.md >"$work/wanted"
    is 'Python as in the README' sh -c "cd '$work' && python3 -B store.py"
    { echo 'no price yet: the place of the end begins otherwise'; echo 'wanted: an umbrella'; cat ../examples/desk.txt; } >"$work/wanted"
    is 'Python plays the store' python3 -B ../examples/desk.py
    cat >"$work/wanted" <<'END'
200 {"of": "an umbrella", "price": 12}
200 {"of": "a boat", "price": 12}
400 {"rule": "NoForm", "why": "it has none of the forms of a line"}
404 {"why": "GET /price?of=.."}
END
    is 'requests are sessions' python3 -B ../examples/front.py --try
    printf '%s\n' 'ahead: begin.!<String>.?(int)' 'price: 300' 'ends: z t' 'none' >"$work/wanted"
    by_ends >>"$work/wanted"
    cat >"$work/agency.py" <<'END'
from seat import Session
with Session("../examples/opened.sj", "agency", "--patience", "1000000") as agency:
    place = agency.take("y")
    agency.ask("request", "s", "ask", "to", "supplier")
    print("ahead:", agency.ask("ahead", "s"))
    agency.send("s", place)
    price = agency.take("s")
    print("price:", price)
    agency.close("s")
    agency.send("y", price)
    agency.close("y")
    agency.ask("request", "t", "ask", "to", "supplier")
    print("ends:", agency.ask("ends"))
    agency.delegate("z", "t")
    agency.close("z")
    print(agency.ask("ends") or "none")
print(agency.rest, end="")
END
    is 'Python requests sessions' env PYTHONPATH=. python3 -B "$work/agency.py"
else
    echo "python3 isn't here (apt-get install python3): its client is left out"
fi
if command -v cc >/dev/null && cc -o "$work/seat" seat.c 2>"$work/said"; then
    { echo 'took y String "Hello, Bob"'; echo fine; echo fine; cat ../examples/greeting.txt; } >"$work/wanted"
    is 'C answers' "$work/seat" ../examples/greeting.sj bob 'take y' 'send y "Hello, Ann"' 'close y'
    { echo 'refused 1 G4 the end can'\''t be sent there, or the name is in use'; echo fine; echo fine; cat ../examples/desk.txt; } >"$work/wanted"
    is 'C plays the desk' "$work/seat" ../examples/desk.sj desk 'delegate z z' 'delegate z y' 'close z'
    # the supplier holds no end before it accepts
    printf '%s\n' 'opened s' 'took s String "Rome"' fine fine 'opened s' 'took s String "Oslo"' fine fine >"$work/wanted"
    by_ends >>"$work/wanted"
    is 'C accepts sessions' "$work/seat" ../examples/opened.sj supplier 'accept s tell from agency' 'take s' 'send s 300' 'close s' \
        'accept s tell from agency' 'take s' 'send s 200' 'close s'
else
    echo "no C compiler is here (apt-get install gcc libc6-dev): its client is left out"
fi
if command -v redis-server >/dev/null && command -v python3 >/dev/null && [ -x "$work/seat" ]; then
    PORT=${PORT:-7398}
    redis-server --bind 127.0.0.1 --port "$PORT" --save '' --dir "$work" >/dev/null &
    server=$!
    over="--run desk --server 127.0.0.1:$PORT"
    SEAT=$over
    export PORT SEAT
    # the server may come late; a program that was killed after it sent is started again
    cat >"$work/ann.py" <<'END'
import os
import time
from seat import Session, Stopped
def ann():
    for _ in range(100):
        try:
            return Session("../examples/desk.sj", "ann", "--run", "desk", "--server", "127.0.0.1:" + os.environ["PORT"], "--patience", "1000")
        except Stopped:
            time.sleep(0.1)
first = ann()
first.send("x", "an umbrella")
first.child.kill()
with ann() as again:
    print(again.again, again.take("x"))
    again.close("x")
print(again.rest, end="")
END
    printf '%s\n' "['send x \"an umbrella\"'] 12" ended >"$work/wanted"
    { sleep 1; "$work/seat" ../examples/desk.sj desk 'delegate z y' 'close z' >"$work/desk"; } &
    # shellcheck disable=SC2086 # these are words, one by one
    { sleep 1; python3 -B ../examples/desk.py $over >"$work/store"; } &
    store=$!
    is 'Ann is killed and goes on' env PYTHONPATH=. python3 -B "$work/ann.py"
    wait "$store"
    printf '%s\n' 'no price yet: the place of the end begins otherwise' 'wanted: an umbrella' ended >"$work/wanted"
    is 'the store over a server' cat "$work/store"
    printf '%s\n' fine fine ended >"$work/wanted"
    is 'the desk over a server' cat "$work/desk"
else
    echo "a server, Python or a C compiler isn't here (apt-get install redis-server): parties over a server are left out"
fi
echo "$tried tried, $bad bad"
[ "$bad" -eq 0 ]
