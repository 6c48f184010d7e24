#!/usr/bin/env python3
"""Lines a second of `sjseat PARTY --local`, beside a Python program that answers lines over a bare socketpair. usage: bench.py [LINES [RUNS]], where SJSEAT names
the program. Each kind is timed RUNS times; the best and the median are printed. The lines are of turns of a loop: `more x`, `send x 1`, `take x`, where the other party
answers each number. `one` waits for each answer before the next line; `all` writes the lines at once, and reads answers beside that."""
import os
import socket
import statistics
import subprocess
import sys
import threading
import time

TOP = os.path.dirname(os.path.dirname(os.path.dirname(os.path.abspath(__file__))))
SJSEAT = os.environ.get("SJSEAT", TOP + "/crates/sjseat/out/sjseat")
FILE = b"""protocol p { begin.![!<int>.?(int)]* }
protocol q { begin.?[?(int).!<int>]* }
party a { outwhile x 1 { send x 1; recv x n int; } close x; }
party b { inwhile y { recv y n int; send y n; } close y; }
connect a x p to b y q;
%%talk
"""


def lines_of(count):
    turns = (count - 2) // 3
    return [b"more x\n", b"send x 1\n", b"take x\n"] * turns + [b"stop x\n", b"close x\n"]


def echo(stream):
    """Answers each line by a line, as a party by hand would."""
    with stream.makefile("rwb") as file:
        for line in file:
            file.write(b"took x int 1\n" if line.startswith(b"take") else b"fine\n")
            file.flush()


def seat():
    child = subprocess.Popen([SJSEAT, "a", "--local", "--patience", "1000000"], stdin=subprocess.PIPE, stdout=subprocess.PIPE)
    child.stdin.write(FILE)
    child.stdin.flush()
    assert child.stdout.readline() == b"go\n"
    return child.stdin, child.stdout, child.wait


def pair():
    here, there = socket.socketpair()
    child = os.fork()
    if child == 0:
        here.close()
        echo(there)
        os._exit(0)
    there.close()
    out, come = here.makefile("wb"), here.makefile("rb")

    def end():
        here.close()
        os.waitpid(child, 0)
    return out, come, end


def one_by_one(out, come, lines):
    for line in lines:
        out.write(line)
        out.flush()
        said = come.readline()
        assert said in (b"fine\n", b"took x int 1\n"), (line, said)


def all_at_once(out, come, lines):
    def write():
        out.write(b"".join(lines))
        out.flush()
    writer = threading.Thread(target=write)
    writer.start()
    for line in lines:
        said = come.readline()
        assert said in (b"fine\n", b"took x int 1\n"), (line, said)
    writer.join()


def timed(begin, go, lines):
    out, come, end = begin()
    before = time.perf_counter()
    go(out, come, lines)
    seconds = time.perf_counter() - before
    out.close()
    come.read() if begin is seat else come.close()
    end()
    return len(lines) / seconds


def main():
    count, runs = (list(map(int, sys.argv[1:])) + [9000, 10][len(sys.argv) - 1:])[:2]
    lines = lines_of(count)
    print("| What | How | Lines | Best a second | Median a second |\n|---|---|---|---|---|")
    for name, begin in (("sjseat", seat), ("socketpair", pair)):
        for how, go in (("one", one_by_one), ("all", all_at_once)):
            rates = [timed(begin, go, lines) for _ in range(runs)]
            print("| %s | %s | %d | %d | %d |" % (name, how, len(lines), max(rates), statistics.median(rates)), flush=True)


main()
