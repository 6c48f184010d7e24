#!/usr/bin/env python3
"""usage: schedules.py [SEED [FILES [RUNS]]]. Generated files by `run`, held on 1, 2 and 4 processors, with few and with many looks, over rings and over
sockets, beside a loop on each processor, or on as many as LOOPS says: each prints what `sim` prints, and the log of one run of each is replayed."""
import contextlib
import os
import signal
import sys
from calls import PROCESSORS, SJNET, answer, arguments, spread
from files import accepted, seeded


@contextlib.contextmanager
def stress():
    """Loops on all processors, or on as many as LOOPS says, each until it is ended or its parent is gone."""
    parent, loops = os.getpid(), []
    for at in PROCESSORS[:int(os.environ.get("LOOPS", len(PROCESSORS)))]:
        loop = os.fork()
        if loop == 0:
            os.sched_setaffinity(0, [at])
            while os.getppid() == parent:
                pass
            os._exit(0)
        loops.append(loop)
    try:
        yield
    finally:
        for loop in loops:
            os.kill(loop, signal.SIGKILL)
            os.waitpid(loop, 0)


def words_of(rng):
    return rng.choice([["run", "--looks", looks] for looks in ("0", "1", "7", "1000")] + [["run", "--workers", "1"], ["run", "--workers", "3"]])


def run_once(rng, text, wanted, tally, prefix=()):
    """One run of a file, somewhere."""
    words, held = words_of(rng), PROCESSORS[:rng.choice([1, 2, 4])]
    program = SJNET if rng.randrange(5) == 0 else None
    got = answer(words, text, program, prefix, on=held)
    tally.one(got == wanted, "%s on %s, %s: %s" % (words, held, "sockets" if program else "rings", got[0]), text)


def schedules(number, tally):
    rng = seeded(seed, number)
    text = accepted(rng)
    wanted = answer(["sim"], text)
    tally.one(wanted[0] in (0, 6, 7), "sim %s" % wanted[0], text)
    tally.times[wanted[0]] += 1
    for _ in range(runs):
        run_once(rng, text, wanted, tally)
    status, out = answer(["run", "--log"], text)
    again = answer(["replay", "--log"], text + out[out.find(b"%%log"):])
    tally.one(again == (status, out), "its log replayed", text)


if __name__ == "__main__":
    seed, files = arguments(200)
    runs = int(sys.argv[3]) if len(sys.argv) > 3 else 50
    with stress():
        tally = spread(files, schedules)
    print("of the files %s" % ", ".join("status %d %d times" % it for it in sorted(tally.times.items())))
    tally.end()
