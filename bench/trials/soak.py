#!/usr/bin/env python3
"""usage: soak.py [SEED [MINUTES]]. For so many minutes runs of generated files as of schedules.py, and as of sockets.py with strangers and with slow and
spoilt streams, at random; the most memory that a call took is printed for each tenth of the time."""
import os
import sys
import time
from calls import answer, arguments, spread
from files import accepted, seeded
from schedules import run_once
from sockets import folder, streams

seed, minutes = arguments(30, float)
begun = time.time()


def one(number, tally):
    rng = seeded(seed, number)
    # `time` is small itself: what a script starts counts as no less than the script
    peak = "%s/peak%d" % (folder.name, os.getpid())
    timed = ["/usr/bin/time", "-q", "-f", "%M", "-o", peak]
    if rng.randrange(4):
        text = accepted(rng)
        kind = "run"
        run_once(rng, text, answer(["sim"], text), tally, timed)
    else:
        kind = "sockets"
        streams(rng, tally, timed)
    with open(peak) as it:
        taken = int(it.read().split()[-1])
    tally.times[kind] += 1
    tenth = min(9, int((time.time() - begun) / 6 / minutes))  # the last call of a process may end late
    tally.most[kind, tenth] = max(taken, tally.most[kind, tenth])


tally = spread(sys.maxsize, one, begun + 60 * minutes)
for kind in ("run", "sockets"):
    peaks = [str(tally.most[kind, tenth]) for tenth in range(10)]
    print("%s: %d times, most KiB in each tenth of the time %s" % (kind, tally.times[kind], " ".join(peaks)))
tally.end()
