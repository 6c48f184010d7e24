#!/usr/bin/env python3
"""usage: seat_runs.py [SEED [FILES [RINGS [SOCKETS]]]]. Parties that codes play, by `seat_trials`. In FILES generated files and in the examples each party in
turn, and then all at once, are played by codes that go by the file's bodies. Then random codes play, in RINGS runs over rings and in SOCKETS over sockets."""
import glob
import re
import sys
from calls import TOP, answer, arguments, program, spread, stands
from files import accepted, seeded

RUNS = 10  # of random codes, in each file
SAID = re.compile(rb"([0-9]+) tried, ([0-9]+) bad(, first [0-9]+: [a-z]+)?, ([0-9]+) done, ([0-9]+) refused, ([0-9]+) plain\n")
TRIALS = program("seat_trials")

seed, files = arguments(500)
rings = int(sys.argv[3]) if len(sys.argv) > 3 else 10000
sockets = int(sys.argv[4]) if len(sys.argv) > 4 else 2000
if not stands(TRIALS):
    sys.exit(2)
corpus = [open(f, "rb").read() for f in sorted(glob.glob(TOP + "/examples/*.sj"))]
corpus = [text for text in corpus if answer(["file", "rings", "0", "1"], text, program=TRIALS)[0] == 0]  # one is refused
OPENS = re.compile(rb"\brequest\b")


def file_of(number):
    """That file among those of a trial: the examples, and then generated ones."""
    return corpus[number] if number < len(corpus) else accepted(seeded(seed, number))


def closed_file_of(number):
    """The same, or another one where it opens sessions: a code that goes by the file never leaves an accept, also where nobody requests."""
    rng, text = seeded(seed, number), file_of(number)
    while OPENS.search(text):
        text = accepted(rng)
    return text


def tried(tally, words, text):
    """One call; its runs are counted."""
    words = [*words, str(seed + tally.number), "counts"]
    status, out = answer(words, text, program=TRIALS, seconds=120)
    said = SAID.fullmatch(out)
    if said is None:
        tally.one(False, "%s: %s" % (" ".join(words), status), text)
        return
    runs, bad, done, refused, plain = (int(said[at]) for at in (1, 2, 4, 5, 6))
    tally.tried += runs - 1
    tally.one(bad == 0 and status == 0, "%s: %s" % (" ".join(words), out.decode().strip()), text)
    tally.bad += [(tally.number, "another run of that call")] * (bad - 1)
    tally.times.update({"runs of " + words[0] + " over " + words[1]: runs, "calls done": done, "calls refused": refused, "texts of sim": plain})


def by_file(number, tally):
    tried(tally, ["file", "rings", "1"], closed_file_of(number))


def at_random(links):
    return lambda number, tally: tried(tally, ["random", links, str(RUNS)], file_of(number))


tally = spread(len(corpus) + files, by_file)
for links, count in (("rings", rings), ("sockets", sockets)):
    tally.add(spread(-(-count // RUNS), at_random(links)))
for name in sorted(tally.times):
    print("%d %s" % (tally.times[name], name))
tally.end()
