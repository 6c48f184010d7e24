#!/usr/bin/env python3
"""usage: streams.py [SEED [COUNT]]. Over pipes each read and each write fails in turn, or COUNT of them where there are more, as they come and with one byte
at a time; the output is a full disk, or a pipe that is closed: the answer is that of the plain call, or status 2 with `read fault`, or 10 with a front of the
text."""
import os
import subprocess
import tempfile
from calls import SJ, TOP, answer, arguments, counted, knows, preloaded, spread, talk
from files import seeded

seed, count = arguments(500)
folder = tempfile.TemporaryDirectory()
library = preloaded(folder.name, "refuse")


def read(name):
    with open("%s/examples/%s.sj" % (TOP, name), "rb") as it:
        return it.read()


def piped(words, text, out=subprocess.PIPE, **how):
    """The status and the output of a call whose input is a pipe, and its output, too, where nothing else is named."""
    env = {**os.environ, "LD_PRELOAD": library, **how} if how else None
    done = subprocess.run([SJ, *words], input=text, stdout=out, stderr=subprocess.DEVNULL, timeout=60, env=env)
    return done.returncode, done.stdout


def full(words, text, plain):
    with open("/dev/full", "wb") as out:
        return piped(words, text, out)[0] == 10


def closed(words, text, plain):
    come, go = os.pipe()
    os.close(come)
    try:
        return piped(words, text, go)[0] in (10, -13)
    finally:
        os.close(go)


def slow(words, text, plain):
    return piped(words, text, SHORT="1") == plain


def failing(**how):
    """A call with such a read or write: it is as without, or a read fault, or a front of the text."""

    def holds(words, text, plain):
        got = piped(words, text, **how)
        return got in (plain, (2, b"read fault\n")) if "FAIL_READ" in how else got == plain or got[0] == 10 and plain[1].startswith(got[1])

    return holds


played = talk(read("agency"), [b"more x", b'send x "Oslo"', b"take x", b"send x 5", b"stop x", b"select x REJECT", b"close x"])
log = answer(["run", "--log"], read("opened"))[1]
calls = [(["check"], read("agency")), (["sim"], read("agency")), (["run", "--looks", "1000"], read("opened")), (["show"], read("agency")), (["make", "100"], b""),
         (["forest"], read("ring")), (["run", "--forward"], read("agency")), (["talk", "0"], played), (["replay", "--log"], read("opened") + log[log.find(b"%%log"):])]
tries = []
for words, text in calls:
    if not knows(words, text):
        continue
    tries += [(words, text, name, holds) for name, holds in (("a full disk", full), ("a closed pipe", closed), ("a byte at a time", slow))]
    for how in ({}, {"SHORT": "1"}):
        piped(words, text, COUNT=folder.name + "/count", **how)
        for name, times in zip(("FAIL_READ", "FAIL_WRITE"), counted(folder.name + "/count")[1:]):
            chosen = range(1, times + 1) if times <= count else sorted(seeded(seed, times).sample(range(1, times + 1), count))
            tries += [(words, text, "%s %s %d" % (" ".join(how), name, at), failing(**{**how, name: str(at)})) for at in chosen]


def one(number, tally):
    words, text, name, holds = tries[number]
    tally.one(holds(words, text, answer(words, text)), "%s, %s" % (words, name), text)


spread(len(tries), one).end()
