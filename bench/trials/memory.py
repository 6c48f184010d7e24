#!/usr/bin/env python3
"""usage: memory.py [SEED [COUNT]]. Of each command on some files each allocation in turn is refused, or COUNT of them where there are more: the answer is
status 11 and no byte, or the one without a refusal. Where valgrind is there, one call of each leaves no block behind."""
import os
import shutil
import tempfile
from calls import SJ, TOP, answer, arguments, counted, knows, preloaded, spread, talk
from files import seeded

seed, count = arguments(2000)
folder = tempfile.TemporaryDirectory()
library = preloaded(folder.name, "refuse")
env = {**os.environ, "LD_PRELOAD": library}


def read(name):
    with open("%s/examples/%s.sj" % (TOP, name), "rb") as it:
        return it.read()


played = talk(read("agency"), [b"more x", b'send x "Oslo"', b"take x", b"send x 5", b"stop x", b"select x ACCEPT", b'send x "1 High Street"', b"take x", b"close x"])
taking = talk(read("agency"), [b"take u", b"take u s", b"take s", b"close u"])
log = answer(["run", "--log"], read("opened"))[1]
replayed = read("opened") + log[log.find(b"%%log"):]
calls = [(["check"], read("agency")), (["show"], read("agency")), (["sim"], read("opened")), (["run"], read("agency")), (["run"], read("opened")), (["run", "--workers", "2"], read("agency")),
         (["run", "--forward"], read("agency")), (["run", "--forward"], read("opened")), (["replay", "--log"], replayed), (["forest"], read("agency")), (["forest"], read("tree")),
         (["talk", "0"], played), (["talk", "2"], taking), (["talk", "3"], played), (["big", "1"], b""), (["make", "1"], b"")]
tries = []
for words, text in calls:
    if not knows(words, text):
        continue
    plain = answer(words, text)
    answer(words, text, env={**env, "COUNT": folder.name + "/count"})
    allocs = counted(folder.name + "/count")[0]
    print("%s: %d allocations" % (" ".join(words), allocs))
    chosen = range(1, allocs + 1) if allocs <= count else sorted(seeded(seed, allocs).sample(range(1, allocs + 1), count))
    tries += [(words, text, plain, at) for at in chosen] + [(words, text, plain, None)] * (shutil.which("valgrind") is not None)


def one(number, tally):
    words, text, plain, at = tries[number]
    if at is None:
        got = answer(words, text, SJ, ["valgrind", "-q", "--leak-check=full", "--errors-for-leak-kinds=definite", "--error-exitcode=99"], 600)
        tally.one(got == plain, "%s under valgrind: %s" % (words, got[0]), text)
    else:
        got = answer(words, text, env={**env, "FAIL_ALLOC": str(at)})
        tally.times[" ".join(words), got[0]] += 1
        tally.one(got in (plain, (11, b"")), "%s, allocation %d: %s" % (words, at, got[0]), text)


tally = spread(len(tries), one)
for (words, status), times in sorted(tally.times.items(), key=str):
    print("%s: status %s %d times" % (words, status, times))
tally.end()
