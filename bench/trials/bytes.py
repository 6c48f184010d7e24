#!/usr/bin/env python3
"""usage: bytes.py [SEED [COUNT]]. Changed files, logs, lines of a played party, pictures and frames: each call ends with a status of its table, twice with
the same answer; each kind of call has a second thing to hold besides, which stands at it."""
import glob
import os
import re
import tempfile
from calls import BENCH_WIRE, SJDRAW, SJWHY, STATUSES, TOP, answer, arguments, is_forwarded, is_talked, knows, preloaded, spread, stands, talk
from files import accepted, mutated, seeded
from frames import count_of, stream

seed, count = arguments(1000000)
corpus = [open(f, "rb").read() for f in sorted(glob.glob(TOP + "/examples/*.sj"))]
first = open(TOP + "/examples/first.sj", "rb").read()
folder = tempfile.TemporaryDirectory()
short = preloaded(folder.name, "refuse")


def logged(rng, text):
    """A file's transcript and log, the same each time."""
    return answer(["run", "--workers", "1", "--log"], text)[1] if rng.randrange(2) else answer(["replay", "--log"], text + b"%%log\n")[1]


def lines_of(rng, text):
    """Some lines of a played party, mostly on ends of the file."""
    ends = re.findall(rb"^connect \w+ (\w+) \w+ to \w+ (\w+) ", text, re.M)
    names = [name for both in ends for name in both] + [b"e", b"session"]
    labels = re.findall(rb"(\w+):", text) + [b"L0"]
    values = [b"5", b"-7", b"true", b'"Paris"', b'""', b"-9223372036854775808", b"05"]
    for _ in range(rng.randrange(12)):
        end, other, label, value = rng.choice(names), rng.choice(names), rng.choice(labels), rng.choice(values)
        forms = [b"send %s %s" % (end, value), b"select %s %s" % (end, label), b"more %s" % end, b"stop %s" % end, b"delegate %s %s" % (end, other)]
        yield rng.choice(forms + [b"take %s" % end] * 3 + [b"take %s %s" % (end, other), b"close %s" % end, b""])


def changed(rng, base):
    """The file, mostly changed."""
    return mutated(rng, base, rng.choice(corpus)) if rng.randrange(4) else base


# Each of these answers the words of a call, its input, its program, its statuses, and what holds of its answer besides.


def plain(words, rng, base):
    return words, changed(rng, base), None, STATUSES, lambda got: True


def run(rng, base):
    text = changed(rng, base)
    words = rng.choice([["run"], ["run", "--looks", "0"], ["run", "--workers", "2"]])
    return words, text, None, STATUSES, lambda got: got == answer(["sim"], text)


def forward(rng, base):
    text = changed(rng, base)
    return ["run", "--forward"], text, None, STATUSES, lambda got: is_forwarded(got, answer(["sim"], text))


def forest(rng, base):
    """No forest blocks."""
    text = changed(rng, base)
    return ["forest"], text, None, STATUSES, lambda got: got[1] != b"forest yes\n" or answer(["sim"], text)[0] in (0, 7)


def show(rng, base):
    """The protocols that were shown are shown as themselves; with the duals in their place they are the duals."""

    def holds(got):
        lines = got[1].splitlines(keepends=True)
        protocols, duals = lines[::2], [b"protocol" + line[len(b"dual"):] for line in lines[1::2]]
        turned = [line for pair in zip(duals, (b"dual" + line[len(b"protocol"):] for line in protocols)) for line in pair]
        return got[0] != 0 or answer(["show"], b"".join(protocols)) == got and answer(["show"], b"".join(duals)) == (0, b"".join(turned))

    return ["show"], changed(rng, base), None, STATUSES, holds


def replay(rng, base):
    log = logged(rng, base)
    at = log.find(b"%%log")
    return ["replay", "--log"], base + mutated(rng, log[at:], log), None, STATUSES, lambda got: True


def talked(rng, base):
    """Each line has its answer."""
    lines = list(lines_of(rng, base))
    text = talk(base, lines) if rng.randrange(2) else base + b"%%talk\n" + mutated(rng, talk(b"", lines)[7:], base)
    return ["talk", str(rng.randrange(4))], text, None, STATUSES, lambda got: got[0] in (5, 14) or is_talked(got, text[len(base) + 7:])


def draw(rng, base):
    return [], mutated(rng, logged(rng, base), base), SJDRAW, {0, 4, 5}, lambda got: True


def why(rng, base):
    """The status is that of `check`, and its text is the front; an accepted file may be a picture instead."""
    text = changed(rng, base)
    words = rng.choice([[], ["--colour"], ["--svg"], ["--svg", "--colour"]])

    def holds(got):
        status, said = answer(["check"], text)
        return got[0] == status and got[1].startswith(b"<svg " if status == 0 and "--svg" in words else said)

    return words, text, SJWHY, STATUSES, holds


def wire(rng, base):
    """The stream has as many frames as the grammar counts, or is refused, wherever it is cut."""
    text, size = stream(rng), rng.choice(["1", "2", "3", "7", "50", "1000"])
    frames = count_of(text)
    wanted = (1, b"") if frames is None else (0, b"%d\n" % frames)
    cut = {**os.environ, "LD_PRELOAD": short, "SHORT": size if len(text) < 20000 else "1000"}
    return [], text, BENCH_WIRE, {0, 1}, lambda got: got == wanted and answer([], text, BENCH_WIRE, env=cut) == wanted


kinds = {"check": lambda *it: plain(["check"], *it), "sim": lambda *it: plain(["sim"], *it), "run": run, "show": show, "replay": replay, "forest": forest,
         "forward": forward, "talk": talked, "draw": draw, "why": why, "wire": wire}
there = {"forest": knows(["forest"], first), "forward": knows(["run", "--forward"], first), "talk": knows(["talk", "0"], talk(first, [])), "draw": stands(SJDRAW), "why": stands(SJWHY),
         "wire": stands(BENCH_WIRE)}


def one(number, tally):
    rng = seeded(seed, number)
    name = rng.choice(list(kinds))
    if not there.get(name, True):
        return
    base = rng.choice(corpus) if rng.randrange(3) else accepted(rng)
    words, text, program, statuses, holds = kinds[name](rng, base)
    got = answer(words, text, program)
    good = got[0] in statuses and holds(got) and answer(words, text, program) == got
    tally.times[name, got[0]] += 1
    tally.one(good, "%s %s answers %s" % (name, words, got[0]), text)


tally = spread(count, one)
for name in kinds:
    print("%s: %s" % (name, ", ".join("status %s %d times" % (status, times) for (kind, status), times in sorted(tally.times.items(), key=str) if kind == name)))
tally.end()
