#!/usr/bin/env python3
"""usage: talks.py [SEED [COUNT]]. Each party of generated files, and of examples, is played by the acts that it does in a run, with wrong lines between them:
each act is answered with what it took there, each wrong line with its rule, and the verdict is that of the run. A party that opens sessions isn't played."""
import glob
import itertools
import re
import sys
from calls import TOP, VERDICTS, answer, arguments, knows, spread, talk
from files import accepted, seeded

seed, count = arguments(2000)
EVENT = re.compile(rb"[0-9]+ (\w+) (send|take|close) ([0-9]+\.[01])(?: (.*))?")
CONNECT = re.compile(rb"^connect (\w+) (\w+) \w+ to (\w+) (\w+) \w+;", re.M)
PARTY = re.compile(rb"^party (\w+)(.*?)(?=^party|^connect|\Z)", re.M | re.S)
OPENS = re.compile(rb"\b(?:request|accept) \w+ \w+ (?:to|from) \w+;")
WRONG = [(b"sing x", b"G1"), (b"send  x 5", b"G1"), (b"send x 05", b"G1"), (b"", b"G1"), (b"take nowhere", b"G2"), (b"close nowhere", b"G2"), (b"delegate nowhere nowhere", b"G2")]


def line_of(kind, end, message, names, fresh):
    """The line of an act, with names of ends; an end that is taken gets a new one."""
    word, _, rest = message.partition(b" ")
    if word == b"session":
        other = rest.split(b" ")[0]
        if kind == b"send":
            return b"delegate %s %s" % (names[end], names.pop(other))
        names[other] = b"t%d" % next(fresh)
        return b"take %s %s" % (names[end], names[other])
    if kind != b"send":
        return b"%s %s" % (kind, names.pop(end) if kind == b"close" else names[end])
    if word == b"label":
        return b"select %s %s" % (names[end], rest)
    return b"%s %s" % (word, names[end]) if word in (b"more", b"stop") else b"send %s %s" % (names[end], rest)


def played(rng, text, party, log):
    """The lines of that party, and the answers that are wanted."""
    names, fresh, lines, wanted = {}, itertools.count(1), [], []
    for session, (a, x, b, y) in enumerate(CONNECT.findall(text)):
        names.update({b"%d.%d" % (session, side): name for side, (who, name) in enumerate([(a, x), (b, y)]) if who == party})
    for who, kind, end, message in EVENT.findall(log):
        if who != party:
            continue
        while rng.randrange(6) == 0:
            wrong, rule = rng.choice(WRONG)
            lines.append(wrong)
            wanted.append(b"refused %d %s" % (len(lines), rule))
        lines.append(line_of(kind, end, message, names, fresh))
        wanted.append(b"took " + message if kind == b"take" else b"ok")
    return lines, wanted


corpus = [open(f, "rb").read() for f in sorted(glob.glob(TOP + "/examples/*.sj"))]


def one(number, tally):
    rng = seeded(seed, number)
    text = accepted(rng) if rng.randrange(4) else rng.choice(corpus)
    status, out = answer(["run", "--log"], text)
    if status not in (0, 6):
        return  # it is refused, or a party is at a limit, which would be the played one's own
    for party, found in enumerate(PARTY.finditer(text)):
        if OPENS.search(found[2]):
            continue  # no line requests or accepts a session
        lines, wanted = played(rng, text, found[1], out[out.find(b"%%log"):])
        got = answer(["talk", str(party)], talk(text, lines))
        due = (status, b"".join(line + b"\n" for line in wanted + [VERDICTS[status]]))
        tally.times["with sessions that others open"] += OPENS.search(text) is not None
        tally.one(got == due, "party %d: %s" % (party, got[0]), talk(text, lines))


if __name__ == "__main__":
    first = open(TOP + "/examples/first.sj", "rb").read()
    if not knows(["talk", "0"], talk(first, [])):
        sys.exit(2)
    tally = spread(count, one)
    print("%d with sessions that others open" % tally.times["with sessions that others open"])
    tally.end()
