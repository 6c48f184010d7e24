#!/usr/bin/env python3
"""usage: seats.py [SEED [COUNT]]. Each party of generated files, and of examples, is played by lines of sjseat beside the others, which run on threads: by the acts that it
does in a run, with wrong lines between them. Each act is answered with what it took, each wrong line with its rule, and the transcript is that of `sim`. Then the party is played by
lines at random, and by any bytes as lines: each line has its answer, the run ends, and nothing is refused but lines. A party that opens sessions in a loop or an arm isn't played."""
import glob
import itertools
import re
import sys
from calls import TOP, VERDICTS, answer, arguments, program, spread, stands, talk
from files import accepted, seeded
from talks import CONNECT, PARTY, line_of

SJSEAT = program("sjseat")
RULES = [b"it has none of the forms of a line", b"an end isn't held", b"the place of the end begins otherwise", b"the end can't be sent there, or the name is in use",
         b"what is sent is of another kind", b"at a limit", None, b"no such session may be opened"]
EVENT = re.compile(rb"[0-9]+ (\w+) (send|take|close|request|accept) ([0-9]+(?:\.[01])?)(?: (.*))?")
OPENING = re.compile(rb"\b(?:request|accept) \w+ (\w+) (?:to|from) \w+;")
WRONG = [(b"sing x", 1), (b"send  x 5", 1), (b"send x 05", 1), (b"", 1), (b"ends x", 1), (b"ahead", 1), (b"take any x  y", 1), (b"take nowhere", 2), (b"close nowhere", 2),
         (b"delegate nowhere nowhere", 2), (b"ahead nowhere", 2), (b"take any nowhere other", 2), (b"request x nothing to nobody", 8), (b"accept x nothing from nobody", 8)]
MESSAGE = rb'(?:int -?[0-9]+|boolean (?:true|false)|String "[^"]*"|label \w+|more|stop|session [0-9]+\.[01] \w+ \w+)'
SAID = re.compile(rb"fine|took \w+ " + MESSAGE + rb"|opened \w+|ends(?: \w+)*|ahead begin.*|waiting|refused ([1-9][0-9]*) G(?:" + b"|".join(b"%d %s" % (n + 1, re.escape(it)) for n, it in enumerate(RULES) if it) + rb")")
LAST = re.compile(rb"(.*\n)?(done|blocked|long)\n", re.S)
OPENED = re.compile(rb"(?m)^session ([0-9]+) (\w+) \w+ (\w+) (\w+|-)$")


def by_ends(transcript):
    """The transcript with the ends of sessions that were opened by session and side, as a run with seats has them."""
    def ends(it):
        second = b"-" if it[4] == b"-" else it[1] + b".1"
        return b"session %s %s %s.0 %s %s" % (it[1], it[2], it[1], it[3], second) if int(it[1]) >= 64 else it[0]
    return OPENED.sub(ends, transcript)


def refused(number, rule):
    return b"refused %d G%d %s" % (number, rule, RULES[rule - 1])


def names_of(text, party):
    """The names of the ends that connections give the party."""
    names = {}
    for session, (a, x, b, y) in enumerate(CONNECT.findall(text)):
        names.update({b"%d.%d" % (session, side): name for side, (who, name) in enumerate([(a, x), (b, y)]) if who == party})
    return names


def openings(body):
    """The protocols of the sessions that a party opens, in order; None where it does so in a loop or an arm."""
    found = list(OPENING.finditer(body))
    depths = [body[:it.start()].count(b"{") - body[:it.start()].count(b"}") for it in found]
    return None if any(depth > 1 for depth in depths) else [it[1] for it in found]


def played(rng, text, party, log, opens):
    """The lines of that party, and the answers that are wanted."""
    names, fresh, lines, wanted = names_of(text, party), itertools.count(1), [], []
    for who, kind, end, message in EVENT.findall(log):
        if who != party:
            continue
        while rng.randrange(6) == 0:
            wrong, rule = rng.choice(WRONG)
            lines.append(wrong)
            wanted.append(refused(len(lines), rule))
        if kind in (b"request", b"accept"):
            side, word = (b".0", b"to") if kind == b"request" else (b".1", b"from")
            names[end + side] = b"t%d" % next(fresh)
            lines.append(b"%s %s %s %s %s" % (kind, names[end + side], opens.pop(0), word, message))
            wanted.append(b"opened " + names[end + side])
            continue
        name = names[end]
        line = line_of(kind, end, message, names, fresh)
        if kind != b"take":
            wanted.append(b"fine")
        elif message.startswith(b"session"):
            wanted.append(b"took %s %s %s" % (name, message, line.split(b" ")[2]))
        else:
            # a take from several ends, of which the other is the same, is that take, too
            line = line if rng.randrange(4) else b"take any %s %s" % (name, name)
            wanted.append(b"took %s %s" % (name, message))
        lines.append(line)
    return lines, wanted


def without(transcript, party, accepts):
    """The transcript without how that party stands: a code that waits does so at its first open end, a party of a file at that of its statement; and a code's steps are its calls.
    Where the party waits for a session, a code without an end has ended, and so the verdict isn't that of the file."""
    if accepts:
        return re.sub(rb"(?m)^party %s (?:ended|waits) .*\n" % party, b"", re.sub(rb"(?:done|blocked)\n\Z", b"", transcript))
    return re.sub(rb"(?m)^party %s (ended|waits) .*\n" % party, rb"\1\n", transcript)


def any_line(rng, names, labels, sessions):
    """A line, wrong or not; the sessions are those that some party opens."""
    end = lambda: rng.choice(names + [b"nowhere"])
    value = rng.choice([b"5", b"-1", b"true", b"false", b'"Paris"', b'"never heard"', b"05"])
    return rng.choice([b"send %s %s" % (end(), value)] * 3 + [b"take %s" % end()] * 4 + [b"take %s t%d" % (end(), rng.randrange(3)), b"take any %s %s" % (end(), end()),
                      b"close " + end(), b"more " + end(), b"stop " + end(), b"select %s %s" % (end(), rng.choice(labels)), b"delegate %s %s" % (end(), end()), b"ends",
                      b"ahead " + end(), b"leave"] + [b"%s t%d %s" % (verb, rng.randrange(3), rest) for verb, rest in sessions])


def any_bytes(rng, names):
    """A line of any bytes, or of words of lines."""
    if rng.randrange(2):
        return bytes(rng.choice(range(256)) for _ in range(rng.choice([0, 1, 7, 80]))).replace(b"\n", b"")
    words = [b"send", b"take", b"any", b"close", b"select", b"delegate", b"ahead", b"ends", b"more", b"", b"7", b'"a b"', b"L0", b"x" * 65, b"%%talk"] + names
    return b" ".join(rng.choice(words) for _ in range(rng.choice([1, 2, 2, 3, 3, 4, 9])))


def is_answered(got, lines):
    """Whether each line up to the first `leave` has its answer, and a transcript stands after them."""
    status, out = got
    if not out.startswith(b"go\n"):
        return False
    out = out[3:]
    count = lines.index(b"leave") + 1 if b"leave" in lines else len(lines)
    said = out.split(b"\n", count)
    if len(said) <= count or status not in (0, 6, 7, 13):
        return False
    matches = [SAID.fullmatch(line) for line in said[:count]]
    last = LAST.fullmatch(said[count])
    return last is not None and last[2] == VERDICTS.get(status) and all(it and it[1] in (None, b"%d" % (at + 1)) for at, it in enumerate(matches))


def one(number, tally):
    rng = seeded(seed, number)
    text = accepted(rng) if rng.randrange(4) else rng.choice(corpus)
    status, out = answer(["run", "--log"], text)
    if status not in (0, 6):
        return  # it is refused, or a party is at a limit, which would be the played one's own
    transcript, log = out[:out.find(b"%%log")], out[out.find(b"%%log"):]
    for party, found in enumerate(PARTY.finditer(text)):
        name, opens = found[1], openings(found[2])
        if opens is None:
            continue
        words = [name.decode(), "--local", "--patience", "1000000"]
        tally.times["that open sessions themselves"] += opens != []
        lines, wanted = played(rng, text, name, log, opens)
        got = answer(words, talk(text, lines), SJSEAT)
        said = b"go\n" + b"".join(line + b"\n" for line in wanted)
        accepts = re.search(rb"(?m)^party %s waits [0-9]+ from " % name, transcript) is not None
        good = got[0] in ((0, 6) if accepts else (status,)) and without(got[1], name, accepts) == said + without(by_ends(transcript), name, accepts)
        tally.one(good, "party %d: %s" % (party, got[0]), talk(text, lines))
        ends, labels = list(names_of(text, name).values()) or [b"x"], re.findall(rb"\bL[0-9]\b|\b[A-Z]+\b", text) + [b"NONE"]
        sessions = re.findall(rb"\b(request|accept) \w+ (\w+ (?:to|from) \w+);", text)
        for lines in [[any_line(rng, ends + [b"t0"], labels, sessions) for _ in range(40)], [any_bytes(rng, ends) for _ in range(40)]]:
            got = answer([str(party), "--local", "--patience", "2"], talk(text, lines), SJSEAT)
            tally.one(is_answered(got, lines), "party %d, lines at random: %s" % (party, got[0]), talk(text, lines))


seed, count = arguments(500)
corpus = [open(f, "rb").read() for f in sorted(glob.glob(TOP + "/examples/*.sj"))]
if __name__ == "__main__":
    if not stands(SJSEAT):
        sys.exit(2)
    tally = spread(count, one)
    print("%d of parties that open sessions themselves" % tally.times["that open sessions themselves"])
    tally.end()
