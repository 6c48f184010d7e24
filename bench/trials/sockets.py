#!/usr/bin/env python3
"""usage: sockets.py [SEED [COUNT]]. `sjnet run` with its descriptors at their limit, with each call of the system on sockets refused in turn, and with streams
that are cut, changed or slow: the answer is `link fault`, `damaged` or the one transcript, never another, and each call ends."""
import os
import re
import struct
import tempfile
from calls import SJNET, TOP, answer, arguments, preloaded, spread
from files import accepted, seeded

STREAMS = 256
CALLS = ["socket", "bind", "listen", "connect", "accept4", "getsockname", "setsockopt", "send", "recv"]
REFUSALS = {"socket": 24, "bind": 98, "listen": 98, "connect": 111, "accept4": 24, "getsockname": 105, "setsockopt": 12, "send": 104, "recv": 104}  # errno
DAMAGED = re.compile(rb"damaged entry [1-9][0-9]* logged [^\n]+ due [^\n]+\n")
FAULT = (8, b"link fault\n")
EXAMPLES = ["agency", "crossing", "resent", "back", "relay", "opened"]
folder = tempfile.TemporaryDirectory()
library = preloaded(folder.name, "spoil")


def read(name):
    with open("%s/examples/%s.sj" % (TOP, name), "rb") as it:
        return it.read()


def parties_of(text):
    return len(re.findall(rb"^party ", text, re.M))


def judged(tally, kind, wanted, got, why, text, damaged=False, whole=False):
    """Counts an answer; `whole` asks for the transcript itself."""
    is_good = got == wanted or not whole and got == FAULT or damaged and got[0] == 9 and DAMAGED.fullmatch(got[1]) is not None
    tally.times[kind, got[0]] += 1
    tally.one(is_good, "%s: %s answers %s %r" % (kind, why, got[0], got[1][:200]), text)


def words_of(rng):
    return rng.choice([["run"], ["run", "--looks", "0"], ["run", "--looks", "7"], ["run", "--looks", "200"], ["run", "--workers", "1"], ["run", "--workers", "3"]])


def spoilt(words, text, prefix=(), **how):
    """The answer, the bytes that were sent on each stream, how often each call came, and how often a stream was spoilt."""
    counted = "%s/%d" % (folder.name, os.getpid())
    got = answer(words, text, SJNET, prefix, 120, {**os.environ, "LD_PRELOAD": library, "COUNT": counted, **how})
    with open(counted, "rb") as it:
        numbers = struct.unpack("%dl" % (STREAMS + len(CALLS) + 1), it.read())
    return got, numbers[:STREAMS], numbers[STREAMS:-1], numbers[-1]


def limits(name, tally):
    """Descriptors at each limit from 4 on: where one sufficed, each higher one does. It needs 0 to 2, two for each stream, and one for the listener."""
    text = read(name)
    wanted, suffices = answer(["sim"], text), False
    for limit in range(4, 3 + 2 * parties_of(text) * (parties_of(text) - 1) + 4):
        got = answer(["run"], text, SJNET, ["sh", "-c", 'ulimit -n %d && exec "$@"' % limit, "sh"])
        judged(tally, "descriptors", wanted, got, "limit %d" % limit, text, whole=suffices)
        suffices = suffices or got == wanted
    tally.one(suffices, "the highest limit, %d, doesn't suffice" % limit, text)


def refusals(call, tally):
    """That call of the system is refused in turn, the first and the last 20 times."""
    text = read("agency")
    times = spoilt(["run"], text)[2][CALLS.index(call)]
    for at in range(1, times + 1):
        if at <= 20 or at > times - 20:
            got = spoilt(["run"], text, REFUSE="%s:%d:%d" % (call, at, REFUSALS[call]))[0]
            judged(tally, "refused", answer(["sim"], text), got, "%s %d" % (call, at), text)


def streams(rng, tally, prefix=()):
    """A file beside strangers, with slow streams, and with one that is spoilt."""
    text = accepted(rng) if rng.randrange(4) else read(rng.choice(EXAMPLES))
    words, wanted = words_of(rng), answer(["sim"], text)
    got, sent, _, _ = spoilt(words, text, prefix, STRANGER="1")
    judged(tally, "strangers", wanted, got, words, text, whole=True)
    got = spoilt(words, text, prefix, SHORT=str(rng.randrange(1 << 30)))[0]
    judged(tally, "slow", wanted, got, words, text, whole=True)
    used = [stream for stream, length in enumerate(sent) if length]
    if not used:
        return
    stream = rng.choice(used)
    kind = rng.choice(["end", "abort", "change", "change", "change", "lose", "double"])
    by = 1 << rng.randrange(8) if kind == "change" else rng.choice([1, 4, 40])
    # the beginning of a stream tells most: a frame's length, version, kind and clock
    byte = rng.randrange(rng.choice([min(sent[stream], 20), min(sent[stream], 40), sent[stream]]))
    spoil = "%s:%d:%d:%d" % (kind, stream, byte, by)
    got, _, _, hits = spoilt(words, text, prefix, SPOIL=spoil)
    tally.times["spoilt"] += hits > 0
    judged(tally, kind, wanted, got, "%s, %s" % (words, spoil), text, damaged=True)


def one(number, tally):
    """Behind the files the limits of three examples, and the refusals of each call."""
    if number < count:
        streams(seeded(seed, number), tally)
    elif number < count + 3:
        limits(["agency", "crossing", "opened"][number - count], tally)
    else:
        refusals(CALLS[number - count - 3], tally)


if __name__ == "__main__":
    seed, count = arguments(2000)
    tally = spread(count + 3 + len(CALLS), one)
    struck = tally.times.pop("spoilt", 0)
    for kind in sorted({kind for kind, _ in tally.times}):
        print("%s: %s" % (kind, ", ".join("status %s %d times" % (status, times) for (of, status), times in sorted(tally.times.items(), key=str) if of == kind)))
    print("%d files had a stream spoilt" % struck)
    if count and not struck:
        tally.one(False, "no stream was spoilt at all")
    tally.end()
