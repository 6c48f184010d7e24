"""Frames of the wire for the trials: spelt ones, streams that are changed, and how many frames a stream has."""

SHORTEST, LONGEST = 15, 2097152
LAST_CLOCK, CONNS, MESSAGES, HOPS, CACHED = 2**62 - 1, 1000, 1000000, 100, 200000
CARRY, FIN, CLAIM, SIGNAL, ACK, GIVE, OPEN = range(1, 8)


def spelt(width, number):
    return number.to_bytes(width, "big")


def is_wrong(rng, odds):
    """Once in so many times, and never where it is 0."""
    return odds > 0 and rng.randrange(odds) == 0


def within(rng, limit, odds):
    """A number up to a limit, and at times the next one."""
    return limit + 1 if is_wrong(rng, odds) else rng.choice([0, 1, min(2, limit), limit - 1, limit])


def message(rng, odds):
    tag = within(rng, 5, odds) if rng.randrange(4) else 0
    fields = {0: [(8, rng.getrandbits(64))], 1: [(1, within(rng, 1, odds))], 2: [(4, rng.getrandbits(32))], 3: [(2, rng.getrandbits(16))], 4: [(1, within(rng, 1, odds))],
              5: [(4, rng.getrandbits(32)), (1, within(rng, 1, odds)), (2, rng.getrandbits(16))], 6: []}[tag]
    return spelt(1, tag) + b"".join(spelt(*field) for field in fields)


def give(rng, odds):
    """The fields of a Give, behind its end."""
    sent = within(rng, MESSAGES, odds)
    count = sent + 1 if is_wrong(rng, odds) else min(sent, rng.randrange(6))
    cache = b"".join(message(rng, odds) for _ in range(min(count, 9)))
    if rng.randrange(20000) == 0:
        # as many as there may be, or one more
        sent, count = MESSAGES, CACHED + is_wrong(rng, odds and 2)
        cache = b"\4\1" * count
    from_at = sent - count + (rng.choice([-1, count + 1]) if is_wrong(rng, odds) else rng.choice([0, count // 2, count]))
    again = rng.choice([b"\0", b"\1" + spelt(4, max(0, from_at))])
    counts = [(4, within(rng, CONNS, odds)), (2, rng.getrandbits(16)), (4, sent), (4, within(rng, MESSAGES, odds)), (1, within(rng, HOPS, odds)), (4, count)]
    return b"".join(spelt(*it) for it in counts) + cache + again


def frame(rng, odds):
    """A frame, of which each field is beyond its limit once in so many times."""
    kind = rng.randrange(CARRY, OPEN + 1)
    version = rng.randrange(4) if is_wrong(rng, odds) else 2 if kind == OPEN else 1
    side = 1 if kind == OPEN and not is_wrong(rng, odds) else within(rng, 1, odds)
    head = [spelt(1, version), spelt(1, kind), spelt(8, within(rng, LAST_CLOCK, odds)), spelt(4, rng.getrandbits(32)), spelt(1, side)]
    conn = spelt(4, within(rng, CONNS, odds))
    one, other = (spelt(4, within(rng, MESSAGES, odds)) for _ in range(2))
    fields = {CARRY: lambda: conn + one + other + message(rng, odds), FIN: lambda: conn + one, SIGNAL: lambda: conn + spelt(2, rng.getrandbits(16)) + one,
              ACK: lambda: conn, GIVE: lambda: give(rng, odds)}
    body = b"".join(head) + fields.get(kind, lambda: b"")()
    return spelt(4, len(body)) + body


def stream(rng):
    """Some frames, of which a few are dropped, doubled, exchanged or spliced, with a few bytes changed, taken away or put in."""
    odds = rng.choice([0, 0, 60, 1000])
    frames = [frame(rng, odds) for _ in range(rng.choice([1, 2, 3, 10, 40, 300]))]
    for _ in range(rng.choice([0, 0, 1, 2, 4])):
        i, j = rng.randrange(len(frames)), rng.randrange(len(frames))
        one, other, kind = frames[i], frames[j], rng.randrange(4)
        if kind == 0 and len(frames) > 1:
            del frames[i]
        elif kind == 1:
            frames.insert(j, one)
        elif kind == 2:
            frames[i], frames[j] = other, one
        else:
            # behind a length that fits, the head of the one and the rest of the other
            at = rng.randrange(4, min(len(one), len(other)) + 1)
            frames[i] = spelt(4, at - 4 + len(other) - at) + one[4:at] + other[at:]
    whole = bytearray(b"".join(frames))
    for _ in range(rng.choice([0, 0, 0, 1, 2])):
        if whole:
            at, kind = rng.randrange(len(whole)), rng.randrange(5)
            if kind < 2:
                whole[at] ^= 1 << rng.randrange(8)
            elif kind == 2:
                del whole[at:at + rng.randrange(1, 5)]
            elif kind == 3:
                whole[at:at] = rng.randbytes(rng.randrange(1, 5))
            else:
                del whole[at:]
    return bytes(whole)


class Refused(Exception):
    pass


class Fields:
    """What is left of a frame, read from its front."""

    def __init__(self, body):
        self.body, self.at = body, 0

    def number(self, width, most=None):
        field = self.body[self.at:self.at + width]
        value = int.from_bytes(field, "big")
        if len(field) < width or most is not None and value > most:
            raise Refused
        self.at += width
        return value

    def message(self):
        tag = self.number(1, 5)
        if tag == 5:
            self.number(4), self.number(1, 1), self.number(2)
        else:
            self.number(*[(8,), (1, 1), (4,), (2,), (1, 1)][tag])

    def give(self):
        self.number(4, CONNS), self.number(2)
        sent = self.number(4, MESSAGES)
        self.number(4, MESSAGES), self.number(1, HOPS)
        count = self.number(4, min(sent, CACHED))
        for _ in range(count):
            self.message()
        if self.number(1, 1) and self.number(4, sent) < sent - count:
            raise Refused


def read(body):
    """Reads the fields of a frame, or refuses it."""
    it = Fields(body)
    version, kind = it.number(1), it.number(1)
    if not (version == 1 and CARRY <= kind <= GIVE or version == 2 and kind == OPEN):
        raise Refused
    it.number(8, LAST_CLOCK), it.number(4)
    side = it.number(1, 1)
    if kind == OPEN and side == 0:
        raise Refused
    if kind == CARRY:
        it.number(4, CONNS), it.number(4, MESSAGES), it.number(4, MESSAGES), it.message()
    elif kind == FIN:
        it.number(4, CONNS), it.number(4, MESSAGES)
    elif kind == SIGNAL:
        it.number(4, CONNS), it.number(2), it.number(4, MESSAGES)
    elif kind == ACK:
        it.number(4, CONNS)
    elif kind == GIVE:
        it.give()
    if it.at != len(body):
        raise Refused


def count_of(stream):
    """How many frames a stream has, or None where one is refused; what is less than a frame at its end isn't counted."""
    at = frames = 0
    try:
        while at + 4 <= len(stream):
            size = int.from_bytes(stream[at:at + 4], "big")
            if not SHORTEST <= size <= LONGEST:
                raise Refused
            if at + 4 + size > len(stream):
                break
            read(stream[at + 4:at + 4 + size])
            at, frames = at + 4 + size, frames + 1
    except Refused:
        return None
    return frames
