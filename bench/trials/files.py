"""Files for the trials: generated ones that are accepted, and changed ones that need not be read at all."""
import functools
import random
import re


def scalar(rng):
    return rng.choice(["int", "boolean", "String"])


def value(rng, kind, texts):
    if kind == "int":
        return str(rng.choice([0, 1, 2, 7, 400, -1, -250, 1000000]))
    if kind == "boolean":
        return rng.choice(["true", "false"])
    return '"%s"' % rng.choice(texts)


class Part:
    """One message, choice or loop of a conversation, as both sides do it."""

    def __init__(self, rng, depth, texts):
        self.out = rng.randrange(2)
        self.form = rng.choice(["value"] * 5 + (["choice", "loop"] if depth < 2 else []))
        self.kind = scalar(rng)
        self.value = value(rng, self.kind, texts)
        if self.form == "choice":
            self.arms = [[Part(rng, depth + 1, texts) for _ in range(rng.randrange(3))] for _ in range(rng.randrange(1, 4))]
            self.taken = rng.randrange(len(self.arms))
        if self.form == "loop":
            self.body = [Part(rng, depth + 1, texts) for _ in range(rng.randrange(1, 3))]
            self.turns = rng.randrange(4)

    def item(self, side):
        mark = "!" if side == self.out else "?"
        if self.form == "value":
            return "!<%s>" % self.kind if side == self.out else "?(%s)" % self.kind
        if self.form == "choice":
            arms = ", ".join("L%d: %s" % (i, items(a, side)) if a else "L%d:" % i for i, a in enumerate(self.arms))
            return "%s{%s}" % (mark, arms)
        return "%s[%s]*" % (mark, items(self.body, side))

    def code(self, side, end, names):
        """The statement of that side on that end."""
        if self.form == "value":
            if side == self.out:
                return "send %s %s;" % (end, self.value)
            return "recv %s %s %s;" % (end, next(names), self.kind)
        if self.form == "choice":
            if side == self.out:
                return "outbranch %s L%d; %s" % (end, self.taken, body(self.arms[self.taken], side, end, names))
            arms = " ".join("L%d: { %s }" % (i, body(a, side, end, names)) for i, a in enumerate(self.arms))
            return "inbranch %s { %s }" % (end, arms)
        word = "outwhile %s %d" % (end, self.turns) if side == self.out else "inwhile %s" % end
        return "%s { %s }" % (word, body(self.body, side, end, names))


def items(parts, side):
    return ".".join(p.item(side) for p in parts)


def body(parts, side, end, names):
    return " ".join(p.code(side, end, names) for p in parts)


def fresh():
    number = 0
    while True:
        number += 1
        yield "v%d" % number


def accepted(rng):
    """A file that the checker accepts; it may block."""
    texts = ["", "Paris", "1 High Street", "x y z"]
    parties = rng.randrange(2, 7)
    protocols, connects = [], []
    lines = [[] for _ in range(parties)]  # of each party some runs of statements, each in order
    names = fresh()

    def protocol(text):
        protocols.append("protocol p%d { begin%s }" % (len(protocols), "." + text if text else ""))
        return "p%d" % (len(protocols) - 1)

    opened = {}  # of two parties the parts of what the first opens to the second, which are the same for all
    for number in range(rng.randrange(1, 6)):
        # both ends at one party, which blocks nearly always, seldom
        both = rng.sample(range(parties), 2) if rng.randrange(20) else [rng.randrange(parties)] * 2
        parts = [Part(rng, 0, texts) for _ in range(rng.randrange(1, 7))]
        is_opened = rng.randrange(4) == 0
        if is_opened:
            parts = opened.setdefault(tuple(both), parts)
        ends = ["e%d" % number, "f%d" % number]
        kinds = [protocol(items(parts, side)) for side in (0, 1)]
        for side in (0, 1):
            holder, end, at, run = both[side], ends[side], 0, []
            if is_opened:
                run.append("%s %s %s %s a%d;" % (("request", end, kinds[0], "to", both[1]) if side == 0 else ("accept", end, kinds[1], "from", both[0])))
            # the end may go on to another party
            for hop in range(rng.choice([0, 0, 1, 2])):
                to = rng.randrange(parties)
                cut = rng.randrange(at, len(parts))
                rest = items(parts[cut:], side)
                if to == holder or to == both[1 - side] and rng.randrange(8) or not rest or len(connects) > 40:
                    continue
                run.append(body(parts[at:cut], side, end, names))
                carrier, taker, moved = ("%s%dh%d" % (ends[side], number, hop) + x for x in ("c", "t", "m"))
                one = protocol("!<%s>" % rest)
                other = protocol("?(%s)" % rest)
                kind = protocol(rest)
                connects.append((holder, carrier, one, to, taker, other))
                run += ["delegate %s %s;" % (carrier, end), "close %s;" % carrier]
                lines[holder].append(run)
                run = ["recv %s %s session %s;" % (taker, moved, kind), "close %s;" % taker]
                holder, end, at = to, moved, cut
            run += [body(parts[at:], side, end, names), "close %s;" % end]
            lines[holder].append(run)
        if not is_opened:
            connects.append((both[0], ends[0], kinds[0], both[1], ends[1], kinds[1]))
    rng.shuffle(connects)
    text = "\n".join(protocols) + "\n"
    is_sorted = rng.randrange(2)  # session by session, which blocks seldom
    for party, runs in enumerate(lines):
        runs = [list(r) for r in runs]
        code = []
        while any(runs):
            left = [r for r in runs if r]
            code.append((left[0] if is_sorted else rng.choice(left)).pop(0))
        text += "party a%d { %s }\n" % (party, " ".join(c for c in code if c))
    for a, x, p, b, y, q in connects:
        text += "connect a%d %s %s to a%d %s %s;\n" % (a, x, p, b, y, q)
    return text.encode()


TOKEN = re.compile(rb'("[^"\n]*"|[A-Za-z_][A-Za-z_0-9]*|[0-9]+|\n|[^ ])')


@functools.lru_cache(64)
def pieces_of(text):
    """Blanks and tokens in turn: each second piece is a token."""
    return TOKEN.split(text)


RESERVED = set(b"""accept begin boolean close connect delegate else false from if int inbranch inwhile let not outbranch outwhile party protocol recv relay request
send session String to true""".split())


def form_of(token):
    """Tokens of one form are names, numbers, texts, or equal ones."""
    if token[:1].isalpha() or token[:1] == b"_":
        return token if token in RESERVED else "name"
    return "number" if token.isdigit() else "text" if token[:1] == b'"' else token


def another(rng, tokens, form):
    """The number of a token, of that form in most cases."""
    at = 1 + 2 * rng.randrange(len(tokens) // 2)
    for _ in range(rng.choice([0, 12, 12])):
        if form_of(tokens[at]) == form:
            break
        at = 1 + 2 * rng.randrange(len(tokens) // 2)
    return at


def mutated(rng, text, other):
    """The text with a few of its tokens exchanged, doubled, dropped or taken from another text, or of its bytes flipped."""
    pieces = list(pieces_of(text))
    for _ in range(rng.choice([1, 1, 1, 2, 4])):
        kind = rng.choice([0, 0, 0, 1, 2, 3, 3, 3, 4, 5])
        if kind == 5 or len(pieces) < 5:
            whole = bytearray(b"".join(pieces))
            if whole:
                whole[rng.randrange(len(whole))] = rng.randrange(256)
            pieces = TOKEN.split(bytes(whole))
            continue
        i = 1 + 2 * rng.randrange(len(pieces) // 2)
        if kind == 0:
            j = another(rng, pieces, form_of(pieces[i]))
            pieces[i], pieces[j] = pieces[j], pieces[i]
        elif kind == 1:
            pieces[i:i] = [pieces[i], b" "]
        elif kind == 2:
            pieces[i] = b""
        elif kind == 3:
            others = pieces_of(other)
            pieces[i] = others[another(rng, others, form_of(pieces[i]))] if len(others) > 1 else b"x"
        else:
            del pieces[rng.randrange(len(pieces)):]
            pieces.append(b"")
    return b"".join(pieces)


def seeded(seed, number):
    return random.Random("%d/%d" % (seed, number))
