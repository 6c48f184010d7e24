"""A party of a file, played by Python. Copy this file: it needs Python alone, and the program `sjseat` on the path or where
the variable SJSEAT says. The other parties run beside it; with the options "--run", "visit" they are processes over a server.
with Session("desk.sj", "store") as store:
    end = store.take("u", "s")         # an end, under the name that it gets
    wanted = store.take(end)           # a number, a truth value, a text or a label, or whether a loop goes on
    store.send(end, 12)
    store.close(end)
print(store.rest)  # the transcript. What the file doesn't allow raises the rule that says so. Nothing of it happens then, and the session goes on."""
import contextlib
import os
import subprocess


class Refused(Exception):
    """A rule of docs/SEAT.md refuses it: one of the exceptions below. That page mends an example of each."""


class Waiting(Exception):
    """Nothing came yet that it needs. It may be asked for again."""


class Stopped(Exception):
    """Nothing is done any more, or the party isn't played at all."""


NAMES = {"G1": "NoForm", "G2": "NotHeld", "G3": "BeginsOtherwise", "G4": "WrongEnd", "G5": "WrongKind", "G6": "AtLimit", "G8": "NotOpened"}
RULES = {rule: type(name, (Refused,), {}) for rule, name in NAMES.items()}
NoForm, NotHeld, BeginsOtherwise, WrongEnd, WrongKind, AtLimit, NotOpened = RULES.values()


class Session:
    def __init__(self, file, party, *options):
        words = [os.environ.get("SJSEAT", "sjseat"), party, *([] if "--run" in options else ["--local"]), *options]
        self.child = subprocess.Popen(words, stdin=subprocess.PIPE, stdout=subprocess.PIPE, encoding="utf-8")
        self.rest, self.status, self.again = None, None, []
        with open(file, encoding="utf-8") as text:
            said = self.say(text.read() + "\n%%talk")
        while said.startswith("again "):  # over a server: what a process before this one did
            self.again, said = self.again + [said[6:]], self.child.stdout.readline().rstrip("\n")
        if said != "go":  # the file isn't accepted, or has no such party
            self.leave()
            raise Stopped((said + "\n" + self.rest).strip())

    def __enter__(self):
        return self

    def __exit__(self, *fault):
        self.leave()

    def say(self, line):
        with contextlib.suppress(BrokenPipeError):  # where the program has ended, what it said last is read
            self.child.stdin.write(line + "\n")
            self.child.stdin.flush()
        return self.child.stdout.readline().rstrip("\n")

    def ask(self, *words):
        """What answers a line of docs/SEAT.md, as ask("ahead", "x") or ask("request", "x", "p", "to", "desk")."""
        word, _, rest = self.say(" ".join(map(str, words)).replace("\n", "\r")).partition(" ")
        if word == "refused":
            raise RULES[rest.split(" ")[1]](rest.split(" ", 2)[2])
        if word not in ("fine", "took", "opened", "ready", "not", "ends", "ahead"):
            raise (Waiting if word == "waiting" else Stopped)((word + " " + rest).strip())
        return rest

    def send(self, end, value):
        self.ask("send", end, '"%s"' % value if isinstance(value, str) else str(value).lower())

    def ready(self, end):
        return not self.ask("ready", end)

    def select(self, end, label):
        self.ask("select", end, label)

    def turn(self, end, more):
        self.ask("more" if more else "stop", end)

    def take(self, end, *name):
        return took(self.ask("take", end, *name))[1]

    def take_any(self, *ends):
        """The first of two ends or more on which something is there, and what it is."""
        return took(self.ask("take", "any", *ends))

    def delegate(self, end, sent):
        self.ask("delegate", end, sent)

    def close(self, end):
        self.ask("close", end)

    def leave(self):
        """No more is asked for. What the program says then is in `rest`, and its status in `status`."""
        if self.rest is None:
            self.rest, self.status = self.child.communicate()[0], self.child.wait()


def took(answer):
    end, kind, *rest = answer.split(" ", 2)
    known = {"int": int, "boolean": "true".__eq__, "String": lambda it: it[1:-1], "label": str, "session": lambda it: it.split(" ")[-1]}
    return end, known[kind](rest[0]) if rest else kind == "more"
