#!/usr/bin/env python3
"""usage: remote_seats.py [SEED [COUNT]]. One party of each of so many files is played by lines of sjseat over a Redis server, beside processes of sjparty: by the acts that it does in
a run, with wrong lines between them. The seat is killed at any time, and started again with the same words. It tells what it did before, no act twice and none that was answered left
out, and goes on. Each line has its answer, and what sjjoin prints is the transcript of `sim`. Not played is a party that opens sessions in a loop or an arm, or of several protocols
with one other party, or that computes. KILLS is how often a seat is killed at most."""
import itertools
import os
import re
import select
import shutil
import signal
import subprocess
import sys
import tempfile
import time

import remote
import seats
from calls import USUAL, answer, arguments, program, spread, stands
from files import accepted, seeded
from talks import OPENS, PARTY, line_of

SJSEAT, SJPARTY, SJJOIN = program("sjseat"), program("sjparty"), program("sjjoin")
SESSION = re.compile(rb"\b(request|accept) \w+ (\w+) (?:to|from) (\w+);")
KILLS = int(os.environ.get("KILLS", 8))
PATIENCE = 60  # the seconds after which a file is late
WAIT = "3"


class Killed(Exception):
    """The seat was killed."""


class Bad(Exception):
    """What was said isn't what is wanted."""


class Seat:
    """A process of sjseat."""

    def __init__(self, text, party, words):
        self.child = subprocess.Popen([SJSEAT, party, *words], stdin=subprocess.PIPE, stdout=subprocess.PIPE, env=USUAL)
        self.text, self.end = b"", time.time() + PATIENCE
        self.put(text + b"%%talk\n")

    def put(self, text):
        try:
            self.child.stdin.write(text)
            self.child.stdin.flush()
        except BrokenPipeError:
            pass

    def line(self):
        while b"\n" not in self.text:
            if not select.select([self.child.stdout], [], [], max(0, self.end - time.time()))[0]:
                raise Bad("late")
            piece = os.read(self.child.stdout.fileno(), 65536)
            if not piece:
                raise Bad("no answer: %r %s" % (self.text, self.child.wait()))
            self.text += piece
        line, self.text = self.text.split(b"\n", 1)
        return line

    def ask(self, line):
        """What answers the line, which is asked for again as long as it waits."""
        while True:
            self.put(line + b"\n")
            said = self.line()
            if said != b"waiting":
                return said

    def kill(self):
        self.child.send_signal(signal.SIGKILL)
        self.close()

    def close(self):
        for pipe in (self.child.stdin, self.child.stdout):
            try:
                pipe.close()
            except BrokenPipeError:
                pass
        return self.child.wait()


class Trial:
    def __init__(self, rng, text, party, log, opens, words, tally):
        self.rng, self.text, self.party, self.opens, self.words, self.tally = rng, text, party, opens, words, tally
        self.acts = [act[1:] for act in seats.EVENT.findall(log) if act[0] == party]
        self.done, self.kills = 0, KILLS

    def act_line(self, at, names, opens, fresh):
        """The line of an act, and what answers it."""
        kind, end, message = self.acts[at]
        if kind in (b"request", b"accept"):
            side, word = (b".0", b"to") if kind == b"request" else (b".1", b"from")
            names[end + side] = b"t%d" % next(fresh)
            return b"%s %s %s %s %s" % (kind, names[end + side], opens.pop(0), word, message), b"opened " + names[end + side]
        name = names[end]
        line = line_of(kind, end, message, names, fresh)
        if kind != b"take":
            return line, b"fine"
        return line, b"took %s %s" % (name, message) + (b" " + line.split(b" ")[2] if message.startswith(b"session") else b"")

    def again(self, at, told, names, opens):
        """What is told of an act that was done before; the end that comes of it has the name that stands there."""
        kind, end, message = self.acts[at]
        words = told.split(b" ")
        if kind in (b"request", b"accept"):
            names[end + (b".0" if kind == b"request" else b".1")] = words[1]
            return b"%s %s %s %s %s" % (kind, words[1], opens.pop(0), b"to" if kind == b"request" else b"from", message)
        name = names[end]
        if kind != b"take":
            return line_of(kind, end, message, names, iter(()))
        if message.startswith(b"session"):
            names[message.split(b" ")[1]] = words[-1]
            return b"took %s %s %s" % (name, message, words[-1])
        return b"took %s %s" % (name, message)

    def begin(self, seat):
        """What it did before; the names of its ends then."""
        names, opens, count = seats.names_of(self.text, self.party), list(self.opens), 0
        while (said := seat.line()) != b"go":
            if not said.startswith(b"again ") or count >= len(self.acts):
                raise Bad("no go: %r" % said)
            wanted = self.again(count, said[6:], names, opens)
            if said[6:] != wanted:
                raise Bad("told %r, wanted %r" % (said, wanted))
            count += 1
        if not self.done <= count <= self.done + 1:
            raise Bad("told %d acts, of which %d were answered" % (count, self.done))
        self.tally.times["acts told again"] += count
        self.done = count
        return names, opens

    def once(self, seat):
        """Asks for line after line until it is killed, or the last."""
        names, opens = self.begin(seat)
        number, fresh = self.done, itertools.count(1)
        while self.done < len(self.acts):
            while self.rng.randrange(6) == 0:
                wrong, rule = self.rng.choice(seats.WRONG)
                number += 1
                said = seat.ask(wrong)
                if re.sub(rb"^refused [0-9]+ ", b"", said) != re.sub(rb"^refused [0-9]+ ", b"", seats.refused(number, rule)):
                    raise Bad("%r: %r" % (wrong, said))
            dies = self.kills > 0 and self.rng.randrange(3) == 0
            line, wanted = self.act_line(self.done, names, opens, fresh)
            if dies:
                self.kills -= 1
                self.tally.times["kills"] += 1
                if self.rng.randrange(2):
                    seat.put(line + b"\n")
                    time.sleep(self.rng.choice([0, 0.001, 0.003, 0.01]))
                seat.kill()
                raise Killed
            said = seat.ask(line)
            if said != wanted:
                raise Bad("%r: %r, wanted %r" % (line, said, wanted))
            self.done += 1
            self.tally.times["lines done"] += 1
        if seat.ask(b"leave") != b"fine":
            raise Bad("leave")
        last, status = seat.line(), seat.close()
        if (last, status) not in ((b"ended", 0), (b"waits", 6)):
            raise Bad("%r %d" % (last, status))
        return last

    def play(self):
        while True:
            seat = Seat(self.text, self.party.decode(), self.words)
            try:
                return self.once(seat)
            except Killed:
                pass
            except Bad:
                seat.kill()
                raise


def is_played(party, body, log):
    """Whether the party opens sessions at known places, of one protocol with each other party, and its text has no step that a code doesn't do."""
    with_whom = [(verb, other, of) for verb, of, other in SESSION.findall(body)]
    known = {(verb, other): of for verb, other, of in with_whom}
    return seats.openings(body) is not None and all(known[it[:2]] == it[2] for it in with_whom) and b" %s local\n" % party not in log


def one(number, tally):
    rng = seeded(seed, number)
    text = accepted(rng) if rng.randrange(4) else rng.choice(seats.corpus)
    status, out = answer(["run", "--log"], text)
    if status not in (0, 6):
        return  # it is refused, or a party is at a limit, which would be the played one's own
    transcript, log = out[:out.find(b"%%log")], out[out.find(b"%%log"):]
    found = list(PARTY.finditer(text))
    mine = [it for it in found if is_played(it[1], it[2], log)]
    if not mine:
        tally.times["files without such a party"] += 1
        return
    it = rng.choice(mine)
    name, opens = it[1], seats.openings(it[2])
    folder = tempfile.mkdtemp()
    others = {}
    server = remote.Server(folder, tally)
    words = ["--run", "t%d" % number, "--server", "127.0.0.1:%d" % server.port, "--wait", WAIT]
    with open(folder + "/file.sj", "wb") as it:
        it.write(text)

    def begin(party):
        with open(folder + "/file.sj") as it:
            others[party] = subprocess.Popen([SJPARTY, party, *words], stdin=it, stdout=subprocess.DEVNULL, stderr=subprocess.DEVNULL, env=USUAL)

    try:
        for it in found:
            if it[1] != name:
                begin(it[1].decode())
        last = Trial(rng, text, name, log, opens, words, tally).play()
        tally.times["that end"] += last == b"ended"
        for party in list(others):
            # one that waited too long before the seat had done its part goes on
            if others[party].wait(PATIENCE) == 6:
                begin(party)
        for party, child in others.items():
            if child.wait(PATIENCE) not in (0, 6):
                raise Bad("%s: %d" % (party, child.returncode))
        got = answer(words[:4], b"", SJJOIN)
        accepts = re.search(rb"(?m)^party %s waits [0-9]+ from " % name, transcript) is not None
        if seats.without(got[1], name, accepts) != seats.without(transcript, name, accepts):
            raise Bad("joined %r" % (got,))
        tally.one(True, "")
    except (Bad, subprocess.TimeoutExpired) as bad:
        tally.one(False, "party %s: %s" % (name.decode(), bad), text)
    finally:
        for child in others.values():
            child.kill()
            child.wait()
        server.down()
        shutil.rmtree(folder, ignore_errors=True)


seed, count = arguments(200)
if __name__ == "__main__":
    if not all(map(stands, (SJSEAT, SJPARTY, SJJOIN))) or shutil.which("redis-server") is None:
        sys.exit(2)
    tally = spread(count, one)
    print(", ".join("%d %s" % (tally.times[what], what) for what in ("lines done", "acts told again", "kills", "that end", "files without such a party")))
    tally.end()
