"""Parties as processes over a Redis server, of which each may be killed at any time: remote.py [SEED [COUNT]]. COUNT files are played, by the kinds of
trial below in turn. What `sjjoin` prints must be what `sj sim` prints, and a run that went on to its end has nothing left to do."""
import collections
import os
import random
import re
import select
import shutil
import signal
import socket
import sys
import tempfile
import threading
import time

import calls
import files

SJPARTY, SJJOIN = calls.program("sjparty"), calls.program("sjjoin")
KILLS = int(os.environ.get("KILLS", 90))  # of the parties of a file
PATIENCE = float(os.environ.get("PATIENCE", 120))  # the seconds after which a file is late
ENDS = {0: b"ended", 6: b"waits", 7: b"limit"}
AGAIN = {20: b"no server", 23: b"overtaken", 30: b"connection lost"}
REFUSALS = {
    **AGAIN, 21: b"password refused", 22: b"other file", 24: b"server error", 25: b"no reply", 26: b"no frame", 27: b"unfit", 28: b"log fault",
    29: b"too long",
}
# what sjjoin may answer to lies, besides the answer to the truth
JOINS = {3: b"too large", 4: b"syntax", 5: b"check", 12: b"log ", **REFUSALS, 31: b"no run"}
USER = ("ACL SETUSER party reset on >%s ~sj:* resetchannels -@all +auth +setnx +get +xadd +xread +del")


def free_port():
    with socket.socket() as it:
        it.bind(("127.0.0.1", 0))
        return it.getsockname()[1]


def spelt(words):
    """A command as its bytes."""
    return b"*%d\r\n" % len(words) + b"".join(b"$%d\r\n%s\r\n" % (len(w), w) for w in words)


class Lines:
    """A stream that is read by lines and by counts. It gives replies as trees: bytes, lists, or a pair of a mark and a line."""

    def __init__(self, stream):
        self.stream, self.text = stream, b""

    def more(self):
        piece = self.stream.recv(65536)
        if not piece:
            raise ConnectionError
        self.text += piece

    def line(self):
        while b"\r\n" not in self.text:
            self.more()
        line, self.text = self.text.split(b"\r\n", 1)
        return line

    def count(self, n):
        while len(self.text) < n:
            self.more()
        got, self.text = self.text[:n], self.text[n:]
        return got

    def reply(self):
        line = self.line()
        mark, rest = line[:1], line[1:]
        if mark == b"$":
            return None if rest == b"-1" else self.count(int(rest) + 2)[:-2]
        if mark == b"*":
            return None if rest == b"-1" else [self.reply() for _ in range(int(rest))]
        return mark, rest


def told(tree):
    """A reply as its bytes."""
    if tree is None:
        return b"*-1\r\n"
    if isinstance(tree, bytes):
        return b"$%d\r\n%s\r\n" % (len(tree), tree)
    if isinstance(tree, list):
        return b"*%d\r\n" % len(tree) + b"".join(map(told, tree))
    return tree[0] + tree[1] + b"\r\n"


class Server:
    """A Redis server of its own, in a folder, with an append-only file."""

    def __init__(self, folder, tally, words=()):
        self.folder, self.tally, self.words, self.port, self.child = folder, tally, words, free_port(), None
        self.up()

    def up(self):
        command = ["redis-server", "--bind", "127.0.0.1", "--port", str(self.port), "--dir", self.folder, "--appendonly", "yes", "--save", "", *self.words]
        log = "%s/server.log" % self.folder
        actions = [(os.POSIX_SPAWN_OPEN, fd, log, os.O_WRONLY | os.O_CREAT | os.O_APPEND, 0o600) for fd in (1, 2)]
        self.child = os.posix_spawnp(command[0], command, calls.USUAL, file_actions=actions)
        end = time.time() + PATIENCE
        while time.time() < end:
            try:
                if self.call("PING") is not None:
                    return
            except OSError:
                pass
            time.sleep(0.02)
        raise TimeoutError("no server")

    def call(self, *words, password=None):
        """The reply to a command; none while the server loads its file."""
        with socket.create_connection(("127.0.0.1", self.port), 10) as it:
            lines = Lines(it)
            if password:
                it.sendall(spelt([b"AUTH", password.encode()]))
                lines.reply()
            it.sendall(spelt([w.encode() for w in words]))
            got = lines.reply()
            return None if got == (b"-", b"LOADING Redis is loading the dataset in memory") else got

    def down(self, cut=0):
        """Killed; then its file loses so many bytes at its end, but at most half of it."""
        if self.child is None:
            return
        os.kill(self.child, signal.SIGKILL)
        os.waitpid(self.child, 0)
        self.child = None
        folder = "%s/appendonlydir" % self.folder
        for name in os.listdir(folder) if cut and os.path.isdir(folder) else ():
            if name.endswith(".incr.aof"):
                size = os.path.getsize("%s/%s" % (folder, name))
                cut = min(size // 2, cut)
                os.truncate("%s/%s" % (folder, name), size - cut)
                self.tally.times["bytes cut off"] += cut


class Proxy:
    """Between parties and a server. It is late, cuts connections, or gives other replies than those that came."""

    def __init__(self, server, rng, late=0.0, cut=0.0, lie=0.0):
        self.server, self.rng, self.late, self.cut, self.lie, self.lies, self.cuts = server, rng, late, cut, lie, 0, 0
        self.door = socket.create_server(("127.0.0.1", 0))
        self.port = self.door.getsockname()[1]
        threading.Thread(target=self.serve, daemon=True).start()

    def close(self):
        self.door.close()

    def serve(self):
        while True:
            try:
                near = self.door.accept()[0]
                far = socket.create_connection(("127.0.0.1", self.server.port), 10)
            except OSError:
                return
            far.settimeout(None)
            for give, take, carry in ((near, far, self.ask), (far, near, self.answer)):
                threading.Thread(target=self.carry, args=(give, take, carry), daemon=True).start()

    def carry(self, give, take, carry):
        try:
            carry(give, take)
        except (OSError, ValueError):
            pass
        for end in (give, take):
            try:
                end.shutdown(socket.SHUT_RDWR)
            except OSError:
                pass

    def ask(self, give, take):
        while True:
            piece = give.recv(65536)
            if not piece:
                return
            self.pass_on(take, piece)

    def answer(self, give, take):
        lines = Lines(give)
        while True:
            tree = lines.reply()
            if self.lie and isinstance(tree, list) and self.rng.random() < self.lie:
                tree = self.other(tree)
            self.pass_on(take, told(tree))

    def pass_on(self, take, text):
        """Gives the bytes on; or some of them, and cuts; or in pieces, which are late."""
        if self.rng.random() < self.cut:
            self.cuts += 1
            take.sendall(text[:self.rng.randrange(len(text) + 1)])
            raise ConnectionError
        while self.late and len(text) > 1 and self.rng.random() < 0.5:
            n = self.rng.randrange(1, len(text))
            take.sendall(text[:n])
            text = text[n:]
            time.sleep(self.rng.random() * self.late)
        take.sendall(text)

    def other(self, tree):
        """What came of streams, changed at one place."""
        self.lies += 1
        stream = self.rng.choice(tree)
        entries = stream[1]
        at = self.rng.randrange(len(entries))
        form = self.rng.choice(["changed", "changed", "renamed", "doubled", "taken away", "reordered", "another's", "all gone"])
        if form == "changed":
            value = bytearray(entries[at][1][self.rng.randrange(1, len(entries[at][1]), 2)])
            if value:
                value[self.rng.randrange(len(value))] ^= 1 << self.rng.randrange(8)
            entries[at][1][1] = bytes(value)
        elif form == "renamed":
            entries[at][0] = b"%d-0" % self.rng.randrange(9)
        elif form == "doubled":
            entries.insert(at, entries[at])
        elif form == "taken away":
            del entries[at]
        elif form == "reordered":
            self.rng.shuffle(entries)
        elif form == "another's":
            stream[0] = self.rng.choice(tree)[0]
        else:
            tree.clear()
        return tree if tree else None


class Process:
    """A process of a party."""

    def __init__(self, words, path, env):
        self.said = os.memfd_create("said")
        actions = [(os.POSIX_SPAWN_OPEN, 0, path, os.O_RDONLY, 0), (os.POSIX_SPAWN_OPEN, 1, "/dev/null", os.O_WRONLY, 0), (os.POSIX_SPAWN_DUP2, self.said, 2)]
        self.child = os.posix_spawnp(SJPARTY, [SJPARTY, *words], env, file_actions=actions)

    def status(self):
        """None while it goes on; a number below 0 is a signal."""
        child, status = os.waitpid(self.child, os.WNOHANG)
        return None if child == 0 else self.end(os.waitstatus_to_exitcode(status))

    def end(self, status):
        text = os.pread(self.said, os.fstat(self.said).st_size, 0)
        os.close(self.said)
        self.last = text.rstrip(b"\n").split(b"\n")[-1]
        return status

    def is_connected(self):
        """Whether it holds a socket."""
        fds = "/proc/%d/fd" % self.child
        try:
            return any(os.readlink("%s/%s" % (fds, fd)).startswith("socket:") for fd in os.listdir(fds))
        except OSError:
            return False

    def kill(self):
        """Its status, which is another than that of the signal where it had ended before."""
        os.kill(self.child, signal.SIGKILL)
        return self.end(os.waitstatus_to_exitcode(os.waitpid(self.child, 0)[1]))


class Run:
    """A file whose parties are processes."""

    def __init__(self, number, tally, rng, text, plain, folder):
        self.number, self.tally, self.rng, self.text, self.plain, self.folder = number, tally, rng, text, plain, folder
        self.names = re.findall(r"(?m)^\s*party (\w+)", text.decode())
        self.path = "%s/file.sj" % folder
        self.name = "t%d" % number
        self.env, self.words, self.parties, self.ended = dict(calls.USUAL), [], {}, set()
        with open(self.path, "wb") as it:
            it.write(text)

    def start(self, name, port):
        words = [name, "--run", self.name, "--server", "127.0.0.1:%d" % port, "--wait", "1", "--pause", "20", *self.words]
        return Process(words, self.path, self.env)

    def join(self, port, *words):
        return calls.answer(["--run", self.name, "--server", "127.0.0.1:%d" % port, *self.words, *words], b"", SJJOIN, env=self.env)

    def stop(self):
        for processes in self.parties.values():
            for it in processes:
                it.kill()
        self.parties = {}

    def play(self, port, kills=0, twice=0.0, between=None, pause=0.005, other=()):
        """Plays all parties until each has ended or waits; kills so many, or starts a second process beside one. What stands must be that of `sim` at any
        time. `other` are further statuses that may come. Answers whether all went as it must."""
        self.parties = {name: [self.start(name, port)] for name in self.names}
        done, end = set(), time.time() + PATIENCE
        due = time.time() + self.rng.expovariate(1 / pause)
        while len(done) < len(self.names):
            if time.time() > end:
                return self.bad("late: " + ", ".join(n for n in self.names if n not in done))
            if between:
                between()
            if kills > 0 and time.time() >= due:
                due = time.time() + self.rng.expovariate(1 / pause)
                name = self.rng.choice([n for n in self.names if n not in done])
                kills -= 1
                if self.rng.random() < twice:
                    self.parties[name].append(self.start(name, port))
                    self.tally.times["second processes"] += 1
                elif not self.kill(name, other):
                    return False
                else:
                    self.parties[name] = [self.start(name, port)]
            for name in self.names:
                if name not in done and not self.look(name, done, port, kills > 0, other):
                    return False
            time.sleep(0.001)
        return True

    def kill(self, name, other):
        """Kills the processes of a party. One that had ended by itself counts as no kill, and must have ended as it may. Answers whether all had."""
        processes, self.parties[name], good = self.parties[name], [], True
        for it in processes:
            connected = it.is_connected()
            status = it.kill()
            if status == -signal.SIGKILL:
                self.tally.times["kills"] += 1
                self.tally.times["kills of a process with a connection"] += connected
                self.tally.times["kills before the party's end"] += name not in self.ended
            elif self.is_last(name, it, status, other) is None:
                good = self.bad("%s: %s %s" % (name, status, it.last))
        return good

    def is_last(self, name, it, status, other):
        """Whether a party is done where a process ended by itself with that status, or goes on; none where it may not end so."""
        if status in ENDS and ENDS[status] in it.last:
            self.ended.add(name)
            return True
        for known in (AGAIN, other):
            if status in known and known[status] in it.last:
                self.tally.times[known[status].decode()] += 1
                return known is other
        return None

    def look(self, name, done, port, goes_on, other):
        """What became of the processes of a party."""
        alive = []
        for it in self.parties[name]:
            status = it.status()
            if status is None:
                alive.append(it)
                continue
            is_last = self.is_last(name, it, status, other)
            if is_last is None:
                self.parties[name] = alive
                return self.bad("%s: %s %s" % (name, status, it.last))
            if is_last:
                done.add(name)
        if name in done and goes_on:
            # it is killed once more where it ended, too
            done.discard(name)
        if name in done:
            for it in alive:
                it.kill()
            alive = []
        elif not alive:
            alive = [self.start(name, port)]
        self.parties[name] = alive
        return True

    def end(self, port):
        """Goes on without a kill until nothing is left to do; what is printed is that of `sim`, and the log is replayed to the byte."""
        end = time.time() + PATIENCE
        while self.join(port, "--now") != self.plain:
            if time.time() > end:
                return self.bad("not at its end: %r" % (self.join(port, "--now"),))
            if not self.play(port):
                return False
        logged = self.join(port, "--log")
        log = re.search(rb"(?m)^%%log2?\n(?s:.*)", logged[1])
        again = calls.answer(["replay", "--log"], self.text + (log[0] if log else b""))
        for what, got, wanted in (("join", self.join(port), self.plain), ("log", logged[0], self.plain[0]), ("replay", again, logged)):
            if got != wanted:
                return self.bad("%s: %r" % (what, got))
        self.tally.times["events"] += log[0].count(b"\n") - 1
        self.tally.one(True, "")
        return True

    def bad(self, why):
        self.tally.one(False, why, self.text)
        return False


def killed(run, server):
    run.play(server.port, KILLS, pause=run.rng.choice([0.002, 0.005, 0.02])) and run.end(server.port)


def doubled(run, server):
    run.play(server.port, KILLS, twice=0.5) and run.end(server.port)


def looked(run, server):
    """The logs are joined while the run goes on."""
    def between():
        if run.rng.random() < 0.02:
            got = run.join(server.port)
            run.tally.times["looks"] += 1
            if got != run.plain and got != (31, b"no run\n"):
                run.bad("look: %r" % (got,))
    run.play(server.port, KILLS, between=between) and run.end(server.port)


def restarted(run, server):
    """The server is killed, and in every other file its append-only file is cut back."""
    cut = run.rng.random() < 0.5
    left = [6]

    def between():
        if left[0] and run.rng.random() < 0.01:
            left[0] -= 1
            server.down(run.rng.randrange(3000) if cut else 0)
            run.tally.times["kills of the server"] += 1
            time.sleep(run.rng.random() * 0.05)
            server.up()
    run.play(server.port, KILLS, between=between) and run.end(server.port)


def slowed(run, server):
    proxy = Proxy(server, run.rng, late=0.01, cut=0.02)
    try:
        run.play(proxy.port, KILLS // 4, pause=0.02) and run.end(server.port)
    finally:
        run.tally.times["connections cut"] += proxy.cuts
        proxy.close()


def lied_to(run, server):
    """Each answer is refused by name, or is that of `sim`."""
    proxy = Proxy(server, run.rng, lie=run.rng.choice([0.02, 0.1, 0.4]))
    good = run.play(proxy.port, other={s: n for s, n in REFUSALS.items() if s not in AGAIN})
    run.stop()
    proxy.lie = 0.7
    for port in [proxy.port] * 5 + [server.port]:
        got = run.join(port, *run.rng.choice([(), ("--now",)]))
        if port == server.port:
            got = run.join(port)
            run.tally.times["lies that left no history"] += got != run.plain
        if got != run.plain and not (got[0] in JOINS and JOINS[got[0]] in got[1]) and b"running" not in got[1]:
            good = run.bad("join: %r" % (got,))
    run.tally.times["lies"] += proxy.lies
    proxy.close()
    if good:
        run.tally.one(True, "")


def locked(run, server):
    """Wrong passwords are refused; the user of docs/ENGINE.md may do what a party does."""
    server.call("CONFIG", "SET", "requirepass", "right")
    for password in (None, b"wrong"):
        run.env = {**calls.USUAL, **({b"REDISCLI_AUTH": password} if password else {})}
        it = run.start(run.names[0], server.port)
        status = None
        while status is None:
            status = it.status()
            time.sleep(0.002)
        if status != 21 or b"password refused" not in it.last:
            return run.bad("password: %s %s" % (status, it.last))
        if run.join(server.port) != (21, b"password refused\n"):
            return run.bad("password: sjjoin")
    server.call(*(USER % "own").split(), password="right")
    run.env, run.words = {**calls.USUAL, b"REDISCLI_AUTH": b"own"}, ["--user", "party"]
    run.play(server.port, KILLS) and run.end(server.port)


def filled(run, server):
    """The server's memory is full for a while."""
    def between():
        if full[0] and run.rng.random() < 0.05:
            full[0] = False
            server.call("CONFIG", "SET", "maxmemory", "1")
    full = [True]
    if run.play(server.port, between=between, other={24: b"server error"}):
        run.stop()
        server.call("CONFIG", "SET", "maxmemory", "0")
        run.end(server.port)


KINDS = (killed, doubled, killed, looked, killed, restarted, slowed, killed, lied_to, locked, killed, restarted, doubled, filled)


def one(number, tally):
    rng = random.Random("remote %d %d" % (SEED, number))
    text = files.accepted(rng)
    plain = calls.answer(["sim"], text)
    if plain[0] not in (0, 6, 7):
        return
    kind = KINDS[number % len(KINDS)]
    folder = tempfile.mkdtemp(prefix="remote")
    server = run = None
    try:
        server = Server(folder, tally)
        run = Run(number, tally, rng, text, plain, folder)
        kind(run, server)
        tally.times["files of " + kind.__name__] += 1
    finally:
        if run:
            run.stop()
        if server:
            server.down()
        shutil.rmtree(folder, ignore_errors=True)


SEED, COUNT = calls.arguments(500)
if __name__ == "__main__":
    if not shutil.which("redis-server"):
        print("no redis-server here: apt-get install redis-server")
        sys.exit(0)
    if not (calls.stands(SJPARTY) and calls.stands(SJJOIN) and calls.stands(calls.SJ)):
        sys.exit(0)
    whole = calls.spread(COUNT, one)
    for what, count in sorted(whole.times.items()):
        print("%s: %d" % (what, count))
    whole.end()
