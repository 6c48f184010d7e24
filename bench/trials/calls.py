"""Calls of the programs, for the trials, and how a trial is spread over the processors."""
import collections
import os
import pickle
import re
import select
import signal
import struct
import sys
import time
import traceback

TOP = os.path.dirname(os.path.dirname(os.path.dirname(os.path.abspath(__file__))))


def program(name):
    """Where a program is that a variable of the environment names, or that `rt ci` left."""
    return os.environ.get(name.upper(), "%s/crates/%s/out/%s" % (TOP, name, name))


SJ, SJNET, SJDRAW, SJWHY, BENCH_WIRE = (program(name) for name in ("sj", "sjnet", "sjdraw", "sjwhy", "bench_wire"))
STATUSES = {0, 1, 2, 3, 4, 5, 6, 7, 8, 9, 10, 11, 12, 14}
PROCESSORS = sorted(os.sched_getaffinity(0))
USUAL = dict(os.environb)  # the environment of a call


def answer(words, text, program=None, prefix=(), seconds=60, env=None, on=PROCESSORS):
    """The status and the output of a call that is held on those processors; a status below 0 is a signal, and None a call that didn't end. What it reads
    and what it writes lie in memory."""
    come, out = os.memfd_create("come"), os.memfd_create("out")
    files = [(os.POSIX_SPAWN_DUP2, come, 0), (os.POSIX_SPAWN_DUP2, out, 1), (os.POSIX_SPAWN_OPEN, 2, "/dev/null", os.O_WRONLY, 0)]
    command = [*prefix, program or SJ, *words]
    os.pwrite(come, text, 0)
    # a child begins on the processors of its parent
    if on is not PROCESSORS:
        os.sched_setaffinity(0, on)
    child = os.posix_spawnp(command[0], command, USUAL if env is None else env, file_actions=files, setpgroup=0, setsigdef=[signal.SIGPIPE])
    if on is not PROCESSORS:
        os.sched_setaffinity(0, PROCESSORS)
    ended, poll = os.pidfd_open(child), select.poll()
    poll.register(ended, select.POLLIN)
    is_late = not poll.poll(1000 * seconds)
    if is_late:
        os.killpg(child, signal.SIGKILL)
    status = os.waitstatus_to_exitcode(os.waitpid(child, 0)[1])
    said = os.pread(out, os.fstat(out).st_size, 0)
    for fd in (come, out, ended):
        os.close(fd)
    return (None, b"") if is_late else (status, said)


def talk(text, lines):
    """A file, and lines of the party that is played."""
    return text + b"%%talk\n" + b"".join(line + b"\n" for line in lines)


VERDICTS = {0: b"done", 6: b"blocked", 7: b"long"}
SAID = re.compile(rb'ok|took (?:int -?[0-9]+|boolean (?:true|false)|String "[^"]*"|label \w+|more|stop|session [0-9]+\.[01] \w+)|refused ([1-9][0-9]*) G[1-7]')


def is_talked(got, lines):
    """Whether an answer has the form of one to those bytes behind `%%talk`: an answer to each line, and the verdict of its status."""
    status, out = got
    count = lines.count(b"\n") + (lines[-1:] not in (b"", b"\n"))
    said = out.split(b"\n")
    if status not in VERDICTS or len(said) != count + 2 or said[-2:] != [VERDICTS[status], b""]:
        return False
    matches = [SAID.fullmatch(line) for line in said[:-2]]
    return all(it and it[1] in (None, b"%d" % (at + 1)) for at, it in enumerate(matches))


def is_forwarded(got, plain):
    """Whether an answer of `run --forward` is that of `sim`, with the deliveries behind a transcript."""
    if plain[0] not in VERDICTS:
        return got == plain
    return got[0] == plain[0] and got[1].startswith(plain[1]) and re.fullmatch(rb"passed (?:0|[1-9][0-9]*)\n", got[1][len(plain[1]):]) is not None


def knows(words, text):
    """Whether the program that is tried knows these words; where it doesn't, this is said."""
    if answer(words, text)[0] != 1:
        return True
    print("not built here:", " ".join(words))
    return False


def stands(program):
    """Whether that program is built; where it isn't, this is said."""
    if os.access(program, os.X_OK):
        return True
    print("not built here:", program)
    return False


def preloaded(folder, name):
    """The library of that C file, built in a folder, which stands before the C library."""
    library = "%s/%s.so" % (folder, name)
    if os.system("gcc -O2 -shared -fPIC -o %s %s/bench/trials/%s.c -ldl" % (library, TOP, name)):
        sys.exit(2)
    return library


def counted(name):
    """The numbers of allocations, reads and writes that refuse.c counted into that file."""
    with open(name, "rb") as it:
        return struct.unpack("3l", it.read())


def arguments(usual, kind=int):
    """The seed and the count of a script."""
    seed = int(sys.argv[1]) if len(sys.argv) > 1 else 1
    count = kind(sys.argv[2]) if len(sys.argv) > 2 else usual
    return seed, count


class Tally:
    """Counts what was tried and what was bad, and keeps what was bad in a folder, if one is named."""

    def __init__(self):
        self.number = self.tried = 0
        self.bad = []
        self.times = collections.Counter()  # how often something came
        self.most = collections.Counter()  # the largest number that was seen of something

    def one(self, good, why, text=b""):
        self.tried += 1
        if good:
            return
        self.bad.append((self.number, why))
        print("bad: %d: %s" % self.bad[-1], file=sys.stderr, flush=True)
        if os.environ.get("KEEP"):
            with open("%s/%d.%d" % (os.environ["KEEP"], self.number, len(self.bad)), "wb") as it:
                it.write(text)

    def add(self, other):
        self.tried += other.tried
        self.bad += other.bad
        self.times += other.times
        self.most |= other.most

    def end(self):
        for bad in sorted(self.bad):
            print("bad: %d: %s" % bad)
        print("%d tried, %d bad" % (self.tried, len(self.bad)))
        sys.exit(self.bad != [])


def shard(first, step, count, one, until):
    """The tally of every so many numbers, up to that time; the first shard says each minute how far it is."""
    tally, told = Tally(), time.time()
    for tally.number in range(first, count, step):
        now = time.time()
        if until and now >= until:
            break
        if first == 0 and now - told >= 60:
            told = now
            print("%s at %d" % (time.strftime("%H:%M:%S"), tally.number), file=sys.stderr, flush=True)
        try:
            one(tally.number, tally)
        except Exception as fault:
            traceback.print_exc()
            tally.one(False, repr(fault))
    return tally


def spread(count, one, until=None):
    """The tally of all numbers below the count, each given to `one`: number k by process k mod P, of as many processes as there are processors, or as
    PROCESSES says. What is tried of a number is the same whatever P is."""
    step = int(os.environ.get("PROCESSES", len(PROCESSORS)))
    whole, shards = Tally(), []
    sys.stdout.flush()
    for first in range(step):
        come, go = os.pipe()
        child = os.fork()
        if child == 0:
            status = 1
            try:
                with os.fdopen(go, "wb") as it:
                    pickle.dump(shard(first, step, count, one, until), it)
                status = 0
            finally:
                os._exit(status)
        os.close(go)
        shards.append((come, child))
    for come, child in shards:
        with os.fdopen(come, "rb") as it:
            told = it.read()
        if os.waitpid(child, 0)[1] == 0:
            whole.add(pickle.loads(told))
        else:
            whole.one(False, "a process of the trial ended early")
    return whole
