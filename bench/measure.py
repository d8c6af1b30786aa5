"""What the measurements share: runs by turns, the best of them, ratios, memory, instructions and bounds."""
import os
import re
import resource
import shutil
import subprocess
import sys
import tempfile
import time

sys.dont_write_bytecode = True
HERE = os.path.dirname(os.path.dirname(os.path.abspath(__file__)))
sys.path[:1] = [HERE, os.path.join(HERE, "bench")]
os.chdir(HERE)

from checks.program import PROGRAM  # noqa: E402 (the path comes first)

BATCH = 16
NAME = "bench/" + os.path.basename(sys.argv[0])
# Valgrind counts an instruction of the processor that fills or copies many octets once for each octet, though it takes
# no longer for them than others do. So the C library is told to do without these.
TUNABLES = "glibc.cpu.x86_rep_stosb_threshold=1000000000:glibc.cpu.x86_rep_movsb_threshold=1000000000"


def stop(text, status=1):
    print(f"{NAME}: {text}", file=sys.stderr)
    sys.exit(status)


def the_program(*tools):
    """The program that is measured, by its word or as ./build makes it; and these tools have to be there."""
    program = os.path.abspath(sys.argv[1]) if len(sys.argv) > 1 else PROGRAM
    if not os.access(program, os.X_OK):
        stop(f"no program '{program}' (./build makes it)", 2)
    for tool in tools:
        if not shutil.which(tool):
            stop(f"no command '{tool}'", 2)
    return program


class Folder(tempfile.TemporaryDirectory):
    """A folder for files, whose paths it gives: folder / 'name'."""

    def __truediv__(self, name):
        return os.path.join(self.name, name)

    def __enter__(self):
        return self


def timed(call):
    """The seconds by the clock that a call takes, those for which its processes ran on a processor, and what it answers."""
    began, before = time.monotonic(), resource.getrusage(resource.RUSAGE_CHILDREN)
    answer = call()
    after = resource.getrusage(resource.RUSAGE_CHILDREN)
    return time.monotonic() - began, after.ru_utime + after.ru_stime - before.ru_utime - before.ru_stime, answer


def run(words, source=os.devnull, out=os.devnull):
    """Runs a command on a file to its end: the seconds by the clock, those on a processor, and its status."""
    with open(source, "rb") as given, open(out, "wb") as taker:
        return timed(lambda: subprocess.run(words, stdin=given, stdout=taker, stderr=subprocess.DEVNULL, check=False).returncode)


def by_clock(words, source=os.devnull, out=os.devnull):
    return run(words, source, out)[0]


def on_processor(words, source=os.devnull, out=os.devnull):
    return run(words, source, out)[1]


def best_by_turns(runs, **ways):
    """The least time of each of these ways, each a call that gives one. They go by turns, so that other work on the
    machine matters little to how they stand to one another."""
    best = {}
    for _ in range(runs):
        for name, way in ways.items():
            best[name] = min(way(), best.get(name, float("inf")))
    return best


def most_memory(words, source):
    """The most memory in kB that a command takes for a file. It comes through a pipe that stays open, so that the
    program still waits for more when the system is asked for its peak."""
    with subprocess.Popen(words, stdin=subprocess.PIPE, stdout=subprocess.DEVNULL) as process, open(source, "rb") as octets:
        shutil.copyfileobj(octets, process.stdin)
        process.stdin.flush()
        time.sleep(1)
        peak = memory_of(process)[1]
        process.stdin.close()
    return peak


def seconds_run(process):
    """For how long a process has run on a processor."""
    with open(f"/proc/{process.pid}/schedstat", encoding="ascii") as times:
        return int(times.read().split()[0]) / 1e9


def memory_of(process):
    """The memory in kB that a process has now, and the most that it had so far."""
    with open(f"/proc/{process.pid}/status", encoding="ascii") as status:
        found = {line.split()[0]: line.split()[1] for line in status if line.startswith(("VmRSS:", "VmHWM:"))}
    return int(found["VmRSS:"]), int(found["VmHWM:"])


def counts_instructions():
    """Whether valgrind is there; else a line says what is left out."""
    if not shutil.which("valgrind"):
        print("left out, as there is no valgrind (Debian's package of that name): the instructions")
        return False
    return True


def instructions(words, source=os.devnull):
    """How many instructions a command needs for a file: these are the same whatever else the machine does."""
    with open(source, "rb") as given:
        said = subprocess.run(["valgrind", "--tool=callgrind", "--callgrind-out-file=/dev/null", *words], stdin=given, check=False,
                              stdout=subprocess.DEVNULL, stderr=subprocess.PIPE, env={**os.environ, "GLIBC_TUNABLES": TUNABLES})
    return int(re.search(rb"Collected : (\d+)", said.stderr)[1])


class Bounds:
    """What is wanted of the figures: each that isn't kept is said, and the status is then 1."""

    def __init__(self):
        self.status = 0

    def most(self, figure, bound, text):
        """The figure is at most the bound."""
        if figure > bound:
            self.miss(text)

    def miss(self, text):
        print(f"{NAME}: {text}", file=sys.stderr)
        self.status = 1


class Console:
    """A `mud replay` over a store in memory."""

    def __init__(self, program):
        self.process = subprocess.Popen([program, "replay", ":memory:"], stdin=subprocess.PIPE, stdout=subprocess.PIPE)
        # what its start takes isn't counted
        self.ask([b"GET /due HTTP/1.1\r\nMud-Moment: 0\r\n\r\n"])

    def answer(self):
        """The status and the body of the next answer."""
        first = self.process.stdout.readline() or stop("the program ended")
        head = b"".join(iter(self.process.stdout.readline, b"\r\n"))
        return int(first.split()[1]), self.process.stdout.read(int(re.search(rb"Content-Length: (\d+)", head)[1]))

    def ask(self, requests, wanted=b""):
        """Sends requests, some behind one another, each of which is answered so; the seconds that the program ran for them."""
        before = self.seconds_run()
        for batch in (requests[at:at + BATCH] for at in range(0, len(requests), BATCH)):
            self.process.stdin.write(b"".join(batch))
            self.process.stdin.flush()
            for status, body in [self.answer() for _ in batch]:
                if status != 200 or wanted not in body:
                    stop(f"an answer is {status} {body.decode()} and has no {wanted.decode()}")
        return self.seconds_run() - before

    def seconds_run(self):
        return seconds_run(self.process)

    def memory(self):
        return memory_of(self.process)[1]

    def close(self):
        self.process.communicate()


def copy_head(source, size, to):
    """The first octets of a file as a file."""
    with open(source, "rb") as file, open(to, "wb") as head:
        head.write(file.read(size))


def count_lines(path):
    with open(path, "rb") as file:
        return sum(1 for _ in file)


def same(one, other):
    """Whether two files have the same octets."""
    return subprocess.run(["cmp", "-s", one, other], check=False).returncode == 0


def in_folder(work):
    """Ends with the status that the work has in a folder for its files."""
    with Folder() as folder:
        status = work(folder)
    sys.exit(status)
