"""Lets each single call of the built program to the system fail, one after the other.

strace answers a call with EIO in the system's place: the first read of a run, in a run of its own the
second one, and so on until a run has none left; likewise each write, each opening of a file, and the
other calls of CALLS. The calls of the dynamic loader are passed over. What is due is what runs without
a failure write and keep. Of each other run this has to hold, by what the failing call was on:

  input or output   Status 4. What was written is a first part of what is due: where a read failed, just
                    what is due to the octets that were taken. The tables are those after the requests
                    or files whose answers or lines were begun.
  folder            Of 'import': status 4. The lines before it are written, and their files kept.
  store             In the opening: status 7, nothing is read, listed or written, and the tables stay.
                    Behind it: the answer 503, or the line 'keeper' and 7, in place of what is due, also
                    for the changes behind it, where the failure shut the file. All else is as in a run
                    without these requests or files, and so is the file when it is opened again; but it
                    may hold the first one of them, where the failure came when all was written. A write
                    or a sync of the store that failed is always told. At the end, where the log is copied
                    into the file, all is as due, and standard error says that the log stays.
  connection        It is over, with a first part of its answer, and the next one is served.
  port              Status 4: it can't be listened on, or the next connection can't be taken.

With 4 and 7, and where the answer is 503, standard error is told why, and else nothing. Where a failure
does no harm all is as due; never is there another answer. Each call that failed counts one. ERROR names another error
than EIO, as ENOSPC.
"""
import contextlib
import functools
import os
import re
import shutil
import socket
import subprocess
import tempfile
import threading
from concurrent.futures import ThreadPoolExecutor

from checks.case import ProgramCase, cases_of, needs
from checks.cases.stopped_stores import change
from checks.program import PROGRAM, answers, copy_store, free_port, listens, packets_of, read, request, run, run_by_reads, tables_of, until
from checks.session import answer, requests_of

CALLS = """open openat read pread64 readv recvfrom write pwrite64 writev sendto lseek stat fstat lstat newfstatat
    statx access faccessat faccessat2 getdents64 fsync fdatasync ftruncate fallocate flock fcntl unlink unlinkat
    rename readlink readlinkat fchown fchmod fadvise64 getrandom ioctl poll ppoll socket bind listen accept accept4
    setsockopt getsockopt getsockname getpeername shutdown""".split()
READS = {"read", "pread64", "readv", "recvfrom"}
WRITES = {"write", "pwrite64", "writev", "sendto"}
KEEPS = WRITES | {"fsync", "fdatasync", "ftruncate"}
LONGEST = 60
MOST_IN_LOG = 494
KEEPER = answer(503, '{"rule":"keeper"}')
ERROR = os.environ.get("ERROR", "EIO")
UNCLOSED = rb"mud: [^:]*: its log stays beside it: the disk (failed|is full)"


class Call:
    """A line of strace's: the call's name, what it is on, its result, and whether it was made to fail."""

    def __init__(self, line, run):
        self.line, self.name, self.failed = line.strip(), line.split("(")[0], "(INJECTED)" in line
        result = re.search(r"\) += (-?\d+)", line)
        self.result = int(result[1]) if result else 0
        self.on = self.place(run)

    def __str__(self):
        return self.line

    def place(self, run):
        found = re.match(r"\w+\((\d+)(?:<(.*?)>)?[,)]", self.line)
        number, what = (found[1], found[2] or "") if found else ("", "")
        paths = re.findall(r'"([^"]*)"', self.line) + [what]
        if number in ("0", "1"):
            return "input" if number == "0" else "output"
        leads_there = [path for path in paths if len(path) > 1 and run.store.startswith(path)]
        if self.name == "getrandom" or leads_there or any(path.startswith(run.store) for path in paths):
            return "store"
        if any(path.startswith(run.files) for path in paths):
            return "folder"
        if "->" in what:
            return "connection"
        if what.startswith(("TCP", "socket:")) or self.name == "socket":
            return "port"
        if any(re.search(r"\.so\b|/ld\.so|^/proc/", path) or path == PROGRAM for path in paths):
            return "loader"
        return "other"


class Run:
    """A run of the program in which something may fail: its status, what it wrote, and the tables that it leaves.

    What fails is known by its kind: `front` gives the words before the program's, `look` says what was hit, and
    `is_right` whether the run is then as it has to be."""

    def __init__(self, scene, items, failing=None):
        self.folder = tempfile.mkdtemp(dir=scene.folder)
        self.files, self.store, self.log = (os.path.join(self.folder, name) for name in ("files", "store", "log"))
        scene.prepare(self, items)
        with open(os.path.join(self.folder, "said"), "w+b") as self.errors:
            self.status, self.wrote = scene.carry_out(self, items, [*self.front(failing), PROGRAM, *scene.words(self)])
            self.errors.seek(0)
            self.said = self.errors.read().splitlines()
        self.kept = None if scene.keeps else ()
        self.look(failing)

    @property
    def tables(self):
        if self.kept is None:
            self.kept = tables_of(self.store)
        return self.kept

    def close(self):
        """Reads the tables, and takes the files away."""
        self.kept = self.tables
        shutil.rmtree(self.folder)


class TracedRun(Run):
    """A run whose calls are known, and in which the call of a name and a number may fail."""

    def front(self, failing):
        injected = ["-e", f"inject={failing[0]}:error={ERROR}:when={failing[1]}"] if failing else []
        return ["strace", "-qq", "-yy", "-s", "0", "-o", self.log, "-e", "signal=none", "-e", "trace=" + ",".join(CALLS), *injected]

    def look(self, failing):
        with open(self.log, errors="replace") as file:
            self.calls = [Call(line, self) for line in file if re.match(r"\w+\(", line)]
        self.hit = next((call for call in self.calls if call.failed and call.on != "loader"), None)
        self.taken = sum(max(call.result, 0) for call in self.calls if call.on == "input" and call.name in READS)

    def is_right(self, scene):
        """A write or a sync of the store that failed has to be told."""
        is_hidden = self.hit.on == "store" and self.hit.name in KEEPS and scene.is_due(self) and not self.is_unclosed()
        return not is_hidden and scene.holds(self) and scene.says_why(self)

    def is_unclosed(self):
        """Whether the store failed at the end alone, where its log is copied into its file."""
        return self.hit.on == "store" and len(self.said) == 1 and re.fullmatch(UNCLOSED, self.said[0]) is not None

    def was_silent(self):
        """Whether nothing was written, and nothing read or listed behind the failing call."""
        behind = self.calls[self.calls.index(self.hit) + 1:]
        return not any(self.wrote) and not any(call.on in ("input", "folder", "port", "connection") for call in behind)


def ended(process):
    """The status of a process and what it wrote; a process that goes on is ended, and has no status."""
    try:
        wrote = process.communicate(timeout=LONGEST)[0]
    except subprocess.TimeoutExpired:
        process.kill()
        return None, process.communicate()[0]
    return process.returncode, wrote


class Scene:
    """A command with its items: what it takes in one after the other. Parts are what is due to each."""
    items, names, first, kind = [], CALLS, 0, TracedRun

    def __init__(self, words, pieces=(), copied=None):
        self.given, self.pieces, self.copied, self.runs = words, list(pieces), copied, {}
        self.keeps = "{store}" in words
        self.folder, self.lock = tempfile.mkdtemp(), threading.Lock()

    def words(self, run):
        return [word.format(store=run.store, files=run.files) for word in self.given]

    def prepare(self, run, items):
        """Copies the store that was made before, where there is one."""
        if self.copied:
            copy_store(self.copied, run.store)

    def input(self, items):
        return self.pieces

    def carry_out(self, run, items, command):
        """The program reads the pieces one by one, each by one read."""
        ended = run_by_reads(self.input(items), *command[1:], program=command[0], errors=run.errors)
        return ended.status, ended.out

    def undisturbed(self, items):
        """The run of these items without a failure."""
        items = tuple(items)
        with self.lock:
            if items not in self.runs:
                self.runs[items] = self.kind(self, items)
                self.runs[items].close()
            return self.runs[items]

    def due(self):
        return self.undisturbed(range(len(self.items)))

    def parts(self, run):
        return run.wrote.splitlines(keepends=True)

    def whole(self, taken):
        """How many parts are due to the first octets of the input, so many."""
        return 0

    def is_left_after(self, run, count):
        """Whether the tables are those after the first items, so many."""
        return run.tables == self.undisturbed(range(min(count, len(self.items)))).tables

    def is_kept_without(self, run, refused):
        """Whether the tables are those after the other items; or, where the failure came when the first refused
        one was kept to its end, those after that one: then the file holds it, and nothing behind it."""
        others = [k for k in range(len(self.items)) if k not in refused]
        wanted = [others] + [[k for k in others if k < first] + [first] for first in refused[:1]]
        return run.tables in [self.undisturbed(items).tables for items in wanted]

    def is_due_but(self, run, is_refused):
        """Whether each item has its part, none that was refused is kept, and all else is as in a run of the others."""
        parts = self.parts(run)
        refused = [k for k, part in enumerate(parts) if is_refused(k, part)]
        others = [k for k in range(len(parts)) if k not in refused]
        return (len(parts) == len(self.items) and self.is_kept_without(run, refused)
                and [parts[k] for k in others] == self.parts(self.undisturbed(others))[:len(others)])

    def is_due(self, run):
        due = self.due()
        return (run.status, run.wrote, run.tables) == (due.status, due.wrote, due.tables)

    def holds(self, run):
        """Whether a run with a failing call is as it has to be."""
        call, parts = run.hit, self.parts(self.due())
        if call.on == "input" and call.name in READS:
            count = self.whole(run.taken)
            return run.status == 4 and run.wrote == b"".join(parts[:count]) and self.is_left_after(run, count)
        if call.on == "output" and call.name in WRITES:
            begun = sum(1 for k in range(len(parts)) if run.wrote.startswith(b"".join(parts[:k + 1]))) + 1
            is_first = b"".join(parts).startswith(run.wrote) and run.wrote != b"".join(parts)
            return run.status == 4 and is_first and self.is_left_after(run, begun)
        if call.on == "store" and run.status == 7 and run.was_silent():
            return run.tables == self.before()
        return self.is_due(run)

    def says_why(self, run):
        """Whether standard error was told why the run failed: in one line, or one for each cause of a store's."""
        if run.is_unclosed():
            return self.is_due(run)
        is_refused = run.hit.on == "store" and (run.status == 7 or run.wrote != self.due().wrote)
        most = 2 if is_refused else int(run.status == 4)
        return (min(most, 1) <= len(run.said) <= most and len(set(run.said)) == len(run.said)
                and all(line.startswith(b"mud: ") for line in run.said))

    def before(self):
        return self.undisturbed(()).tables if self.items else self.due().tables


class Capture(Scene):
    """Packets, of which the whole ones among the octets taken are due."""

    def whole(self, taken):
        return len(packets_of(b"".join(self.pieces)[:taken]))


class Replay(Scene):
    """Requests, whose changes a store keeps."""

    def __init__(self, words, items, most=10**6, copied=None):
        super().__init__(words, copied=copied)
        self.items, self.most = items, most

    def input(self, items):
        octets = b"".join(self.items[k] for k in items)
        return [octets[at:at + self.most] for at in range(0, len(octets), self.most)]

    def parts(self, run):
        return [answer.octets for answer in answers(run.wrote)]

    def whole(self, taken):
        return sum(1 for k in range(len(self.items)) if sum(map(len, self.items[:k + 1])) <= taken)

    def holds(self, run):
        if run.hit.on != "store" or run.status == 7:
            return super().holds(run)
        return run.status == 0 and self.is_due_but(run, lambda k, part: part == KEEPER)


class Import(Scene):
    """A folder of files, each of another Thing's maker."""

    def __init__(self, words, items):
        super().__init__(words)
        self.items = items

    def prepare(self, run, items):
        os.mkdir(run.files)
        for k in items:
            name, octets = self.items[k]
            with open(os.path.join(run.files, name), "wb") as file:
                file.write(octets)

    def holds(self, run):
        parts = self.parts(run)
        if run.hit.on == "folder" and run.status != self.due().status:
            is_first = self.parts(self.due())[:len(parts)] == parts
            return run.status == 4 and is_first and self.is_left_after(run, len(parts))
        if run.hit.on != "store" or not parts or run.status != 7:
            return super().holds(run)
        return b" keeper\n" in run.wrote and self.is_due_but(run, lambda k, part: part == self.items[k][0].encode() + b" keeper\n")


class Serve(Scene):
    """Clients of a port, one after the other, with a request each; what was written is a list of what came back."""

    def __init__(self, words, items):
        super().__init__(words)
        self.items = items

    def words(self, run):
        return super().words(run) + [str(run.port), str(len(self.items))]

    def prepare(self, run, items):
        run.port = free_port()

    def parts(self, run):
        return run.wrote

    def carry_out(self, run, items, command):
        words = command[:-1] + [str(max(len(items), 1))]
        server, came = subprocess.Popen(words, stdin=subprocess.DEVNULL, stdout=subprocess.PIPE, stderr=run.errors), []
        until(lambda: server.poll() is not None or listens(run.port), LONGEST, 0.005)
        for k in items or [None]:
            came.append(ask(run.port, self.items[k] if items else b"") if server.poll() is None else b"")
        status, printed = ended(server)
        return status, came if not printed else [printed]

    def holds(self, run):
        due, call = self.due().wrote, run.hit
        if call.on == "store" and run.status != 7:
            return run.status == 0 and self.is_due_but(run, lambda k, part: part == KEEPER)
        if call.on == "store":
            return run.was_silent() and run.tables == self.before()
        served = sum(1 for k in range(len(due)) if run.wrote[:k + 1] == due[:k + 1])
        if run.status == 4 and (call.on == "port" or call.name == "setsockopt"):
            return not any(run.wrote[served:]) and self.is_left_after(run, served)
        if call.on == "connection" and call.name in READS | WRITES and served < len(due):
            carried_out = [k for k in range(len(due)) if k != served or call.name in WRITES]
            return (run.status == 0 and due[served].startswith(run.wrote[served])
                    and run.wrote[served + 1:] == due[served + 1:]
                    and run.tables == self.undisturbed(carried_out).tables)
        return self.is_due(run)


def ask(port, octets):
    """What comes back of a connection that sends these octets, up to a whole answer or the end."""
    came = b""
    with contextlib.suppress(OSError), socket.create_connection(("127.0.0.1", port), timeout=LONGEST) as client:
        client.sendall(octets)
        if not octets:
            client.shutdown(socket.SHUT_WR)
        while not re.search(rb"\r\n\r\n\{.*\}$", came) and (piece := client.recv(65536)):
            came += piece
    return came


def tried(scene, failing):
    """A run where this failed, and whether it is as it has to be, as one is where nothing was hit."""
    run = scene.kind(scene, range(len(scene.items)), failing)
    is_right = run.hit is None or run.is_right(scene)
    shutil.rmtree(run.folder)
    return run, is_right


def each_failure(scene, several):
    """The runs of a scene in which a call failed, but for those of the loader, and whether they are right."""
    calls = scene.due().calls
    answers = [at for at, call in enumerate(calls) if call.on == "output"]
    first = answers[scene.first] if scene.first else 0
    for name in sorted({call.name for call in calls} & set(scene.names)):
        named = [(at, call) for at, call in enumerate(calls) if call.name == name]
        numbers = [k for k, (at, call) in enumerate(named, 1) if call.on != "loader" and at >= first]
        yield from several.map(lambda number, name=name: tried(scene, (name, number)), numbers)
        for number in range(len(named) + 1, 10**6):
            run, is_right = tried(scene, (name, number))
            if run.hit is None:
                break
            yield run, is_right


def made(requests):
    """The store that the requests make."""
    store = tempfile.mktemp()
    run("replay", store, input=b"".join(requests))
    return store


def cut(octets, size):
    """Pieces of so many octets, behind the first four: a read that tells the format of a capture has room for no more."""
    return [octets[:4], *(octets[at:at + size] for at in range(4, len(octets), size))]


TWO, NETWORK = (requests_of(f"examples/{name}.session") for name in ("replay/in-pieces", "report/network"))
JUDGED = cut(read("examples/judge/made-bulb.pcap"), 100)


def log_in_run():
    """The log of a file is written into it once it is long: within a run."""
    scene = Replay(["replay", "{store}"], [change(number, 5) for number in range(MOST_IN_LOG + 3)], 100_000)
    scene.names, scene.first = KEEPS, 2 * MOST_IN_LOG - 4
    return scene


def log_by_next():
    """The same by the next run."""
    many = [change(number, 5) for number in range(MOST_IN_LOG + 3)]
    scene = Replay(["replay", "{store}"], many[MOST_IN_LOG:], copied=made(many[:MOST_IN_LOG]))
    scene.names = KEEPS
    return scene


def files_imported():
    bulb = read("examples/usage-files/made-lightbulb.json")
    makers = [(f"100{k}-bulb.json", bulb.replace(b"lightbulb2000", b"lightbulb%d" % k)) for k in range(3)]
    return Import(["import", "{store}", "{files}"], makers)


def requests_kept():
    return Replay(["replay", "{store}"], TWO + [request("GET", "/" + table, moment=6) for table in ("locals", "classes")])


SCENES = {
    "hear_dhcp": lambda: Scene(["hear", "dhcp"], cut(read("examples/dhcp/made-url-and-more.bin"), 100)),
    "hear_lldp": lambda: Scene(["hear", "lldp"], cut(read("examples/lldp/made-url-of-255.bin"), 100)),
    "check": lambda: Scene(["check"], cut(read("examples/usage-files/made-lightbulb.json"), 300)),
    "frames": lambda: Capture(["frames"], cut(read("examples/captures/vlan-trunk.pcap"), 777)),
    "judge_in_memory": lambda: Capture(["judge", ":memory:"], JUDGED),
    "judge": lambda: Capture(["judge", "{store}"], JUDGED, made(NETWORK)),
    "drill": lambda: Scene(["drill", "5"]),
    "report": lambda: Scene(["report", "{store}", "things"], copied=made(NETWORK)),
    "replay_in_memory": lambda: Replay(["replay", ":memory:"], TWO),
    "replay_in_pieces": lambda: Replay(["replay", ":memory:"], TWO, 50),
    "replay_tour": lambda: Replay(["replay", ":memory:"], requests_of("examples/replay/tour.session"), 1000),
    "replay_kept": requests_kept,
    "replay_network": lambda: Replay(["replay", "{store}"], NETWORK, 1000),
    "log_in_run": log_in_run,
    "log_by_next": log_by_next,
    "serve": lambda: Serve(["serve", "{store}"], TWO),
    "import": files_imported,
}


@functools.lru_cache(None)
def may_trace():
    return subprocess.run(["strace", "-o", "/dev/null", "true"], stderr=subprocess.DEVNULL, check=False).returncode == 0


class FailingRuns(ProgramCase):
    """Each run of a scene in which something was hit counts one. `scenes` makes the scenes, `failures` gives the runs."""

    def each(self, name):
        tempfile.tempdir = self.folder
        self.addCleanup(setattr, tempfile, "tempdir", None)
        with ThreadPoolExecutor(os.cpu_count()) as several:
            for ended, is_right in self.failures(self.scenes[name](), several):
                if ended.hit:
                    self.holds(str(ended.hit), is_right, f"ended with {ended.status} and wrote {ended.wrote!r:.500}\n"
                               f"  and keeps {ended.tables!r:.500}\n  and says {ended.said!r:.500}")


@needs("strace")
@cases_of(SCENES)
class FailingCalls(FailingRuns):
    scenes, failures = SCENES, staticmethod(each_failure)

    def setUp(self):
        super().setUp()
        if not may_trace():
            self.skipTest("there is no leave to trace")
