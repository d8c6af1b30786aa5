"""Runs the built program with one allocation failing, each in turn, and looks at what it answers.

checks/failing.c stands before the C library's malloc, calloc and realloc, and fails the N-th call that comes from the
program itself. Each scene (checks/failing-calls) runs once for each N from 1 on, up to the first N that is beyond its
last call; from 300 on for each 17th. What has to hold, where a call failed:

  - the program ends with 5 and what it wrote is a first part of what is due, or it ends and writes as if nothing had
    failed (the reader of the words needs no memory);
  - what a store keeps is then what it kept before, or of import what it keeps behind some of the files, from the
    first on, no fewer than lines were written, and of snoop what it keeps behind some of the packets, no fewer than
    were written but the last one;
  - replay ends with 5 only where nothing was answered, and keeps nothing then. Else one answer is 507, and all other
    answers, and what is kept, are those of the session without that request.

Each run with a call that failed counts one.
"""
import functools
import itertools
import os
import subprocess
import tempfile

from checks import program, session
from checks.case import cases_of, needs
from checks.cases.failing_calls import NETWORK, FailingRuns, Import, Replay, Run, Scene, cut, made, tried
from checks.program import packet_ends, read, request

EACH_UP_TO = 300
STEP = 17
SIDE_BY_SIDE = 32
NO_MEMORY = session.answer(507, '{"rule":"memory"}')

SYN = session.frames()["bulb-opens"]
MESSAGE = session.announcement("02:00:00:00:00:01", "https://lighting.example.com/lightbulb2000 x")
MORE = [request("POST", "/packets", SYN, 1002), request("POST", "/why", SYN, 1002), request("DELETE", "/leases", '{"address":"192.0.2.11"}', 1002),
        request("GET", "/things", moment=1003), request("GET", "/files", moment=1003)]


class ShortRun(Run):
    """A run in which the allocation of a number fails, where there is one."""

    def front(self, failing):
        self.mark = os.path.join(self.folder, "failed")
        library = os.path.join(tempfile.tempdir, "failing.so")
        return ["env", f"LD_PRELOAD={library}", f"FAIL_ALLOCATION={failing}", f"FAILED={self.mark}"] if failing else []

    def look(self, failing):
        self.hit = f"allocation {failing}" if os.path.exists(self.mark) else None

    def is_right(self, scene):
        # the keeper of a store's file may say that memory was wanted there, and nothing else
        is_told = self.said in ([], [f"mud: {self.store}: there isn't enough memory".encode()])
        return is_told and (scene.is_due(self) or scene.is_first_part(self))


class Short(Scene):
    """A command that writes and keeps a first part."""

    kind = ShortRun

    def least_kept(self, run):
        """How many items are kept at least."""
        return 0

    def is_first_part(self, run):
        kept = range(self.least_kept(run), len(self.items) + 1)
        return run.status == 5 and self.due().wrote.startswith(run.wrote) and any(self.is_left_after(run, count) for count in kept)


class Snoop(Short):
    """Packets, of which each teaches one address at most."""

    def __init__(self, capture):
        super().__init__(["snoop", "{store}"], copied=made([session.runs_of("examples/snoop/network.session")[0].octets]))
        # what isn't whole goes with the last one
        ends = [*packet_ends(capture)[:-1], len(capture)]
        self.head, self.items = capture[:24], [capture[begin:end] for begin, end in itertools.pairwise(ends)]

    def input(self, items):
        return cut(self.head + b"".join(self.items[k] for k in items), 100)

    def least_kept(self, run):
        return max(sum(line[:1].isdigit() for line in run.wrote.splitlines()) - 1, 0)


class ShortImport(Import, Short):
    def least_kept(self, run):
        return len(self.parts(run))


class ShortReplay(Replay):
    kind = ShortRun

    def is_first_part(self, run):
        """Nothing is answered and kept; or one answer is 507, and all else is as without that request."""
        if run.status == 5:
            return run.wrote == b"" and run.tables == self.before()
        parts = self.parts(run)
        others = [k for k, part in enumerate(parts) if part != NO_MEMORY]
        without = self.undisturbed(others)
        return len(others) == len(parts) - 1 and (run.status, [parts[k] for k in others], run.tables) == (
            without.status, self.parts(without), without.tables)


def plain(words, octets):
    """A command that keeps nothing, or stands over the network's store, which stays as it is."""
    return Short(words.split(), cut(octets, 100), made(NETWORK) if "{store}" in words else None)


def imported(folder):
    return ShortImport(["import", "{store}", "{files}"], [(name, read(f"{folder}/{name}")) for name in sorted(os.listdir(folder))])


PLAIN = {"hear_dhcp": ("hear dhcp", MESSAGE), "hear_lldp": ("hear lldp", read("examples/lldp/lldpd-mud-01.bin")),
         "check": ("check", read("examples/usage-files/made-lightbulb.json")),
         "check_refused": ("check", read("examples/usage-files/made-unknown-match.json")),
         "frames": ("frames", read("examples/captures/vlan-trunk.pcap")),
         "frames_pcapng": ("frames", read("examples/pcapng/comments-and-names.pcapng")), "drill": ("drill 5", b""),
         "judge": ("judge {store}", read("examples/judge/made-bulb.pcap")), "tally": ("tally {store}", read("examples/judge/made-bulb.pcap")),
         "export": ("export {store} 02:00:00:00:00:01", b""), **{f"report_{kind}": (f"report {{store}} {kind}", b"") for kind in program.TABLES}}
SCENES = {**{name: functools.partial(plain, *row) for name, row in PLAIN.items()},
          "replay": lambda: ShortReplay(["replay", "{store}"], NETWORK + MORE, 1000),
          "snoop": lambda: Snoop(read("examples/snoop/made-answers.pcap")), "import": lambda: imported("examples/import/folder")}


def each_failure(scene, several):
    """The runs of a scene in which an allocation failed."""
    numbers = itertools.chain(range(1, EACH_UP_TO), itertools.count(EACH_UP_TO, STEP))
    is_hit = True
    while is_hit:
        runs = list(several.map(functools.partial(tried, scene), itertools.islice(numbers, SIDE_BY_SIDE)))
        yield from runs
        is_hit = all(run.hit for run, _ in runs)


@needs("cc")
@cases_of(SCENES)
class FailingAllocations(FailingRuns):
    scenes, failures = SCENES, staticmethod(each_failure)

    def setUp(self):
        super().setUp()
        subprocess.run(["cc", "-shared", "-fPIC", "-O1", "-o", self.path("failing.so"), "checks/failing.c"], check=True)
