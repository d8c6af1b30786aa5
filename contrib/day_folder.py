"""The folder of a day, with all its files, for 'mud-day', which stands beside this.

It is made beside its place and put there whole. SHA256SUMS is over all of its files and over that of the day before's.
"""
import contextlib
import fcntl
import glob
import json
import os
import re
import shutil
import subprocess
import sys
import tempfile
import time

import day_captures
import day_lines
import day_telling
import day_things
from console import Fault

PLACE = "/var/lib/mud/days"
DATE = re.compile("[0-9]{4}-[0-9]{2}-[0-9]{2}")
SUMS, REPORT = "SHA256SUMS", "report.html"
SUM = re.compile("([0-9a-f]{64})  ([^/]+|[.][.]/[0-9-]+/SHA256SUMS)")
# what a day's folder is called while another one takes its place
OLD = ".old"
REPORTS = ("things", "files", "classes", "locals", "names")
# what a later run needn't make the same: its own time, and a page that other libraries draw otherwise
OTHERWISE = {SUMS, REPORT}
COMMANDS = """\
# Commands by which the files of this folder are made again, in a folder of its own; DAY is this one. 'mud' is the program
# of this SHA-256: {program}
# All of them, and a comparison:
mud-day --verify {date}
# Or one by one. A store for each state of leases, of the copy of {made} and what was heard:
{stores}
# The lines of judge, from the run that has the packet's second, beside those of frames:
{lines}
# The reports and the lists of each Thing:
{reports}
# The counts of judge by hour, by another command of the program:
mud-day --joined {date} | mud tally state-{last}.db > tally
"""


def days_folder():
    """Where the days are."""
    return os.environ.get("MUD_DAYS") or PLACE


def path_of(date):
    return os.path.join(days_folder(), date)


def copy_path(date):
    return os.path.join(days_folder(), "copies", date + ".requests.gz")


def run(*words):
    """What a command of the program prints."""
    try:
        ended = subprocess.run([day_telling.program(), *words], capture_output=True, check=False)
    except OSError as failure:
        raise Fault(f"{day_telling.program()} can't be run: {failure.strerror}") from failure
    if ended.returncode:
        raise Fault(f"'mud {' '.join(words)}' ended with {ended.returncode}: {ended.stderr.decode().strip()}")
    return ended.stdout


def program_digest():
    path = shutil.which(day_telling.program())
    return day_captures.digest(path, os.path.getsize(path)) if path else None


class Folder:
    """A day's folder, as it is made. 'log' is the log of changes, as 'changes' reads it."""

    def __init__(self, date, copy, folder, memory, wants_all, show):
        self.date, self.copy, self.folder, self.memory, self.wants_all, self.show = date, copy, folder, memory, wants_all, show

    def write(self, name, content):
        with open(os.path.join(self.folder, name), "wb") as file:
            file.write(content if isinstance(content, bytes) else content.encode())

    def make(self, found, log, kernel, before):
        """Makes all files but the report and the sums, of the captures, the log of changes, how many packets the kernel
        dropped, and what was denied on days before."""
        self.found, self.kernel, self.before = found, kernel, before
        self.show("telling what was heard")
        self.telling = day_telling.Telling(self.copy, found, min(piece.first for piece in found.pieces))
        stores, told = self.make_stores()
        self.last, self.files = told, day_things.Files(day_telling.program(), told.listings["files"], self.copy.files.get)
        self.things = {row["mac"]: row["url"] for row in told.listings["things"]}
        self.judge(stores)
        self.show("writing reports")
        self.write_reports(stores[-1])
        self.write_exports()
        self.write_log(log)
        self.write("captures.json", json.dumps([piece._asdict() for piece in found.pieces], indent=1) + "\n")
        self.write("copy.requests.gz", day_telling.packed(self.copy.octets, self.copy.made))
        self.write("commands", self.commands(len(stores)))
        self.write("day.json", json.dumps(self.told(log), indent=1) + "\n")

    def make_stores(self):
        """The store of each state of leases, and what the last one lists."""
        stores, refused = [], []
        for number, state in enumerate(self.telling.states, 1):
            requests = self.telling.requests(state)
            store = os.path.join(self.memory, f"state-{number}.db")
            told = self.telling.make(requests, store)
            refused += [words for words in told.refused if words not in refused]
            self.write(f"state-{number}.requests.gz", day_telling.packed(b"".join(map(day_telling.octets_of, requests))))
            stores.append(store)
        self.refused = refused
        return stores, told

    def judge(self, stores):
        """Judges the run, and writes the lines and the dropped packets."""
        announced = {mac: one.number for mac, one in self.telling.announced.items() if mac in self.things}
        self.day = day_lines.Day(self.found, self.things, announced, lambda mac, *words: self.files.entry_of(self.things[mac], *words))
        with contextlib.ExitStack() as opened:
            def to(name, mode="w"):
                return opened.enter_context(open(os.path.join(self.folder, name), mode))
            self.day.dropped_file = to("dropped.jsonl")
            self.day.lines_file, self.day.all_file = to("lines", "wb"), to("packets.jsonl") if self.wants_all else None
            day_lines.judge_all(day_telling.program(), stores, self.telling.states, self.day, self.found, self.show)

    def write_reports(self, store):
        """The six reports. What was due is asked as of the day's end, since 'report' asks the clock."""
        for kind in REPORTS:
            self.write(f"report-{kind}", run("report", store, kind))
        self.due = self.copy.due(self.found.end)
        self.write("report-due", "".join(f"due {url}\n" for url in self.due))

    def write_exports(self):
        """What each Thing could do in the day: its lists, of a store in which nothing of the day ends."""
        requests = self.telling.requests(self.telling.states[-1], True)
        store = os.path.join(self.memory, "export.db")
        self.telling.make(requests, store)
        self.write("export.requests.gz", day_telling.packed(b"".join(map(day_telling.octets_of, requests))))
        for mac in sorted(self.things):
            self.write(f"export-{mac.replace(':', '-')}.json", run("export", store, mac))

    def write_log(self, log):
        """The day's log of changes, as it is and in words, and the verdicts of before."""
        self.write("verdicts.log", b"".join(one.line for one in log.verdicts if one.day < self.date))
        self.write("changes.log", b"".join(one.line for one in log.day))
        self.write("changes", "".join(f"{row['time']} {row['user']} {row['words']}\n" for row in log.rows()))

    def commands(self, count):
        """The commands by which the files are made again."""
        numbers = range(1, count + 1)
        stores = [f"zcat DAY/state-{n}.requests.gz | mud replay state-{n}.db > answers-{n}" for n in numbers]
        stores.append("zcat DAY/export.requests.gz | mud replay export.db > answers-export")
        lines = [f"mud-day --joined {self.date} | mud judge state-{n}.db > judged-{n}" for n in numbers]
        lines.append(f"mud-day --joined {self.date} | mud frames | cut -d ' ' -f 3- > framed")
        chosen = "judged-1"
        if count > 1:
            steps = " ".join(f"if ($2 >= {state.second}) n = {n};" for n, state in zip(numbers, self.telling.states))
            lines.append("paste -d '\\n' " + " ".join(f"judged-{n}" for n in numbers) + f" | awk '{{ k = (NR - 1) % {count} + 1; {steps} if (k == n) print }}' > judged")
            chosen = "judged"
        lines.append(f"paste -d ' ' {chosen} framed | awk '$2 >= {self.found.start} && $2 < {self.found.end}' > lines")
        reports = [f"mud report state-{count}.db {kind} > report-{kind}" for kind in REPORTS]
        reports += [f"mud export export.db {mac} > export-{mac.replace(':', '-')}.json" for mac in sorted(self.things)]
        words = {"stores": stores, "lines": lines, "reports": reports}
        return COMMANDS.format(program=program_digest(), date=self.date, made=day_captures.clock(self.copy.made), last=count,
                               **{name: "\n".join(rows) for name, rows in words.items()})

    def told(self, log):
        """All that the report needs, as one object."""
        found, listings = self.found, self.last.listings
        told = day_things.Told(self.day, listings, self.files, log)
        hours = told.hours((found.end - found.start + 3599) // 3600)
        return {"date": self.date, "start": found.start, "end": found.end, "zone": time.strftime("%Z %z", time.localtime(found.start)),
                "program": program_digest(), "copy": self.copy.made, "first": self.telling.first, "hours": hours,
                "totals": {kind: sum(row[kind] for row in hours) for kind in day_lines.KINDS},
                "captures": [piece._asdict() for piece in found.pieces], "remarks": found.remarks,
                "kernel": self.kernel, "states": [{"second": state.second, "words": state.words} for state in self.telling.states],
                "refused": self.refused, "things": [told.thing(row) for row in listings["things"]], "talks": told.talking(),
                "announced": {mac: one.second for mac, one in self.telling.announced.items() if one.second >= found.start},
                "senders": told.senders(), "waits": list(day_things.waits(listings, self.due, self.files)), "changes": log.rows(),
                "earlier": self.before}


def kernel_drops(found):
    """What 'capture' noted of packets that the kernel dropped in the day, or None."""
    rows = []
    for path in sorted(os.listdir(day_captures.folder())):
        if path.endswith(".kernel"):
            with open(os.path.join(day_captures.folder(), path), encoding="ascii", errors="replace") as file:
                words = [line.split() for line in file]
            rows += [int(row[2]) for row in words if len(row) == 3 and row[0].isdigit() and row[2].isdigit() and found.start < int(row[0]) <= found.end + 60]
    return sum(rows) if rows else None


def earlier(date, remarks):
    """What was denied on days before, by Thing, side, peer or name, protocol and port; and which days these are. A day that
    can't be read is told."""
    days, seen = [], set()
    for name in sorted(name for name in os.listdir(days_folder()) if DATE.fullmatch(name) and name < date):
        try:
            told = told_of(name)
        except Fault as fault:
            remarks.append(f"what was denied on {name} isn't known: {fault}")
        else:
            days.append(name)
            seen |= {tuple(denial(thing, one)) for thing in told["things"] for one in thing["denied"]}
    return {"days": days, "denied": sorted(map(list, seen))}


def denial(thing, one):
    """By what a denial of a day is the same as one of another."""
    return [thing["mac"], one["side"], (one["names"] or [one["peer"]])[0], str(one["protocol"]), one["whose"], one["port"]]


# ---- The folder, whole

def write_sums(folder, date):
    """SHA256SUMS over all files, and over the day before's."""
    rows = [(digest_of(os.path.join(folder, name)), name) for name in sorted(os.listdir(folder)) if name != SUMS]
    before = os.path.join(path_of(day_captures.day_before(date)), SUMS)
    if os.path.exists(before):
        rows.append((digest_of(before), f"../{day_captures.day_before(date)}/{SUMS}"))
    with open(os.path.join(folder, SUMS), "w", encoding="ascii") as file:
        file.write("".join(f"{sha256}  {name}\n" for sha256, name in rows))


def digest_of(path):
    return day_captures.digest(path, os.path.getsize(path))


@contextlib.contextmanager
def beside(date):
    """A folder beside the day's place, which goes where all isn't done; what stands in that place stays until then."""
    folder = None
    try:
        os.makedirs(days_folder(), exist_ok=True)
        with one_at_a_time():
            clear(date)
            folder = tempfile.mkdtemp(prefix=f".{date}.", dir=days_folder())
            yield folder
            os.chmod(folder, 0o750)
            give(folder)
            old = folder + OLD
            if os.path.exists(path_of(date)):
                os.rename(path_of(date), old)
            os.rename(folder, path_of(date))
            shutil.rmtree(old, ignore_errors=True)
    except OSError as failure:
        raise Fault(f"the folder of {date} can't be written, and what was there stays: {failure.strerror or failure}") from failure
    finally:
        if folder:
            shutil.rmtree(folder, ignore_errors=True)


@contextlib.contextmanager
def one_at_a_time():
    """Waits for another 'mud-day' that makes a day."""
    place = os.open(days_folder(), os.O_RDONLY | os.O_DIRECTORY)
    try:
        try:
            fcntl.flock(place, fcntl.LOCK_EX | fcntl.LOCK_NB)
        except BlockingIOError:
            print("mud-day: another one makes a day, and this one waits for it", file=sys.stderr, flush=True)
            fcntl.flock(place, fcntl.LOCK_EX)
        yield
    finally:
        os.close(place)


def clear(date):
    """Takes away what a run that was killed left of a day; a day that it had put aside goes back."""
    for path in sorted(glob.glob(os.path.join(glob.escape(days_folder()), f".{date}.*")), reverse=True):
        if path.endswith(OLD) and not os.path.exists(path_of(date)):
            os.rename(path, path_of(date))
        else:
            shutil.rmtree(path)


def give(folder):
    """Gives a folder that root makes to whom the days are, who else couldn't read it for the next day's."""
    owner = os.stat(days_folder())
    if os.geteuid() == 0:
        for path in [folder, *glob.glob(os.path.join(glob.escape(folder), "*"))]:
            os.chown(path, owner.st_uid, owner.st_gid)


def pieces_of(date):
    """The captures of a day's folder."""
    try:
        with open(os.path.join(path_of(date), "captures.json"), encoding="utf-8") as file:
            return [day_captures.Piece(**row) for row in json.load(file)]
    except (OSError, ValueError, TypeError) as failure:
        raise Fault(f"{path_of(date)} is no folder of a day: {failure}") from failure


def told_of(date):
    """The object of a day's folder."""
    try:
        with open(os.path.join(path_of(date), "day.json"), encoding="utf-8") as file:
            told = json.load(file)
        if not isinstance(told, dict) or "things" not in told:
            raise ValueError("day.json has no Things")
        return told
    except (OSError, ValueError) as failure:
        raise Fault(f"{path_of(date)} is no folder of a day: {failure}") from failure


def broken_sums(date):
    """Which files of a day's folder aren't as SHA256SUMS says."""
    folder = path_of(date)
    try:
        with open(os.path.join(folder, SUMS), encoding="ascii") as file:
            rows = [SUM.fullmatch(line.rstrip("\n")).groups() for line in file]
    except (OSError, ValueError, AttributeError) as failure:
        raise Fault(f"{os.path.join(folder, SUMS)} can't be read: {failure}") from failure
    for sha256, name in rows:
        path = os.path.join(folder, name)
        if not os.path.exists(path):
            yield f"{name} is gone"
        elif digest_of(path) != sha256:
            yield f"{name} was changed"
    yield from (f"{name} was added" for name in sorted(set(os.listdir(folder)) - {name for _, name in rows} - {SUMS}))


def differing(made, date):
    """Which files that were made again aren't the day's."""
    for name in sorted(set(os.listdir(made)) | set(os.listdir(path_of(date)))):
        paths = [os.path.join(folder, name) for folder in (made, path_of(date))]
        if name not in OTHERWISE and (not all(map(os.path.exists, paths)) or digest_of(paths[0]) != digest_of(paths[1])):
            yield f"{name} comes out otherwise"
