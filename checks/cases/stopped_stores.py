"""Looks at what a store holds when it is opened, and when the program is stopped or its disk fails.

Each command that opens a store takes nothing away from it, and the file of a store is the one at its path; standard
error is told of one that wasn't there or has no Things. Behind a command that came to its end a copy of the file alone
lists what both files did, also where 'serve' was stopped as mud.service stops it, and where it was killed before a call
by which it writes the log into the file. Six requests
are answered over a new store, and the next run lists what they make; with strace the program is killed before each
call that writes to the store, and the next run lists what the requests make that were answered, or one more. 'mud
serve' is killed at a hundred random moments (or RUNS), while a client sends changes one by one; the store then has each
that was acknowledged, and at most the one behind them. Then come files that can't be opened, a second program on one
file, a limit on the sizes of files and, where one may be mounted, a small file system that fills up.
"""
import contextlib
import os
import random
import re
import shutil
import socket
import sqlite3
import subprocess
import threading
import time

from checks import program, session
from checks.case import ProgramCase, needs
from checks.program import Server, answers, clear_store, copy_store, read, request, run

URL = "https://lighting.example.com/lightbulb2000"
MAC = "02:00:00:00:00:01"
CAPTURE = "examples/captures/vlan-trunk.pcap"
BULB = "examples/usage-files/made-lightbulb.json"
BOUND = session.answer(200, '{"result":"bound"}')
GET = request("GET", "/things", moment=1)
MOST = 16384
ALL = [f"class uri urn:example:{number // 64:03d} 192.0.2.{number % 64}\n" for number in range(MOST)]


def change(number, moment=1000):
    """A change that is kept by itself: number N, from 0, binds the address N mod 64 of a class for each 64. 'mud
    report' lists them in the order of their numbers."""
    body = f'{{"address":"192.0.2.{number % 64}","class":"urn:example:{number // 64:03d}"}}'
    return request("POST", "/classes", body, moment)


def found_in(store, statement):
    """What SQLite itself finds in a copy of a store's files."""
    copy_store(store, store + "-copy")
    with contextlib.closing(sqlite3.connect(store + "-copy")) as database:
        rows = database.execute(statement).fetchall()
    clear_store(store + "-copy")
    return rows


def changed(client, number):
    """What comes back of a change of this number, up to a whole answer or the end."""
    client.sendall(change(number))
    return client.recv(len(BOUND), socket.MSG_WAITALL)


class Stores(ProgramCase):
    def setUp(self):
        super().setUp()
        self.store = self.path("store")
        os.mkdir(self.path("files"))

    def named(self, what, store, moment, address, until):
        """A name that is told at this moment for a minute is there until then."""
        body = f'{{"address":"{address}","name":"test.example.com","ttl":60}}'
        ended = run("replay", store, input=request("POST", "/names", body, moment))
        self.note(what, f'{{"result":"new","until":{until}}}'.encode(), answers(ended.out)[-1].body)

    def kept(self, what, least, most):
        """The store opens, and has the first changes, so many; their number."""
        ended = run("report", self.store, "classes")
        self.note(what + ", opened again, status", 0, ended.status)
        found = ended.out.count(b"\n")
        self.note(what + ", opened again, its lines", "".join(ALL[:found]), ended.out.decode())
        self.holds(what, least <= found <= most, f"{least} changes were acknowledged, {found} are kept")
        return found

    def told(self, what, ended, behind=()):
        """Standard error has one line, on the store at its path, and those that are wanted behind it."""
        lines = ended.errors.decode().splitlines(True)
        self.holds(what + ", what is said on standard error",
                   lines and re.fullmatch(f"mud: {re.escape(self.folder)}/[^:\n]*: [^\n]*\n", lines[0]), repr(ended.errors))
        self.note(what + ", what is said behind it", [f"mud: {sentence}\n" for sentence in behind], lines[1:])

    def refused(self, what, *words, behind=(), **more):
        """Status 7, nothing on standard output, one line on standard error, and nothing read."""
        ended = run(*words, input=self.put("input", GET), **more)
        self.note(what + ", status", 7, ended.status)
        self.note(what + ", octets written", b"", ended.out)
        self.note(what + ", octets left of the input", len(GET), ended.left)
        self.told(what, ended, behind)

    def all_refused(self, what, store, port=8080, **more):
        """Each command that opens a store is refused so."""
        for words in (("judge", store), ("replay", store), ("report", store, "things"), ("import", store, self.path("files")),
                      ("serve", store, str(port), "1")):
            self.refused(f"{what}, {words[0]}", *words, **more)


class Opened(Stores):
    def test_next_run(self):
        """What one run keeps the next one finds: a Thing that was heard, with no URL that waits, and not held."""
        heard = request("POST", "/hear/dhcp", read("examples/dhcp/dhclient-dnsmasq-01-discover.bin"))
        self.note("status", 0, run("replay", self.store, input=heard).status)
        self.note("in the next run", f"thing {MAC} {URL} - -\n", run("report", self.store, "things").out.decode())

    def test_openings(self):
        """A command that opens the store and changes nothing leaves each item, and the moment of the last change, which
        dates what is told with an earlier one."""
        self.named("a name at moment 5000", self.store, 5000, "198.51.100.0", 5060)
        items = "SELECT kind, name, body FROM item ORDER BY kind, name"
        for number, words in enumerate((["report", self.store, "things"], ["replay", self.store], ["judge", self.store],
                                        ["import", self.store, self.path("files")]), 1):
            before = found_in(self.store, items)
            run(*words, input=GET)
            self.note(f"an opening by {words[0]}, the items behind it", before, found_in(self.store, items))
            self.named(f"an opening by {words[0]}, the moment of the last change", self.store, 1000, f"198.51.100.{number}", 5060)
            self.note(f"an opening by {words[0]}, the names behind it", number + 1, run("report", self.store, "names").out.count(b"\n"))

    def test_paths(self):
        """The file of a store is the one at its path: two files come, and without them the store is empty."""
        for what, name in (("a path of one octet", "a"), ("a path of 200 octets", "a" * 200),
                           ("a path of strange octets", "of 'all' \"things\" \\ *?%41 ;$(x)#\t\u00fc")):
            paths, elsewhere, line = self.path("paths"), self.path("elsewhere"), b"name test.example.com 198.51.100.1 1060\n"
            os.mkdir(paths)
            self.named(what, f"{paths}/{name}", 1000, "198.51.100.1", 1060)
            self.note(what + ", the files that came", sorted([name, name + "-wal"]), sorted(os.listdir(paths)))
            self.note(what + ", in the next run", line, run("report", f"{paths}/{name}", "names").out)
            os.rename(paths, elsewhere)
            os.mkdir(paths)
            self.note(what + ", without its files", b"", run("report", f"{paths}/{name}", "names").out)
            self.note(what + ", where its files were put", line, run("report", f"{elsewhere}/{name}", "names").out)
            shutil.rmtree(paths)
            shutil.rmtree(elsewhere)


EMPTY = "there was no store here, and an empty one was made"
ASK = [["judge"], ["snoop"], ["tally"], ["report", "things"], ["report", "due"], ["export", MAC]]
CHANGE = [["import"], ["replay"], ["serve"]]
NO_NAME = "no name could be learnt: no address is bound to urn:ietf:params:mud:dns"


class Missing(Stores):
    """What standard error is told of a store that wasn't there, and of one that has no Things."""

    def said(self, store, words, captured=CAPTURE):
        """The status and the lines of standard error of a command over a store."""
        more = [self.path("files")] if words[0] == "import" else [str(program.free_port()), "1"] if words[0] == "serve" else words[1:]
        if words[0] == "serve":
            with Server(1, store) as server:
                program.sent(server.port, GET)
                server.process.wait(timeout=10)
                return server.process.returncode, server.process.stderr.read().decode().splitlines()
        ended = run(words[0], store, *more, input=captured if words[0] in ("judge", "snoop", "tally") else GET)
        return ended.status, ended.errors.decode().splitlines()

    def lines(self, words, *sentences):
        return [f"mud: {sentence}" for sentence in [*sentences, *([NO_NAME] if words[0] == "snoop" else [])]]

    def test_no_store(self):
        for words in ASK:
            clear_store(self.store)
            status = 3 if words[0] == "export" else 0
            self.note(f"{words} where there is no store", (status, self.lines(words, f"{self.store}: {EMPTY}")), self.said(self.store, words))
            self.holds(f"{words} where there was no store, there is one", os.path.exists(self.store))
            wanted = [f"{self.store} has no Things, so every packet is let through as unmanaged"] if words[0] in ("judge", "snoop", "tally") else []
            self.note(f"{words} where there is an empty store", (status, self.lines(words, *wanted)), self.said(self.store, words))
        for words in CHANGE:
            clear_store(self.store)
            for what in ("no store", "an empty store"):
                self.note(f"{words} where there is {what}", (0, []), self.said(self.store, words))

    def test_broken_capture(self):
        """Behind a capture that is refused too; where no store can be made, nothing but that is said."""
        self.note("a broken capture", (3, [f"mud: {self.store}: {EMPTY}"]), self.said(self.store, ["judge"], b""))
        self.note("a broken capture and an empty store", (3, [f"mud: {self.store} has no Things, so every packet is let through as unmanaged"]),
                  self.said(self.store, ["judge"], b""))
        ended = run("judge", self.path("none/store"), input=CAPTURE)
        self.told("no folder", ended)
        self.note("no folder, status", 7, ended.status)

    def test_memory(self):
        for words in ASK[:3]:
            self.note(f"{words} in memory", (0, self.lines(words)), self.said(":memory:", words))

    def test_things(self):
        """Of a store with a Thing nothing is said."""
        run("replay", self.store, input=SIX.octets)
        for words in [["judge"], ["snoop"], ["tally"], ["report", "due"], ["export", MAC]]:
            self.note(f"{words} over a store with a Thing", (0, []), self.said(self.store, words))


KINDS = ("things", "files", "classes", "locals", "names", "due")


class Closed(Stores):
    """Behind a command that came to its end the file alone has all, and the log nothing."""

    def reports(self, store):
        """What the six reports of a store list, each with its status."""
        return [(ended.status, ended.out) for ended in (run("report", store, kind) for kind in KINDS)]

    def alone(self, what, wanted):
        """A copy of the file, without its log, has these reports, and SQLite finds it sound."""
        clear_store(self.path("alone"))
        shutil.copy(self.store, self.path("alone"))
        self.note(what + ", SQLite's test of the file alone", [("ok",)], found_in(self.path("alone"), "PRAGMA integrity_check"))
        self.note(what + ", the file alone", wanted, self.reports(self.path("alone")))

    def made(self, ends=lambda server: server.kill()):
        """Makes the store as it stands where 'serve' was ended so behind the six requests. What its two files list."""
        clear_store(self.store)
        with Server(2, self.store) as server:
            self.note("the six answers", 6, program.sent(server.port, SIX.octets).count(b"HTTP/1.1 200 OK"))
            ends(server)
        copy_store(self.store, self.path("both"))
        found = self.reports(self.path("both"))
        self.note("what its two files list", (set([0]), [2, 1, 1, 0, 1, 0]), ({status for status, _ in found}, [out.count(b"\n") for _, out in found]))
        return found

    def test_commands(self):
        """Each command that ends with 0 or 3, behind one that was killed and left all in the log."""
        for words in [["judge"], ["snoop"], ["tally"], ["report", "due"], ["export", MAC], ["export", "02:00:00:00:00:09"], ["import"], ["replay"]]:
            wanted = self.made()
            more = [self.path("files")] if words[0] == "import" else words[1:]
            ended = run(words[0], self.store, *more, input=GET if words[0] == "replay" else CAPTURE)
            self.note(f"{words}, status", 3 if words[-1].endswith("09") else 0, ended.status)
            self.alone(f"behind {words}", wanted)
        wanted = self.made()
        ended = run("judge", self.store, input=b"")
        self.note("a broken capture, status", 3, ended.status)
        self.alone("behind a broken capture", wanted)
        wanted = self.made()
        with Server(1, self.store) as server:
            program.sent(server.port, GET)
            server.ended(self, "serve")
        self.alone("behind serve", wanted)

    def test_changes(self):
        """What the last run itself changed is in the file."""
        run("replay", self.store, input=SIX.octets)
        self.note("behind six requests, what is listed", listed(6), b"".join(run("report", self.store, kind).out for kind in KINDS[:5]).decode())
        self.alone("behind six requests", self.reports(self.store))

    def test_stop(self):
        """'serve' is ended by a signal; then comes what mud.service does behind a stop."""
        unit = read("contrib/mud.service").decode()
        words = re.search(r"^ExecStopPost=-/usr/local/bin/mud (.*)$", unit, re.M)[1].split()
        self.note("the unit's store", 2, unit.count("/var/lib/mud/mud.db "))

        def stopped(server):
            server.process.terminate()
            self.note("the stop", -15, server.process.wait(timeout=10))

        wanted = self.made(stopped)
        ended = run(*[self.store if word.startswith("/") else word for word in words])
        self.note("what stands behind a stop", (0, b""), (ended.status, ended.errors))
        self.alone("behind a stop", wanted)

    @needs("strace")
    def test_before_each_call(self):
        """The program is killed before each call by which it writes all of the log into the file."""
        if run("-o", "/dev/null", "true", program="strace").status != 0:
            self.skipTest("there is no leave to trace")
        wanted, counts = self.made(), {}
        copy_store(self.store, self.path("before"))
        for call in ("pwrite64", "fsync", "fdatasync", "ftruncate"):
            for number in range(1, 1000):
                copy_store(self.path("before"), self.store)
                ended = run("-f", "-qq", "-o", "/dev/null", "-e", f"trace={call}", "-e", f"inject={call}:signal=KILL:when={number}",
                            program.PROGRAM, "report", self.store, "due", program="strace")
                if ended.status != -9:
                    break
                counts[call] = number
                self.note(f"killed before {call} {number}", wanted, self.reports(self.store))
        self.holds("it was killed before writes and syncs", counts.get("pwrite64", 0) > 1 and len(counts) > 1, str(counts))


# six requests, by which a Thing gets an address, an approved usage file, a DNS server, and the address of the server that the
# file names, all at the moment 1000
SIX = session.run_of_steps(*session.BULB)


def listed(count):
    """What the store lists after so many of them."""
    lines = [(1, f"thing {MAC} {URL} - -"), (2, f"lease {MAC} 192.0.2.10 87400"), (4, f"file {URL} waived no"),
             (5, "class uri urn:ietf:params:mud:dns 192.0.2.53"), (6, "name test.example.com 198.51.100.7 1060")]
    lines = [line for least, line in lines if count >= least] + ([f"file {URL} - yes"] if count == 3 else [])
    return "".join(line + "\n" for line in lines)


class Killed(Stores):
    def six(self, *words):
        """The six requests over a new store, by the program, in front of which these words stand."""
        clear_store(self.store)
        words = [*words, program.PROGRAM, "replay", self.store]
        return run(*words[1:], input=SIX.octets, program=words[0])

    def behind(self, what, ended, more):
        """The answers that came are the first ones; opened again, the store lists what it does after as many requests,
        or, where more is 1, after one more. How many were answered."""
        self.note(what + ", the answers", SIX.wanted[:len(ended.out)], ended.out)
        answered = ended.out.count(b"HTTP/1.1 200 OK")
        reports = [run("report", self.store, kind) for kind in ("things", "files", "classes", "locals", "names")]
        self.note(what + ", opened again, status", [0] * 5, [report.status for report in reports])
        lines = b"".join(report.out for report in reports).decode()
        self.holds(what + ", opened again, its lists", lines in [listed(answered), listed(answered + more)], lines)
        return answered

    def test_six(self):
        ended = self.six()
        self.note("six requests, status", 0, ended.status)
        self.note("six requests, all answers", 6, self.behind("six requests", ended, 0))

    @needs("strace")
    def test_before_each_call(self):
        """The program is killed before each call that writes to the store in turn, of all that the six requests make."""
        if run("-o", "/dev/null", "true", program="strace").status != 0:
            self.skipTest("there is no leave to trace")
        counts = set()
        for call in ("pwrite64", "fsync", "fdatasync", "ftruncate"):
            for number in range(1, 1000):
                ended = self.six("strace", "-f", "-qq", "-o", "/dev/null", "-e", f"trace={call}", "-e", f"inject={call}:signal=KILL:when={number}")
                if ended.status != -9:
                    break
                counts.add(self.behind(f"six requests, killed before {call} {number}", ended, 1))
        # behind the sixth answer come those by which the log is written into the file
        self.note("requests that were answered", set(range(7)), counts)


class Client(threading.Thread):
    """Sends changes from a number on, one by one, and counts how many were acknowledged."""

    def __init__(self, port, first):
        super().__init__()
        self.port, self.count, self.surprise = port, first, None
        self.start()

    def run(self):
        with contextlib.suppress(OSError), socket.create_connection(("127.0.0.1", self.port)) as client:
            while self.count < MOST and self.surprise is None:
                answer = changed(client, self.count)
                if len(answer) < len(BOUND):
                    return
                self.surprise = None if answer == BOUND else answer
                self.count += answer == BOUND


class Kills(Stores):
    def test_kills(self):
        """One kill in four comes whenever it comes, the others behind the first change."""
        found = sent = 0
        runs = int(os.environ.get("RUNS", 100))
        for number in range(1, runs + 1):
            if number % 20 == 1 or found > 8000:
                clear_store(self.store)
                found = 0
            with Server(1, self.store) as server:
                client, first = Client(server.port, found), found
                if number % 4:
                    program.until(lambda client=client, first=first: client.count > first, 5)
                time.sleep(random.randrange(300) / 1000)
                printed = server.kill()
                client.join()
            sent += client.count - found
            self.note(f"kill {number}, octets printed", b"", printed)
            self.note(f"kill {number}, answers of another kind", None, client.surprise)
            # what SQLite finds, in a copy of the files as the kill left them
            copy_store(self.store, self.path("left"))
            found = self.kept(f"kill {number}", client.count, client.count + 1)
            self.note(f"kill {number}, SQLite's test of the file", [("ok",)], found_in(self.path("left"), "PRAGMA integrity_check"))
            # a class's body is the version, the number of addresses in two octets, and five octets for each
            total = found_in(self.path("left"), "SELECT coalesce(sum((length(body) - 3) / 5), 0) FROM item WHERE kind = 3")
            self.note(f"kill {number}, addresses that SQLite finds", [(found,)], total)
        self.holds("changes were acknowledged", sent > 0)


class Refused(Stores):
    def test_second_program(self):
        """A second program on a file: it is refused, and the first one goes on."""
        with Server(1, self.store) as server:
            with socket.create_connection(("127.0.0.1", server.port)) as client:
                self.note("the first answer", BOUND, changed(client, 0))
                before = read(self.store)
                self.all_refused("a second program", self.store, program.free_port())
                self.note("the file, behind the second program", before, read(self.store))
                self.note("the second answer", BOUND, changed(client, 1))
            server.ended(self, "the first program on a file")
        self.kept("the first program on a file", 2, 2)

    def not_opened(self, what, path):
        """A file that is no store of this kind stays as it was."""
        before = read(path)
        self.all_refused(what, path)
        self.note(what + ", the file behind it", before, read(path))

    def made_by(self, name, *statements):
        """A database of these statements."""
        with contextlib.closing(sqlite3.connect(self.path(name))) as database:
            database.executescript(";".join(statements))
        return self.path(name)

    def test_other_files(self):
        run("replay", self.store, input=change(0) + change(1))
        store = read("examples/judge/store.sql").decode()
        self.not_opened("a file that is no database", self.put("numbers", b"".join(b"%d\n" % number for number in range(1, 1001))))
        if os.path.getsize(self.store) > 5000:
            self.not_opened("a part of a database", self.put("half", read(self.store)[:5000]))
        self.not_opened("a database with another table", self.made_by("other", "CREATE TABLE thing (name TEXT)"))
        self.not_opened("a database with one table more", self.made_by("both", store, "CREATE TABLE thing (name TEXT)"))
        self.not_opened("a database with an item of a kind above 255", self.made_by("kind", store, "INSERT INTO item VALUES (256, X'', X'')"))
        self.refused("a folder", "replay", self.path("files"))
        self.refused("a folder that isn't there", "replay", self.path("none/store"))

    def test_without_leave(self):
        """A folder where nothing may be written, and a file that may only be read, for a user without rights of its own."""
        more = {"user": 65534, "group": 65534, "extra_groups": []} if os.getuid() == 0 else {}
        own, closed = shutil.copy(program.PROGRAM, self.path("mud")), self.path("closed")
        run("replay", self.store, input=change(0))
        os.mkdir(closed)
        shutil.copy(self.store, closed + "/read-only")
        for path, mode in ((self.folder, 0o755), (own, 0o755), (closed + "/read-only", 0o444), (closed, 0o555)):
            os.chmod(path, mode)
        self.addCleanup(os.chmod, closed, 0o755)
        self.refused("a folder without leave to write", "replay", closed + "/store", behind=[f"{closed}/store: no file can be made there"], program=own, **more)
        self.note("a folder without leave to write, files in it", ["read-only"], os.listdir(closed))
        unwritable = f"{closed}/read-only: it can be read and not written: ask a copy of it that may be written"
        for words in (("replay", closed + "/read-only"), ("report", closed + "/read-only", "due"), ("judge", closed + "/read-only")):
            self.refused(f"a file that may only be read, {words[0]}", *words, behind=[unwritable], program=own, **more)
        self.note("a file that may only be read, behind it", read(self.store), read(closed + "/read-only"))


class Full(Stores):
    """A limit on the sizes of files, and a small file system: self.full is the program there."""

    CHANGES = 400

    def setUp(self):
        super().setUp()
        os.mkdir(self.path("imports"))
        shutil.copy(BULB, self.path("imports/1000-bulb.json"))
        self.full, self.small = program.PROGRAM, None

    def limit(self, blocks):
        """No file of the program grows past so many blocks of 1,024 octets."""
        script = f'#!/bin/bash\ntrap "" XFSZ\nulimit -f {blocks}\nexec {program.PROGRAM} "$@"\n'
        self.full = self.put(f"limited-{blocks}", script.encode())
        os.chmod(self.full, 0o755)

    def fill(self, octets):
        """The small file system has room for so many more."""
        if self.small:
            subprocess.run(["sh", "-c", 'cat /dev/zero >"$0/filler" 2>/dev/null; truncate -s "-$1" "$0/filler"', self.small, str(octets)], check=True)

    def free(self):
        """It has room again."""
        if self.small:
            os.remove(self.small + "/filler")

    def not_made(self, store):
        """Where a store can't even be made, nothing is read; where there is room, it is made."""
        for words in (("replay", store), ("import", store, self.path("imports")), ("serve", store, "8080", "1")):
            self.refused(f"no room for a store, {words[0]}", *words, program=self.full)
        self.free()
        self.note("room for a store behind that, status", 0, run("replay", store, input=GET).status)

    def fills_up(self, store):
        """The changes that find no room are refused, and those that were acknowledged are kept; what is kept."""
        ended = run("replay", store, input=b"".join(map(change, range(self.CHANGES))), program=self.full)
        self.note("a store that fills up, status", 0, ended.status)
        statuses = [answer.status for answer in answers(ended.out)]
        self.note("a store that fills up, answers", self.CHANGES, len(statuses))
        self.note("a store that fills up, answers of another kind", set(), set(statuses) - {200, 503})
        self.holds("a store that fills up, some find no room", 503 in statuses)
        self.free()
        ended = run("report", store, "classes")
        self.note("a store that fills up, opened again, status", 0, ended.status)
        lines = ended.out.decode().splitlines(True)
        wanted = [line for line, status in zip(ALL, statuses) if status == 200]
        self.note("changes that were acknowledged and aren't there", set(), set(wanted) - set(lines))
        self.holds("at most one more is there", len(set(lines) - set(wanted)) <= 1)
        return ended.out

    def stays(self, store, kept):
        """Neither 'import' nor 'serve' changes a store that has no room for it, and each says so."""
        self.fill(0)
        ended = run("import", store, self.path("imports"), program=self.full)
        self.note("import, status and lines", (7, b"1000-bulb.json keeper\n"), (ended.status, ended.out))
        self.told("import", ended)
        with Server(1, store, self.full) as server:
            answer = program.sent(server.port, change(16000))
            self.note("serve, its answer", b"HTTP/1.1 503 Service Unavailable", answer.split(b"\r\n")[0])
            server.ended(self, "serve")
        self.free()
        self.note("the store behind both", kept, run("report", store, "classes").out)
        self.ends("import where there is room again", 0, "1000-bulb.json new\n", run("import", store, self.path("imports")))

    def unclosed(self, store):
        """Where the log can't be written into the file, that is said, the status stays, and both files have all."""
        run("replay", store, input=b"".join(map(change, range(64))))
        with Server(2, store) as server:
            program.sent(server.port, b"".join(map(change, range(64, 64 + self.CHANGES))))
            server.kill()
        copy_store(store, self.path("both"))
        wanted = run("report", self.path("both"), "classes").out
        self.note("a full folder, what there is", 64 + self.CHANGES, wanted.count(b"\n"))
        self.fill(0)
        ended = run("report", store, "classes", program=self.full)
        self.note("a full folder at the end of a run", (0, wanted), (ended.status, ended.out))
        self.told("a full folder at the end of a run", ended)
        self.holds("a full folder at the end of a run, what is said", b": its log stays beside it: the disk " in ended.errors, repr(ended.errors))
        self.free()
        ended = run("report", store, "classes")
        self.note("where there is room again", (0, wanted, b""), (ended.status, ended.out, ended.errors))

    def test_limit_at_the_end(self):
        """No file may have more than 8 kB, and the store's has 12."""
        self.limit(8)
        self.unclosed(self.store)

    def test_limit(self):
        self.limit(0)
        self.not_made(self.store)
        self.limit(sum(os.path.getsize(path) for path in (self.store, self.store + "-wal")) // 1024 + 256)
        kept = self.fills_up(self.store)
        # the log was written into the file at the end of that run: what the first change of a run needs is more than this
        self.limit(128)
        self.stays(self.store, kept)

    def test_full_disk(self):
        small = self.path("small")
        os.mkdir(small)
        if run("-t", "tmpfs", "-o", "size=16m", "none", small, program="mount").status != 0:
            self.skipTest("no file system may be mounted")
        self.addCleanup(subprocess.run, ["umount", small], check=True)
        self.small, store = small, small + "/store"
        self.fill(0)
        self.not_made(store)
        self.fill(400000)
        self.stays(store, self.fills_up(store))
