"""Keeps the built program at work for a year of moments, and looks at what grows: the figures of month 12 are at most 1.1
times those of month 2.

A replay of some 740,000 requests over a store in a file that has Things, a class and files, as a manager finds it that
is started anew; behind it twelve runs each of snoop and import over that store; a judge of ten million packets; and a
serve of a quarter of an hour, of which minute 15 stands beside minute 3.
The input stops at each month's end, and is measured when all answers have come: the memory that is resident and the
most so far, the octets of the store's file, the most that its log had in the month, and the instructions of an opening
of a copy of both (without valgrind the least of five times). Each month's figures are printed.

One figure grows, and has a bound of its own: the database gives a page back only once nothing is left on it, so the
file grows with each name that comes anew (docs/GUIDE.md says how far). So it is measured too as SQLite writes it anew.
"""
import contextlib
import itertools
import os
import socket
import sqlite3
import subprocess
import threading
import time

from bench import measure
from checks import year
from checks.case import ProgramCase, there_is
from checks.program import PROGRAM, Server, answers, clear_store, copy_store, request

GROWTH = 1.1
A_NAME = 64
FOR_EVER = 4_294_967_295
JUDGED, PIECE = 2_000_000, 10_000
MINUTES, CYCLE = 15, 3
SILENT, PATIENCE = 10, 600
SLOW = b"GET /due HTTP/1.1\r\n\r\n"


class Log(threading.Thread):
    """Looks again and again how many octets the log of a store has."""

    def __init__(self, store):
        super().__init__(daemon=True)
        self.path, self.most, self.stopped = store + "-wal", 0, threading.Event()

    def run(self):
        while not self.stopped.wait(0.005):
            self.look()

    def look(self):
        with contextlib.suppress(FileNotFoundError):
            self.most = max(self.most, os.path.getsize(self.path))

    def taken(self):
        """The most that it had since this was asked the last time."""
        self.look()
        most, self.most = self.most, 0
        return most

    def __enter__(self):
        self.start()
        return self

    def __exit__(self, *_):
        self.stopped.set()
        self.join()


class Figures:
    """What was measured at the ends of months, or of minutes."""

    def __init__(self, part, unit="month"):
        self.part, self.unit, self.rows = part, unit, []

    def add(self, **figures):
        self.rows.append(figures)
        said = ", ".join(f"{name.replace('_', ' ')} {figure}" for name, figure in figures.items())
        print(f"a-year: {self.part}, {self.unit} {len(self.rows)}: {said}", flush=True)

    def compare(self, case, early, late, names=0):
        """Of each figure the late one is at most 1.1 times the early one; the file may have 64 octets more for each of so
        many names, which came anew between the two."""
        for name, before in self.rows[early - 1].items():
            after = self.rows[late - 1][name]
            most = GROWTH * before + (A_NAME * names if name == "octets_of_the_file" else 0)
            case.holds(f"{self.part}: {name} of {self.unit} {late}", 0 < after <= most,
                       f"{after}, and {before} of {self.unit} {early}: {after / max(before, 1):.2f} times")


class Fed:
    """The program, which is fed by a pipe: with Fed("judge", store) as fed: .. fed.feed(pieces) .."""

    def __init__(self, *words):
        self.words = words

    def __enter__(self):
        self.process = subprocess.Popen([PROGRAM, *self.words], stdin=subprocess.PIPE, stdout=subprocess.PIPE)
        return self

    def __exit__(self, *_):
        self.process.kill()
        self.process.stdout.close()
        self.process.wait()

    def feed(self, pieces):
        """Writes these octets, while what comes back is read. The call gives a thread, which ends when all is written."""

        def write():
            for piece in pieces:
                self.process.stdin.write(piece)
            self.process.stdin.flush()

        writer = threading.Thread(target=write, daemon=True)
        writer.start()
        return writer

    def read(self):
        return os.read(self.process.stdout.fileno(), 1 << 20)

    def ended(self):
        """Closes the pipe: the status of the program, and what else it wrote."""
        self.process.stdin.close()
        rest = self.process.stdout.read()
        return self.process.wait(), rest


def opening(store, copy):
    """The instructions, or else the least microseconds, in which a copy of a store is opened."""
    words, times = [PROGRAM, "report", copy, "locals"], []
    copy_store(store, copy)
    if there_is("valgrind"):
        return {"instructions_of_an_opening": measure.instructions(words)}
    for _ in range(5):
        copy_store(store, copy)
        times.append(measure.on_processor(words))
    return {"microseconds_of_an_opening": round(min(times) * 1e6)}


def written_anew(store):
    """The octets of a store's file once SQLite has written it anew, without its log."""
    with contextlib.closing(sqlite3.connect(store, isolation_level=None)) as database:
        database.execute("VACUUM")
    return os.path.getsize(store)


def worked(*words, octets=b""):
    """The status of a run of the program, and what it wrote, however long it takes."""
    ran = subprocess.run([PROGRAM, *words], input=octets, stdout=subprocess.PIPE, check=False)
    return ran.returncode, ran.stdout


def memory(process):
    resident, most = measure.memory_of(process)
    return {"kB_resident": resident, "kB_at_most": most}


class AYear(ProgramCase):
    def made_store(self, name, *requests):
        """A store that these requests make, each of which is answered with 200."""
        octets = b"".join(request for _, request in itertools.chain(*requests))
        _, written = worked("replay", self.path(name), octets=octets)
        self.note(f"{name}: refused requests", set(), {it.status for it in answers(written)} - {200})
        return self.path(name)

    def kept(self, what, store, log):
        """What a store takes at a month's end. It is full then."""
        copy = store + "-copy"
        copy_store(store, copy)
        kinds = {"thing": year.THINGS, "name": year.NAMES, "class": year.CLASSES, "local": year.LOCALS}
        lines = b"".join(worked("report", copy, kind)[1] for kind in ("things", "names", "classes", "locals"))
        words = [line.split()[0].decode() for line in lines.splitlines()]
        self.note(f"{what}: what the store has", kinds, {kind: words.count(kind) for kind in kinds})
        figures = {"octets_of_the_file": os.path.getsize(store), "octets_of_the_log": log.taken(), **opening(store, copy)}
        names, figures["octets_written_anew"] = worked("report", copy, "names"), written_anew(copy)
        self.note(f"{what}: the names of the file that is written anew", names, worked("report", copy, "names"))
        clear_store(copy)
        return figures

    def test_store(self):
        store = self.made_store("year.db", year.beginning())
        with Log(store) as log:
            self.replayed(store, log)
            self.snooped(store, log)
            self.imported(store, log)

    def replayed(self, store, log):
        figures = Figures("replay")
        with Fed("replay", store) as fed:
            for month in range(year.MONTHS):
                octets, count = year.requests_of(month)
                self.answered(f"replay, month {month + 1}", fed, octets, count)
                figures.add(**memory(fed.process), **self.kept(f"replay, month {month + 1}", store, log))
            self.note("replay: its end", (0, b""), fed.ended())
        figures.compare(self, 2, 12, 10 * year.NAMES)

    def answered(self, what, fed, octets, count):
        """A month's requests, until each has its answer."""
        writer, got, come = fed.feed([octets]), bytearray(), 0
        while come < count or not got.endswith(b"}"):
            piece = fed.read()
            if not piece:
                break
            got += piece
            come += got.count(b"HTTP/1.1 ", max(len(got) - len(piece) - 8, 0))
        writer.join()
        renewed, packets = (octets.count(b"POST %s HTTP/1.1" % target) for target in (b"/leases", b"/packets"))
        self.note(f"{what}: answers with 200", count, got.count(b"HTTP/1.1 200 OK\r\n"))
        self.note(f"{what}: packets that pass", packets, got.count(b'{"verdict":"pass '))
        self.note(f"{what}: renewals", renewed, got.count(b'"renewed"'))

    def snooped(self, store, log):
        figures = Figures("snoop")
        for month in range(year.MONTHS):
            status, lines = worked("snoop", store, octets=year.dns_answers(year.MONTHS + month))
            what = f"snoop, month {month + 1}"
            self.note(f"{what}: status and names", (0, year.NAMES), (status, lines.count(b" new\n")))
            figures.add(**self.kept(what, store, log))
        figures.compare(self, 2, 12, 10 * year.NAMES)

    def imported(self, store, log):
        figures, folder = Figures("import"), self.path("files")
        os.mkdir(folder)
        for month in range(year.MONTHS):
            for name in os.listdir(folder):
                os.remove(os.path.join(folder, name))
            for name, octets in year.renewed_files(year.MONTHS + month).items():
                self.put(os.path.join(folder, name), octets)
            status, lines = worked("import", store, folder)
            what = f"import, month {month + 1}"
            self.note(f"{what}: status and files", (0, year.URLS), (status, lines.count(b" new\n")))
            figures.add(**self.kept(what, store, log))
        figures.compare(self, 2, 12)

    def test_judge(self):
        """Ten million packets: the connections of Things, each with an endpoint of its own."""
        store, figures = self.made_store("judge.db", year.beginning(FOR_EVER)), Figures("judge")
        with Fed("judge", store) as fed:
            fed.feed([year.HEAD]).join()
            for month in range(year.MONTHS):
                first, end = (JUDGED * part // year.MONTHS for part in (month, month + 1))
                self.judged(f"judge, month {month + 1}", fed, first, end)
                figures.add(**memory(fed.process))
            self.note("judge: its end", (0, b""), fed.ended())
        figures.compare(self, 2, 12)

    def judged(self, what, fed, first, end):
        """A month's packets, until each has its line: the Thing's own three, and its peer's two, which follow."""
        numbers = [range(at, min(at + PIECE, end)) for at in range(first, end, PIECE)]
        writer = fed.feed(year.packets_of(some, JUDGED) for some in numbers)
        rest, counts, lines = b"", [0, 0], 0
        while lines < 5 * (end - first):
            piece = fed.read()
            if not piece:
                break
            whole, _, rest = (rest + piece).rpartition(b"\n")
            lines += whole.count(b"\n") + bool(whole)
            counts = [count + (whole + b"\n").count(b" pass %s=accept:1\n" % side) for count, side in zip(counts, (b"from", b"to"))]
        writer.join()
        self.note(f"{what}: packets that pass", [3 * (end - first), 2 * (end - first)], counts)

    def test_serve(self):
        """A quarter of an hour among clients that come, stay silent, send an octet a second, and go."""
        store = self.made_store("serve.db", year.beginning(FOR_EVER), year.changed_names(0))
        figures = Figures("serve", "minute")
        with Server(1_000_000, store) as server, Log(store) as log, Clients(server.port) as clients:
            begun = time.monotonic()
            for minute in range(1, MINUTES + 1):
                time.sleep(max(begun + 60 * minute - time.monotonic(), 0))
                figures.add(**memory(server.process), octets_of_the_file=os.path.getsize(store), octets_of_the_log=log.taken())
            clients.stopped.set()
            self.note("serve: what clients found", [], clients.faults)
            for deed in Clients.DEEDS:
                self.holds(f"serve: clients that did it, {deed}", clients.done[deed] > 0, str(clients.done))
        figures.compare(self, CYCLE, MINUTES)


class Clients:
    """Clients of a console at a port, from their beginning to their end."""

    DEEDS = ("ask", "stay silent", "stay silent and go", "ask slowly", "ask slowly and go")

    def __init__(self, port):
        self.port, self.stopped, self.faults = port, threading.Event(), []
        self.done, self.numbers = dict.fromkeys(self.DEEDS, 0), itertools.count()

    def __enter__(self):
        for deeds in (self.quick, self.quick, self.slow):
            threading.Thread(target=self.go_on, args=[deeds], daemon=True).start()
        return self

    def __exit__(self, *_):
        self.stopped.set()

    def go_on(self, deeds):
        while not self.stopped.is_set():
            try:
                deeds()
            except OSError as fault:
                if not self.stopped.wait(1):
                    self.faults.append(f"{deeds.__name__}: {fault}")

    def client(self):
        return socket.create_connection(("127.0.0.1", self.port), timeout=PATIENCE)

    def found(self, deed, wanted, got):
        """What a client did, and what it got."""
        self.done[deed] += 1
        if wanted != got and not self.stopped.is_set():
            self.faults.append(f"{deed}: wanted {wanted}, got {got}")

    def quick(self):
        """A client that asks for some things, one after the other, and goes."""
        number = next(self.numbers)
        octets = b"".join(asked(number))
        with self.client() as client:
            client.sendall(octets)
            client.shutdown(socket.SHUT_WR)
            got = b"".join(iter(lambda: client.recv(65536), b""))
        self.found("ask", octets.count(b" HTTP/1.1\r\n"), got.count(b"HTTP/1.1 200 OK\r\n"))
        self.stopped.wait(0.2)

    def slow(self):
        """A client that is left since it stays silent, and others that go, or ask by an octet a second."""
        with self.client() as client:
            self.found("stay silent", b"", client.recv(65536))
        with self.client() as client:
            self.stopped.wait(SILENT)
            self.done["stay silent and go"] += 1
        with self.client() as client:
            self.send_slowly(client, SLOW)
            self.found("ask slowly", b"HTTP/1.1 200 OK", client.recv(65536)[:15])
        with self.client() as client:
            self.send_slowly(client, SLOW[:-4])
            self.done["ask slowly and go"] += 1
        self.stopped.wait(2 * SILENT)

    def send_slowly(self, client, octets):
        for number in range(len(octets)):
            client.sendall(octets[number:number + 1])
            self.stopped.wait(1)


def asked(number):
    """What the client of this number asks: a lease, a name that is new, a packet, and lists."""
    thing, name = number % year.THINGS, year.LASTING + number % (year.NAMES - year.LASTING)
    mac, address = year.inputs.mac_of(thing).hex(":"), year.inputs.dotted(year.inputs.address_of(thing))
    yield request("POST", "/leases", year.inputs.compact({"mac": mac, "address": address, "seconds": year.LEASE + number}), None)
    month = 1 + number // (year.NAMES - year.LASTING)
    body = {"name": year.name_of(name, month), "address": year.inputs.dotted(year.peer_of(name, month % year.MONTHS)), "ttl": 1}
    yield request("POST", "/names", year.inputs.compact(body), None)
    for frame in year.connection(thing, year.flags_of(thing)):
        yield request("POST", "/packets", frame, None)
    for target in ("/things", "/names", "/due"):
        yield request("GET", target, moment=None)
