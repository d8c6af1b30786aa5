"""Looks whether a copy of a store that is served keeps what the store does, and what becomes of one where the console
ends.

Made stores are served, and contrib/copy makes a copy of each: the tables of 'report', the URLs that are due at five
moments and the lists of 'export' of each Thing are the same of the copy and of the stopped original. A full store is
read and made within seconds. Where the console is stopped, started anew or refuses in the midst the copy is whole or
the old one stays. COPIES names another number of made stores than 200.
"""
import http.server
import json
import os
import random
import shutil
import sqlite3
import subprocess
import sys
import tempfile
import threading
import time

from checks import program
from checks.case import ProgramCase
from checks.session import announcement, frames

sys.dont_write_bytecode = True
sys.path.append(os.path.join(program.HERE, "contrib"))
import console  # noqa: E402 (they stand in contrib/)
import kept_files  # noqa: E402
import told_again  # noqa: E402

COUNT = int(os.environ.get("COPIES", "200"))
FOR_EVER = 4294967295
BULB = json.loads(program.read("examples/usage-files/made-lightbulb.json"))
# a URL of 255 octets, which has 256 with the '/' of its empty path
LONG = "https://" + ("a" * 50 + ".") * 4 + "b" * 43


def usage_file(url, update, signed=False, entries=("test.example.com",)):
    """A usage file of this URL, with an entry for each of these names."""
    made = json.loads(json.dumps(BULB))
    head = made["ietf-mud:mud"]
    head["mud-url"], head["last-update"] = url, time.strftime("%Y-%m-%dT%H:%M:%SZ", time.gmtime(update))
    if signed:
        head["mud-signature"] = url + ".p7s"
    for acl in made["ietf-access-control-list:acls"]["acl"]:
        one = acl["aces"]["ace"][0]
        acl["aces"]["ace"][:1] = [json.loads(json.dumps(one).replace("test.example.com", name).replace('"cl0', f'"{number}cl0'))
                                  for number, name in enumerate(entries)]
    return json.dumps(made).encode()


def url_of(number):
    return LONG if number == 3 else f"https://maker{number % 3}.example.com/model{number}"


class Maker:
    """Makes a store by chance, in the order of its moments, up to now."""

    def __init__(self, seed, now):
        self.random, self.now = random.Random(seed), now
        self.requests, self.held = [], {}

    def post(self, moment, path, body, method="POST"):
        octets = body if isinstance(body, bytes) else json.dumps(body).encode()
        self.requests.append(program.request(method, path, octets, moment))

    def keep(self, octets):
        sha256 = kept_files.keep(octets)
        self.held[sha256] = octets
        return sha256

    def mac(self):
        return f"02:00:00:00:00:{self.random.randrange(1, 9):02x}"

    def address(self):
        return self.random.choice([f"192.0.2.{self.random.randrange(1, 20)}", f"2001:db8::{self.random.randrange(1, 9):x}"])

    def step(self, moment):
        """One request of a kind that is chosen by chance."""
        chance = self.random
        kind = chance.choice(["url", "url", "lease", "lease", "hold", "file", "file", "file", "class", "name", "name", "name", "locals",
                              "remove", "move", "revoke"])
        url = url_of(chance.randrange(6))
        if kind == "url":
            self.post(moment, "/hear/dhcp", announcement(self.mac(), url))
        elif kind == "lease":
            seconds = chance.choice([60, 3600, 86400, 10**7, FOR_EVER - 1, FOR_EVER])
            self.post(moment, "/leases", {"mac": self.mac(), "address": self.address(), "seconds": seconds})
        elif kind == "hold":
            self.post(moment, "/holds", {"mac": self.mac()}, chance.choice(["POST", "POST", "DELETE"]))
        elif kind == "file":
            self.file(moment, url)
        elif kind == "class":
            who = {"class": chance.choice(["urn:ietf:params:mud:dns", "urn:\"\\"])} if chance.random() < 0.5 else {"my-controller-of": url}
            self.post(moment, "/classes", who | {"address": self.address()}, chance.choice(["POST", "POST", "DELETE"]))
        elif kind == "name":
            name = chance.choice(["test.example.com", "a.example.com", "b_c.example.org"])
            self.post(moment, "/names", {"name": name, "address": self.address(), "ttl": chance.choice([60, 3600, 86400, 2147483647])})
        elif kind == "locals":
            self.post(moment, "/locals", {"prefixes": chance.sample(["192.0.2.0/24", "10.0.0.0/8", "2001:db8::/32", "0.0.0.0/0"], 2)}, "PUT")
        elif kind == "remove" and chance.random() < 0.3:
            self.post(moment, "/things", {"mac": self.mac()}, "DELETE")
        elif kind == "move":
            self.post(moment, "/things", {"mac": self.mac(), "url": url})
        elif kind == "revoke" and chance.random() < 0.3:
            self.post(moment, "/revokes", {"url": url})

    def file(self, moment, url):
        """A file that is posted, and mostly judged; now and then the octets that are held are posted again."""
        chance = self.random
        if self.held and chance.random() < 0.5:
            sha256 = chance.choice(sorted(self.held))
        else:
            signed = chance.random() < 0.5
            sha256 = self.keep(usage_file(url, 1700000000 + chance.randrange(3), signed, ["test.example.com", "a.example.com"]))
        octets = self.held[sha256]
        self.post(moment, "/files", octets)
        url = json.loads(octets)["ietf-mud:mud"]["mud-url"]
        if chance.random() < 0.6:
            self.post(moment, "/verdicts", {"url": url, "sha256": sha256, "verdict": chance.choice(["verified", "waived", "waived", "failed"])})
            if chance.random() < 0.7:
                self.post(moment, "/files", self.keep(usage_file(url, 1700000005, False, [f"w{len(self.held)}.example.com"])))
                if chance.random() < 0.5:
                    self.post(min(self.now, moment + 5), "/files", octets)

    def octets(self):
        """The requests of a store."""
        moment = self.now - self.random.choice([10**5, 10**6, 10**7])
        for _ in range(self.random.randrange(10, 90)):
            self.step(moment)
            moment = min(self.now, moment + self.random.choice([0, 5, 60, 3600, 86400]))
        return b"".join(self.requests)


TABLES = ("things", "files", "classes", "locals", "names")
# what some of the made stores have to have
KINDS = ("a hold", "a URL that waits", "a URL of 256 octets", "a lease that has ended", "a lease for ever", "a name that has ended",
         "a file that waits alone", "an approved file that was fetched before the one that waits", "one that was fetched later",
         "one whose signature was verified")


def report(store):
    """All that a store says: its tables, the URLs that are due at five moments, the lists of each Thing, and its items
    but for the stamp."""
    said = {table: program.run("report", store, table).out for table in TABLES}
    now = int(time.time())
    asked = b"".join(program.request("GET", "/due", moment=now + hours * 3600) for hours in (0, 24, 48, 72, 400))
    said["due"] = [answer.body for answer in program.answers(program.run("replay", store, input=asked).out)]
    for line in said["things"].decode().splitlines():
        if line.startswith("thing "):
            mac = line.split()[1]
            said[mac] = program.run("export", store, mac).out
    told_again.as_one_file(store)
    said["items"] = sqlite3.connect(store).execute("SELECT kind, name, body FROM item WHERE kind <> 6 ORDER BY kind, name").fetchall()
    return said


def kinds_in(store):
    """Which of the kinds a store has."""
    asked = program.request("GET", "/things") + program.request("GET", "/files") + program.request("GET", "/names")
    things, files, names = (json.loads(answer.body) for answer in program.answers(program.run("replay", store, input=asked).out))
    now = time.time()
    for thing in things["things"]:
        ends = [lease["until"] for lease in thing["leases"]]
        yield from ["a hold"] * thing["held"] + ["a URL that waits"] * bool(thing["pending"])
        yield from ["a URL of 256 octets"] * (len(thing["url"]) == 256)
        yield from ["a lease for ever"] * (None in ends) + ["a lease that has ended"] * any(end and end <= now for end in ends)
    for name in names["names"]:
        yield from ["a name that has ended"] * any(at["until"] <= now for at in name["addresses"])
    for row in files["files"]:
        approved, candidate = row["approved"], row["candidate"]
        if not approved:
            yield "a file that waits alone"
        elif candidate:
            later = approved["fetched"] > candidate["fetched"]
            yield "one that was fetched later" if later else "an approved file that was fetched before the one that waits"
        yield from ["one whose signature was verified"] * bool(approved and approved["verdict"] == "verified")


class CopyCase(ProgramCase):
    """Cases with a folder of memory for stores, and a folder of files."""

    def setUp(self):
        super().setUp()
        self.memory = tempfile.mkdtemp(dir="/dev/shm" if os.access("/dev/shm", os.W_OK) else None)
        self.addCleanup(shutil.rmtree, self.memory, ignore_errors=True)
        os.environ["MUD_FILES"] = self.path("files")
        self.store, self.copy = (os.path.join(self.memory, name) for name in ("store.db", "copy.db"))

    def make(self, octets):
        """The store of these requests, and their answers."""
        program.clear_store(self.store)
        ended = program.run("replay", self.store, input=octets)
        self.holds("the store is made", ended.status == 0, ended.out[-300:])
        return program.answers(ended.out)

    def copied(self, port, *words, name="copy"):
        """A run of contrib/copy, or of another of its programs."""
        environ = dict(os.environ, MUD=program.PROGRAM, MUD_CONSOLE=f"http://127.0.0.1:{port}")
        more = ["--in", self.memory, *words] if name != "put" else words
        ended = subprocess.run(["contrib/" + name, *more], env=environ, capture_output=True, check=False)
        return ended.returncode, ended.stdout.decode(), ended.stderr.decode()


class MadeStores(CopyCase):
    def each(self, seed):
        self.make(Maker(seed, int(time.time())).octets())
        kinds = set(kinds_in(self.store))
        with program.Server(1000, self.store) as server:
            self.note(f"store {seed}, its copy", (0, "", ""), self.copied(server.port, self.copy))
        wanted, got = report(self.store), report(self.copy)
        for what in wanted:
            self.note(f"store {seed}, {what}", wanted[what], got.get(what))
        return kinds

    def part(self, number):
        kinds = set()
        for seed in range(number, COUNT, 4):
            kinds |= self.each(seed)
        if COUNT >= 100:
            self.note("kinds that no store has", [], [kind for kind in KINDS if kind not in kinds])

    def test_first_part(self):
        self.part(0)

    def test_second_part(self):
        self.part(1)

    def test_third_part(self):
        self.part(2)

    def test_fourth_part(self):
        self.part(3)


class FullStores(CopyCase):
    alone = True

    def full(self):
        """The requests of 512 Things with two leases each, 128 URLs with two files each, and 4,096 names."""
        now = int(time.time()) - 1000
        post = []
        for number in range(512):
            mac = f"02:00:00:00:{number >> 8:02x}:{number & 255:02x}"
            post.append(("/hear/dhcp", announcement(mac, f"https://maker.example.com/{number % 128}")))
            post += [("/leases", {"mac": mac, "address": f"10.{net}.{number >> 8}.{number & 255}", "seconds": 86400}) for net in (0, 1)]
        for number in range(128):
            url = f"https://maker.example.com/{number}"
            for update in (1700000000, 1700000001):
                octets = usage_file(url, update, False, [f"n{number * 32 + it}.example.com" for it in range(8)])
                post.append(("/files", octets))
                if update == 1700000000:
                    post.append(("/verdicts", {"url": url, "sha256": kept_files.keep(octets), "verdict": "waived"}))
                else:
                    kept_files.keep(octets)
        post += [("/names", {"name": f"n{number}.example.com", "address": f"198.18.{number >> 8}.{number & 255}", "ttl": 86400})
                 for number in range(4096)]
        bodies = [(path, body if isinstance(body, bytes) else json.dumps(body)) for path, body in post]
        return b"".join(program.request("POST", path, body, now) for path, body in bodies)

    def test_full(self):
        answers = self.make(self.full())
        self.note("a full store, statuses", {200}, {answer.status for answer in answers})
        with program.Server(1000, self.store) as server:
            began = time.monotonic()
            told = told_again.Telling(console.Console(place=f"http://127.0.0.1:{server.port}").listings(told_again.NAMES))
            octets = told.octets()
            written = time.monotonic() - began
            self.note("it is served on", None, server.process.poll())
        os.environ["MUD"] = program.PROGRAM
        # others may share the processors: what is counted is the processor's time
        began = os.times()
        told_again.make_store(told, self.copy)
        made = sum(after - before for after, before in list(zip(os.times(), began))[:4])
        self.holds(f"{len(told.requests)} requests of {len(octets)} octets are written within 2 seconds", written <= 2, f"{written:.2f} s")
        self.holds("the store is made of them within 3 seconds", made <= 3, f"{made:.2f} s")


class Between(http.server.ThreadingHTTPServer):
    """Stands before the console, and does with the second listing of each connection what 'plan' says next: hands it
    on, cuts the connection, stops, answers with a status, or does what it is told and cuts the connection."""

    def __init__(self, port, plan):
        super().__init__(("127.0.0.1", 0), Handler)
        self.console, self.plan, self.connections = console.Console(place=f"http://127.0.0.1:{port}"), list(plan), 0
        threading.Thread(target=self.serve_forever, kwargs={"poll_interval": 0.05}, daemon=True).start()

    def handle_error(self, *_):
        pass


class Handler(http.server.BaseHTTPRequestHandler):
    protocol_version = "HTTP/1.1"

    def log_message(self, *_):
        pass

    def setup(self):
        super().setup()
        self.server.connections += 1
        self.doing = self.server.plan.pop(0) if self.server.plan else "on"

    def do_GET(self):
        status, text = 200, ""
        if self.path == "/files" and self.doing == "stop":
            threading.Thread(target=lambda: (self.server.shutdown(), self.server.server_close())).start()
            time.sleep(0.3)
        if self.path == "/files" and callable(self.doing):
            self.doing()
        if self.path == "/files" and (callable(self.doing) or self.doing in ("cut", "stop")):
            self.close_connection = True
            return
        if self.path == "/files" and isinstance(self.doing, int):
            status, text = self.doing, '{"rule":"keeper"}'
        else:
            text = self.server.console.ask("GET", self.path)[1]
            self.server.console.close()
        self.send_response(status)
        self.send_header("Content-Length", str(len(text)))
        self.end_headers()
        self.wfile.write(text.encode())


class Consoles(CopyCase):
    def setUp(self):
        super().setUp()
        octets = Maker(7, int(time.time())).octets()
        self.make(octets)
        shutil.copy(self.store, self.path("before"))

    def old(self):
        """An old copy, with its octets: the store of one Thing, with a log that isn't empty."""
        program.clear_store(self.copy)
        program.run("replay", self.copy, input=program.request("POST", "/hear/dhcp", announcement("02:00:00:00:00:77", "https://a.example/")))
        return program.run("report", self.copy, "things").out

    def tried(self, what, plan, status, words, copied):
        """A copy over a console that does so, and what stands in its place then."""
        old = self.old()
        with program.Server(1000, self.store) as server:
            between = Between(server.port, plan)
            ended = self.copied(between.server_address[1], "--wait", "1", self.copy)
            between.shutdown()
            between.server_close()
        self.note(what + ", status", status, ended[0])
        self.holds(what + ", words", words in ended[2], ended[2])
        things = program.run("report", self.copy, "things").out
        self.note(what + ", what stands there", program.run("report", self.store, "things").out if copied else old, things)
        self.note(what + ", what is left behind", [], [name for name in os.listdir(self.memory) if "copy" in name and name not in ("copy.db", "copy.db-wal")])
        return between

    def test_in_the_midst(self):
        self.tried("a console that goes on", [], 0, "", True)
        self.tried("one that ends the connection once", ["cut"], 0, "", True)
        between = self.tried("one that ends it each time", ["cut"] * 9, 1, "ended the connection in the midst, 5 times", False)
        self.note("one that ends it each time, tries", 5, between.connections)
        self.tried("one that stops", ["stop"], 1, "can't be reached: nobody listens there", False)
        self.tried("one that answers 503", [503], 1, "503 keeper: the store couldn't be written", False)
        self.tried("one that answers 507", [507], 1, "507", False)

    def restarted(self, times):
        """A copy of the served program, which is killed in the midst so many times and started anew at its port, each
        time behind a further Thing."""
        old = self.old()
        with program.Server(1000, self.store) as server:

            def restart():
                server.kill()
                another = announcement(f"02:00:00:00:01:{between.connections:02x}", "https://a.example/")
                program.run("replay", self.store, input=program.request("POST", "/hear/dhcp", another))
                server.start()

            between = Between(server.port, [restart] * times)
            ended = self.copied(between.server_address[1], "--wait", "9", self.copy)
            between.shutdown()
            between.server_close()
        return old, ended

    def test_restarted(self):
        """Where the served program is started anew in the midst the copy is that of the one that was, whole; where it is
        at each try there is none, and the old one stays."""
        for times in (1, 4):
            ended = self.restarted(times)[1]
            self.note(f"started anew {times} times, the copy", (0, "", ""), ended)
            wanted, got = report(self.store), report(self.copy)
            self.holds(f"started anew {times} times, the further Things", wanted["things"].count(b"02:00:00:00:01:") >= times)
            for what in wanted:
                self.note(f"started anew {times} times, {what}", wanted[what], got.get(what))
        old, ended = self.restarted(5)
        self.note("started anew at each try, status", 1, ended[0])
        self.holds("started anew at each try, words", "ended the connection in the midst, 5 times" in ended[2], ended[2])
        self.note("started anew at each try, what stands there", old, program.run("report", self.copy, "things").out)

    def test_in_use(self):
        old = self.old()
        with program.Server(9, self.store) as server, program.Server(9, self.copy):
            ended = self.copied(server.port, self.copy)
        self.note("where another program uses the copy, status", 1, ended[0])
        self.holds("where another program uses the copy, words", "another program uses" in ended[2], ended[2])
        self.note("where another program uses the copy, it stays", old, program.run("report", self.copy, "things").out)
        with open(self.copy, "wb") as file:
            file.write(b"no store" * 1000)
        program.clear_store(self.copy + "-wal")
        with program.Server(9, self.store) as server:
            self.note("where no store stands, status", 1, self.copied(server.port, self.copy)[0])
        self.note("where no store stands, it stays", b"no store" * 1000, program.read("copy.db", self.memory))


class Files(CopyCase):
    FILE = "examples/usage-files/made-lightbulb.json"
    SHA256 = "fde1333bdb4a776cc061761cd6a3b72458b458493e4ada81dc79bc7956eb2096"
    URL = "https://lighting.example.com/lightbulb2000"

    def approve(self, port):
        verdict = {"url": self.URL, "sha256": self.SHA256, "verdict": "waived"}
        console.Console(place=f"http://127.0.0.1:{port}").tell("POST", "/verdicts", verdict)

    def test_folder(self):
        with program.Server(99, self.store) as server:
            self.note("put", (0, f"{self.FILE} new {self.URL} {self.SHA256}\n", ""), self.copied(server.port, self.FILE, name="put"))
            broken = self.put("broken.json", b"{}")
            self.note("put of a file that is refused", (1, 1), (lambda it: (it[0], it[2].count("422 Missing")))(self.copied(server.port, broken, name="put")))
            self.approve(server.port)
            self.note("what is kept", [self.SHA256 + ".json"], os.listdir(self.path("files")))
            self.note("a copy with the file", 0, self.copied(server.port, self.copy)[0])
            # octets of another digest count as missing
            with open(kept_files.path_of(self.SHA256), "ab") as file:
                file.write(b" ")
            os.remove(self.copy)
            ended = self.copied(server.port, self.copy)
            self.note("octets of another digest, status and copy", (1, False), (ended[0], os.path.exists(self.copy)))
            self.holds("octets of another digest, words", self.SHA256 in ended[2] and self.URL in ended[2], ended[2])
            ended = self.copied(server.port, "--without-missing", self.copy)
            self.note("the copy without it", (0, b""), (ended[0], program.run("report", self.copy, "files").out))
            self.holds("the copy without it, words", self.SHA256 in ended[2], ended[2])
            self.note("put --keep", 0, self.copied(server.port, "--keep", self.FILE, name="put")[0])
            self.note("a copy with it again", (0, "", ""), self.copied(server.port, self.copy))

    def test_ahead(self):
        """A file that was imported with a moment ahead of the clock."""
        os.mkdir(self.path("spool"))
        ahead = int(time.time()) + 10**6
        shutil.copy(self.FILE, self.path(f"spool/{ahead}-bulb.json"))
        kept_files.keep(program.read(self.FILE))
        self.note("the import", 0, program.run("import", self.store, self.path("spool")).status)
        with program.Server(9, self.store) as server:
            status, _, errors = self.copied(server.port, self.copy)
        self.note("the copy, status", 0, status)
        self.holds("the copy, words", f"the waiting file of {self.URL} was fetched at {ahead}, which is ahead of the clock" in errors, errors)

    def test_expiries(self):
        """Expiries beyond what a route takes at the moment 0."""
        asked = [(2147483640, 2147483647), (2147483640, 5), (4294967280, 2147483647), (4294967290, 60), (9999999999, 2147483647)]
        octets = program.request("POST", "/hear/dhcp", announcement("02:00:00:00:00:01", self.URL), 0)
        for number, (moment, seconds) in enumerate(asked):
            for path, body in (("/names", {"name": "a.example.com", "address": f"192.0.2.{number}", "ttl": seconds}),
                               ("/leases", {"mac": "02:00:00:00:00:01", "address": f"192.0.2.{number % 4}", "seconds": 2 * seconds})):
                octets += program.request("POST", path, json.dumps(body), moment)
        answers = self.make(octets)
        self.note("what the store is told", {200}, {answer.status for answer in answers})
        with program.Server(9, self.store) as server:
            self.note("the copy", (0, "", ""), self.copied(server.port, self.copy))
        self.note("its items", report(self.store)["items"], report(self.copy)["items"])

    def test_past_day(self):
        """Of a store that was changed since, the copy judges a past packet at the packet's own second."""
        now = int(time.time())
        steps = [(9000, "/hear/dhcp", announcement("02:00:00:00:00:01", self.URL)), (9000, "/files", program.read(self.FILE)),
                 (9000, "/verdicts", {"url": self.URL, "sha256": self.SHA256, "verdict": "waived"}),
                 (5000, "/names", {"name": "test.example.com", "address": "198.51.100.7", "ttl": 60}),
                 (0, "/names", {"name": "other.example.com", "address": "198.51.100.8", "ttl": 60})]
        self.make(b"".join(program.request("POST", path, body if isinstance(body, bytes) else json.dumps(body), now - ago)
                           for ago, path, body in steps))
        kept_files.keep(program.read(self.FILE))
        day = self.put("day.pcap", program.capture((now - ago, frames()["bulb-opens"]) for ago in (4999, 4940)))
        dropped = "".join(f"{number} {now - ago} drop from=drop:no-match\n" for number, ago in ((1, 4999), (2, 4940)))
        self.note("the store", dropped, program.run("judge", self.store, input=day).out.decode())
        with program.Server(9, self.store) as server:
            self.note("its copy", (0, "", ""), self.copied(server.port, self.copy))
        wanted = f"1 {now - 4999} pass from=accept:1\n2 {now - 4940} drop from=drop:no-match\n"
        self.note("the copy", wanted, program.run("judge", self.copy, input=day).out.decode())

    def test_backup(self):
        os.mkdir(self.path("backups"))
        for day in range(1, 9):
            self.put(f"backups/mud-2026-01-0{day}.requests.gz", b"")
        self.put("backups/notes.txt", b"")
        self.make(Maker(3, int(time.time())).octets())
        with program.Server(9, self.store) as server:
            self.note("a backup", (0, "", ""), self.copied(server.port, "--days", "3", self.path("backups"), name="backup"))
        left = sorted(os.listdir(self.path("backups")))
        self.note("the days that stay", ["mud-2026-01-07.requests.gz", "mud-2026-01-08.requests.gz"], left[:2])
        self.note("how much stays", 4, len(left))
        # the way back, by replay, and the files by the backup alone
        backup = self.path("backups/" + left[2])
        files = sorted(os.listdir(self.path("files")))
        shutil.rmtree(self.path("files"))
        ended = self.copied(0, "--files", backup, name="backup")
        held = {name.split(".")[0] for name in os.listdir(self.path("files"))}
        self.note("the files of the backup", (0, f"{len(held)}\n", True), (*ended[:2], held <= {name.split(".")[0] for name in files}))
        unpacked = subprocess.run(["zcat", backup], stdout=subprocess.PIPE, check=True).stdout
        self.note("the way back", 0, program.run("replay", self.copy, input=unpacked).status)
        wanted, got = report(self.store), report(self.copy)
        for what in wanted:
            self.note(f"the way back, {what}", wanted[what], got.get(what))
