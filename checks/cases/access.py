"""Looks at who may connect to the console and to the site before it, on a site of its own (checks/site.py).

contrib/mud-console.nft lets the manager's users through and refuses a local user who is none of them. The site of
contrib/nginx-mud.conf opens by a password, does what the console has and refuses the rest with its own status; then
the store is as it was, the console wasn't asked, and the log of refused requests has a line that names nobody.
"""
import glob
import grp
import hashlib
import json
import os
import pwd
import shutil
import subprocess
import time
import unittest

from checks import program
from checks.case import ProgramCase, needs
from checks.program import read, run
from checks.site import PASSWORD, PORT, SITE, Site

MAC = "02:00:00:00:00:01"
MESSAGE = "examples/dhcp/dhclient-dnsmasq-01-discover.bin"
HOLD = f'{{"mac":"{MAC}"}}'.encode()
MAY = ("root", "mud", "mud-listen", "mud-fetch", "mud-rules", "www-data")
MAY_NOT = ("nobody", "games")
NAMES = ("127.0.0.1", "0.0.0.0", "[::ffff:127.0.0.1]")
# a client that keeps a connection of the console's and says nothing, until it is told to go
SILENT = f"import socket, sys\none = socket.create_connection(('127.0.0.1', {PORT}))\nprint(flush=True)\nsys.stdin.read()"


@needs("nginx", "htpasswd", "nft", "systemd-sysusers", "curl", "ip", "nsenter")
@unittest.skipIf(os.geteuid() != 0, "only root makes network namespaces")
class OnSite(ProgramCase):
    """A case on a site of its own."""

    def setUp(self):
        super().setUp()
        site = Site(self.folder)
        try:
            site.__enter__()
        except (OSError, subprocess.CalledProcessError) as failure:
            self.skipTest(f"no namespaces can be made ({failure})")
        self.site = site
        self.addCleanup(site.__exit__)

    def opened(self, **changed):
        """The rules, the console, and the site with what an operator changed."""
        self.note("the rules are loaded", (0, b""), self.site.load_rules()[:3:2])
        self.console = self.site.serve()
        self.site.open_site(**changed)


class Rules(OnSite):
    def connects(self, user, host="127.0.0.1"):
        return self.site.run("curl", "-s", "--max-time", "10", f"http://{host}:{PORT}/due", user=user).out == b'{"due":[]}'

    def test_rules(self):
        """By each name of the machine itself, who may connect does, and nobody else; loading them again changes nothing."""
        self.site.serve()
        self.holds("without rules anybody connects", self.connects("nobody"))
        for _ in range(2):
            self.note("loaded", (0, b""), self.site.load_rules()[:3:2])
            for host in NAMES:
                for user in MAY + MAY_NOT:
                    self.note(f"{user} to {host}", user in MAY, self.connects(user, host))
        counted = self.site.run("nft", "list", "table", "ip", "mud_console").out
        self.holds("who is refused is counted", b"counter packets 6 " in counted, counted)
        self.note("two rules, and no more of the second loading", 1, counted.count(b"reject"))

    def test_other_ports(self):
        """A port that is none of the console's is open to everybody."""
        self.site.load_rules()
        self.site.start(*self.site.within([program.PROGRAM, "serve", ":memory:", "8081", "9"]))
        program.until(lambda: self.site.listens(8081))
        self.note("nobody to another port", b'{"due":[]}', self.site.run("curl", "-s", "http://127.0.0.1:8081/due", user="nobody").out)

    def test_no_users(self):
        """Where a user isn't there nothing is loaded, and what is loaded stays."""
        self.site.load_rules()
        with open(self.site.path("root/etc/passwd"), "w", encoding="utf-8") as table:
            table.writelines(line for name, line in self.site.users.items() if name != "mud-fetch")
        self.note("without a user", 1, self.site.load_rules().status)
        self.holds("the rules stay", b"reject" in self.site.run("nft", "list", "table", "ip", "mud_console").out)


class Pages(OnSite):
    def test_configuration(self):
        """nginx takes it, and refuses a line for other machines without a certificate."""
        self.opened()
        for listen, wanted in (("listen 127.0.0.1:8088;", 0), ("listen 8443 ssl;", 1)):
            path = self.site.configure(**{"listen 127.0.0.1:8088;": listen})
            ended = self.site.run("nginx", "-t", "-c", path)
            self.note(f"nginx -t of '{listen}'", wanted, ended.status)
            self.note(f"its certificate is asked for with '{listen}'", bool(wanted), b"ssl_certificate" in ended.errors)

    def certificate(self, name):
        """A certificate of this name, and its key."""
        words = ["-nodes", "-days", "2", "-subj", "/CN=" + name, "-addext", "subjectAltName=IP:127.0.0.1", "-keyout", self.path(name + ".key"), "-out", self.path(name)]
        run("req", "-x509", "-newkey", "rsa:2048", *words, program="openssl")
        os.chmod(self.path(name + ".key"), 0o644)
        return self.path(name)

    @needs("openssl")
    def test_certificates(self):
        """With certificates of clients in place of passwords: who has none, or a stranger's, is refused, and the log
        names the one of the certificate."""
        site, anna, stranger = (self.certificate(name) for name in ("site", "anna", "stranger"))
        listen = f"listen 127.0.0.1:{SITE} ssl; ssl_certificate {site}; ssl_certificate_key {site}.key;"
        self.opened(**{f"listen 127.0.0.1:{SITE};": listen, 'auth_basic "MUD manager";': f"ssl_client_certificate {anna}; ssl_verify_client on;", "auth_basic_user_file": "#"})
        self.site.scheme = "https"
        self.site.asked("POST", "/api/hear/dhcp", read(MESSAGE), "--cacert", site, "--cert", anna, "--key", anna + ".key", user=None)
        for name, wanted in ((None, 400), (stranger, 400), (anna, 200)):
            said = ["--cert", name, "--key", name + ".key"] if name else []
            self.note(f"by {name}", wanted, self.site.asked("POST", "/api/holds", HOLD, "--cacert", site, *said, user=None)[0])
        self.note("with a password instead", 400, self.site.asked("POST", "/api/holds", HOLD, "--cacert", site)[0])
        self.note("the log of changes", [("CN=anna", "/hear/dhcp"), ("CN=anna", "/holds")], [(row["user"], row["path"]) for row in self.site.log("changes.log")])
        self.note("the log of refused requests", {("400", "")}, {(row["status"], row["user"]) for row in self.site.log("refused.log")})

    def test_does(self):
        """With a password each route does what the console does, and the answer is the console's."""
        self.opened()
        self.note("GET", (200, '{"things":[]}'), self.site.asked("GET", "/api/things", change=False))
        heard = '{"heard":"url","mac":"02:00:00:00:00:01","result":"new","url":"https://lighting.example.com/lightbulb2000"}'
        self.note("POST", (200, heard), self.site.asked("POST", "/api/hear/dhcp", read(MESSAGE)))
        self.note("PUT", (200, '{"result":"set"}'), self.site.asked("PUT", "/api/locals", b'{"prefixes":["192.0.2.0/24"]}'))
        self.note("held", (200, '{"result":"held"}'), self.site.asked("POST", "/api/holds", HOLD))
        self.note("DELETE", (200, '{"result":"released"}'), self.site.asked("DELETE", "/api/holds", HOLD))
        self.note("/why needs no header", (200, True), (lambda status, text: (status, '"verdict"' in text))(*self.site.asked("POST", "/api/why", bytes(60), change=False)))
        self.note("what the console refuses", (400, '{"rule":"json"}'), self.site.asked("POST", "/api/holds", b"no JSON"))
        self.note("by the other name", 200, self.site.asked("GET", "/api/due", None, "-H", "Host: LocalHost")[0])
        head = self.site.asked("GET", "/api/due", None, "-i")[1].lower()
        for line in ("content-security-policy: default-src 'self';", "frame-ancestors 'none'", "x-content-type-options: nosniff", "cache-control: no-store"):
            self.holds(line, line in head, head)
        self.holds("nothing inline", "unsafe" not in head)

    def test_refused(self):
        """What isn't to come there: its status, the store as it was, and a line in the log that names nobody."""
        self.opened()
        self.site.asked("POST", "/api/hear/dhcp", read(MESSAGE))
        before, done = self.site.tables(), len(self.site.log("changes.log"))
        foreign = ["-H", "Origin: http://evil.example", "-H", "Content-Type: text/plain"]
        rows = [("a foreign page's POST", 403, ("POST", "/api/holds", HOLD, *foreign), {"change": False}),
                ("a foreign page's POST without a password", 403, ("POST", "/api/holds", HOLD, *foreign), {"change": False, "user": None}),
                ("a foreign page's frame", 403, ("POST", "/api/packets", bytes(60), *foreign), {"change": False}),
                ("what a page asks before it sends the header", 405, ("OPTIONS", "/api/holds", None, *foreign, "-H", "Access-Control-Request-Method: POST"), {"change": False, "user": None}),
                ("another value of the header", 403, ("POST", "/api/holds", HOLD, "-H", "Mud-Change: no"), {"change": False}),
                ("a POST under another name", 403, ("POST", "/api/holds", HOLD, "-H", "Host: evil.example"), {}),
                ("a GET under another name", 403, ("GET", "/api/things", None, "-H", "Host: evil.example:8088"), {}),
                ("a name that begins as ours", 403, ("GET", "/api/things", None, "-H", "Host: localhost.evil.example"), {}),
                ("no name", 403, ("GET", "/api/things", None, "--http1.0", "-H", "Host:"), {}),
                ("another name, and ours in the target", 403, ("GET", "/api/things", None, "-H", "Host: evil.example", "--request-target", "http://localhost/api/things"), {}),
                ("another path", 404, ("GET", "/api/store"), {}), ("another letter", 404, ("GET", "/api/Things"), {}),
                ("a path that leads there", 404, ("GET", "/api/x/../things", None, "--path-as-is"), {}),
                ("a question behind it", 404, ("GET", "/api/things?x"), {}), ("no path", 404, ("GET", "/api/"), {}), ("no file of the page", 404, ("GET", "/nothing.js"), {}),
                ("another method", 405, ("PUT", "/api/holds", HOLD), {}), ("HEAD", 405, ("HEAD", "/api/things", None, "-I"), {}),
                ("a body too long", 413, ("POST", "/api/files", bytes(524289)), {}),
                ("a body in pieces", 411, ("POST", "/api/holds", HOLD, "-H", "Transfer-Encoding: chunked"), {}),
                ("no password", 401, ("POST", "/api/holds", HOLD), {"user": None}), ("another password", 401, ("POST", "/api/holds", HOLD), {"password": "guessed"}),
                ("no password for a GET", 401, ("GET", "/api/things"), {"user": None})]
        for what, wanted, words, more in rows:
            self.note(what, wanted, self.site.asked(*words, **more)[0])
        lines = self.site.log("refused.log")
        self.note("the log of refused requests", [(str(wanted), "") for _, wanted, _, _ in rows], [(line["status"], line["user"]) for line in lines])
        self.note("the log of changes", done, len(self.site.log("changes.log")))
        self.note("the store", before, self.site.tables())

    def test_folder(self):
        """The folder of usage files: a file is put there once, under a digest, by a request with the header."""
        os.mkdir(self.path("files"))
        shutil.chown(self.path("files"), "www-data")
        self.opened()
        place = f"/files/{hashlib.sha256(b'{}').hexdigest()}"
        rows = [("a foreign page's", 403, ("PUT", place + ".json", b"{}"), {"change": False}), ("without a password", 401, ("PUT", place + ".json", b"{}"), {"user": None}),
                ("too long", 413, ("PUT", place + ".json", bytes(262145)), {}), ("no digest", 404, ("PUT", "/files/a.json", b"{}"), {}),
                ("an outcome", 405, ("PUT", place + ".outcome", b"{}"), {}), ("above it", 404, ("PUT", "/files/../a.json", b"{}", "--path-as-is"), {}),
                ("none yet", 404, ("GET", place + ".json"), {}), ("put", 201, ("PUT", place + ".json", b"{}"), {}),
                ("there", 409, ("PUT", place + ".json", b"{ }"), {}), ("deleted", 405, ("DELETE", place + ".json"), {}), ("posted", 405, ("POST", place + ".json", b"{}"), {})]
        for what, wanted, words, more in rows:
            self.note(what, wanted, self.site.asked(*words, **more)[0])
        self.note("what is read there", (200, "{}"), self.site.asked("GET", place + ".json"))
        self.note("what is in the folder", [place[7:] + ".json"], os.listdir(self.path("files")))
        self.note("the log of refused requests", [str(wanted) for _, wanted, _, _ in rows if wanted != 201], [line["status"] for line in self.site.log("refused.log")])

    def test_waiting(self):
        """While the console serves a client that says nothing sixteen requests wait, and the next one is refused."""
        self.opened()
        self.site.asked("POST", "/api/hear/dhcp", read(MESSAGE))
        silent = subprocess.Popen(self.site.within(["python3", "-c", SILENT]), stdin=subprocess.PIPE, stdout=subprocess.PIPE)
        silent.stdout.readline()
        words = self.site.within(["curl", "-s", "-u", "anna:a secret of hers", f"http://127.0.0.1:{SITE}/api/due"], "nobody")
        waiting = [subprocess.Popen(words, stdout=subprocess.PIPE) for _ in range(16)]
        self.holds("sixteen wait", program.until(lambda: self.site.waiting(PORT) == 17))
        self.note("the next one", 429, self.site.asked("POST", "/api/holds", HOLD)[0])
        silent.communicate()
        self.note("those that waited", [b'{"due":[]}'] * 16, [one.communicate(timeout=60)[0] for one in waiting])
        self.note("the log", [("429", "")], [(line["status"], line["user"]) for line in self.site.log("refused.log")])
        self.note("behind them", 200, self.site.asked("GET", "/api/due")[0])
        self.note("the store", [False], [thing["held"] for thing in self.site.told("/things")["things"]])


BULB = "https://lighting.example.com/lightbulb2000"
FILE = "examples/usage-files/made-lightbulb.json"
FRAME = "examples/lldp/lldpd-mud-01.bin"


def long_body(octets):
    """The longest body that a change may have: JSON, and spaces."""
    return octets + b" " * (524288 - len(octets))


def day():
    """The changes of a made day: who made each, the request, and how contrib/changes says it."""
    message, frame, file = read(MESSAGE), read(FRAME), read(FILE)
    sha256 = {name: hashlib.sha256(octets).hexdigest() for name, octets in (("message", message), ("frame", frame), ("file", file))}
    verdict = json.dumps({"url": BULB, "sha256": sha256["file"], "verdict": "waived"}).encode()
    of_file = f"the file {sha256['file']} of {BULB}"
    return [("dnsmasq", "POST", "/hear/dhcp", message, f"told a DHCP message of {MAC}, SHA-256 {sha256['message']}"),
            ("dnsmasq", "POST", "/leases", f'{{"mac":"{MAC}","address":"192.0.2.10","seconds":86400}}'.encode(), f"leased 192.0.2.10 to {MAC} for 86400 seconds"),
            ("anna", "POST", "/hear/lldp", frame, f"told an LLDP frame of {MAC}, SHA-256 {sha256['frame']}"),
            ("anna", "POST", "/files", file, f"posted a file of {BULB}, SHA-256 {sha256['file']}"),
            ("anna", "POST", "/verdicts", verdict, f"approved {of_file}, no signature being checked"),
            ("anna", "POST", "/classes", b'{"class":"urn:ietf:params:mud:dns","address":"192.0.2.1"}', "bound 192.0.2.1 to urn:ietf:params:mud:dns"),
            ("anna", "POST", "/classes", f'{{"my-controller-of":"{BULB}","address":"192.0.2.2"}}'.encode(), f"bound 192.0.2.2 to my-controller of {BULB}"),
            ("anna", "DELETE", "/classes", b'{"class":"urn:ietf:params:mud:dns","address":"192.0.2.1"}', "unbound 192.0.2.1 from urn:ietf:params:mud:dns"),
            ("anna", "PUT", "/locals", b'{"prefixes":["192.0.2.0/24"]}', 'set the local networks to ["192.0.2.0/24"]'),
            ("anna", "POST", "/names", b'{"name":"test.example.com","address":"198.51.100.7","ttl":86400}', "named 198.51.100.7 test.example.com for 86400 seconds"),
            ("anna", "POST", "/holds", HOLD, f"held {MAC}"), ("anna", "DELETE", "/holds", long_body(HOLD), f"released {MAC}"),
            ("anna", "POST", "/revokes", f'{{"url":"{BULB}"}}'.encode(), f"revoked the approved file of {BULB}"),
            ("dnsmasq", "DELETE", "/leases", b'{"address":"192.0.2.10"}', "ended the lease of 192.0.2.10"),
            ("anna", "DELETE", "/things", HOLD, f"removed {MAC}")]


class Log(OnSite):
    def logged(self):
        """What the log of changes has."""
        return [(row["user"], row["method"], row["path"], row["body"].encode("latin-1"), row["status"]) for row in self.site.log("changes.log")]

    def made_day(self):
        """Makes the day's changes, and between two of them what changes nothing."""
        for user, method, path, body, _ in day():
            self.note(f"{method} {path}", 200, self.site.asked(method, "/api" + path, body, user=user)[0])
            self.site.asked("GET", "/api/things")
            self.site.asked("POST", "/api/packets", bytes(60))
            self.site.asked("POST", "/api/verdicts", b'{"url":"https://nobody.example/x"}')
            self.site.asked(method, "/api" + path, body, user=None)

    def changes(self, *words):
        """What contrib/changes says of the log: its days, and its lines without their times."""
        ended = run(*words, self.site.path("log/changes.log"), program="contrib/changes")
        self.note(f"changes {words}, status", (0, b""), (ended.status, ended.errors))
        lines = ended.out.decode().splitlines()
        return [line for line in lines if line[0] != " "], [line.split(" ", 3)[3] for line in lines if line[0] == " "]

    def test_day(self):
        """Each change is there with its user and its octets, and nothing else is; and it is said in words."""
        self.opened()
        self.made_day()
        self.note("the log", [(*row[:4], "200") for row in day()], self.logged())
        refused = self.site.log("refused.log")
        self.note("what the console refused names who asked", {("400", "anna"), ("401", "")}, {(row["status"], row["user"]) for row in refused})
        days, lines = self.changes()
        self.note("in words", [f"{row[0]} {row[4]}" for row in day()], lines)
        self.note("of today", [time.strftime("%Y-%m-%d")], days)
        self.note("by day", ([], []), self.changes("--day", "2020-01-01"))
        self.note("by user", [row[4] for row in day() if row[0] == "dnsmasq"], [line.split(" ", 1)[1] for line in self.changes("--user", "dnsmasq")[1]])
        self.note("by Thing", [row[4] for row in day() if MAC in row[4]], [line.split(" ", 1)[1] for line in self.changes("--thing", MAC.upper())[1]])
        self.note("by file", [row[4] for row in day() if BULB in row[4]], [line.split(" ", 1)[1] for line in self.changes("--file", BULB)[1]])

    def test_gone(self):
        """A client that goes away before it is answered: its change is in the log. So is one that no answer came of."""
        self.opened()
        self.site.asked("POST", "/api/hear/dhcp", read(MESSAGE))
        silent = subprocess.Popen(self.site.within(["python3", "-c", SILENT]), stdin=subprocess.PIPE, stdout=subprocess.PIPE)
        silent.stdout.readline()
        self.note("the client has gone", 0, self.site.asked("POST", "/api/holds", HOLD, "--max-time", "0.3")[0])
        silent.communicate()
        self.holds("its change is in the log", program.until(lambda: len(self.logged()) == 2))
        self.note("as it was", [("anna", "POST", "/holds", HOLD, "200")], self.logged()[1:])
        self.note("and in the store", True, self.site.told("/things")["things"][0]["held"])
        self.site.end(self.console)
        self.note("without a console", 502, self.site.asked("DELETE", "/api/holds", HOLD)[0])
        self.note("perhaps", [f"anna perhaps released {MAC} (no answer but 502)"], self.changes()[1][2:])

    def test_words(self):
        """What acts on a terminal isn't written to it; lines of others are told, and the older log is read first."""
        row = {"time": "2026-12-02T10:00:00+00:00", "user": "anna", "from": "", "method": "POST", "path": "/names", "status": "200"}
        body = {"name": "a\u001b[2J", "address": "192.0.2.1", "ttl": 4294967295}
        older = self.put("older", json.dumps({**row, "body": json.dumps(body)}).encode() + b"\n{}\nno line\n")
        run("-k", older, program="gzip")
        newer = self.put("newer", json.dumps({**row, "time": "2026-12-03T10:00:00+00:00", "path": "/later", "body": "x"}).encode() + b"\n")
        ended = run(older + ".gz", newer, self.path("none"), program="contrib/changes")
        sha256 = hashlib.sha256(b"x").hexdigest()
        said = f"2026-12-02\n  10:00:00+00:00 anna named 192.0.2.1 a\\x1b[2J for ever\n2026-12-03\n  10:00:00+00:00 anna POST /later, body of SHA-256 {sha256}\n"
        self.note("said", (1, said), (ended.status, ended.out.decode()))
        self.note("faults", 3, len(ended.errors.decode().splitlines()))
        self.note("wrong words", 2, run("--week", program="contrib/changes").status)

    @needs("logrotate")
    def test_rotation(self):
        """The log of each day stays by itself, its group reads it, others don't, and nothing is lost between two."""
        self.opened()
        text = read("contrib/mud.logrotate").decode().replace("/var/log/mud", self.site.path("log")).replace("/run/nginx.pid", self.site.path("nginx.pid"))
        config = self.put("logrotate", text.replace("dateext\n", "dateext\n\tdateformat -%s\n").encode())
        os.chmod(config, 0o644)
        for number in range(3):
            self.site.asked("PUT", "/api/locals", b'{"prefixes":[]}', user="anna")
            ended = self.site.run("logrotate", "--force", "--state", self.path("state"), config)
            self.note(f"logrotate {number}", (0, b""), (ended.status, ended.errors))
            program.until(lambda: os.path.exists(self.site.path("log/changes.log")))
            time.sleep(1.1)
        self.site.asked("PUT", "/api/locals", b'{"prefixes":["192.0.2.0/24"]}', user="anna")
        older = sorted(glob.glob(self.site.path("log/changes.log-*")))
        self.note("the older ones", [True, True, False], [path.endswith(".gz") for path in older])
        ended = run(*older, self.site.path("log/changes.log"), program="contrib/changes")
        self.note("all four changes", 4, ended.out.count(b"anna set the local networks"))
        for path in [*older[1:], self.site.path("log/changes.log")]:
            about = os.stat(path)
            self.note(f"{path}, who reads it", (0o640, "www-data", "adm"), (about.st_mode & 0o777, *owners(about)))
        self.note("a stranger", 1, self.site.run("cat", self.site.path("log/changes.log"), user="nobody").status)


def owners(about):
    return pwd.getpwuid(about.st_uid).pw_name, grp.getgrgid(about.st_gid).gr_name


class Scripts(OnSite):
    def told(self, *words, **variables):
        """Runs a script of contrib/ as a user of the machine who may not connect himself."""
        given = [f"{name}={value}" for name, value in variables.items()]
        place = [f"MUD_CONSOLE=http://127.0.0.1:{SITE}/api", f"MUD_FILES={self.path('files')}", *given]
        return self.site.run("env", *place, *words, user="games")

    def test_scripts(self):
        """Each goes by the site with the user of its password file, and says so where it has none."""
        self.opened()
        login = self.put("login", f"machine 127.0.0.1 login dnsmasq password {PASSWORD['dnsmasq'].replace(' ', '')}\n".encode())
        run("-i", "-B", self.site.path("mud.users"), "dnsmasq", program="htpasswd", input=PASSWORD["dnsmasq"].replace(" ", "").encode())
        os.chmod(login, 0o600)
        shutil.chown(login, "games")
        os.mkdir(self.path("files"))
        shutil.chown(self.path("files"), "games")
        self.note("announce without a password", 1, self.told("contrib/announce", MAC, BULB).status)
        self.note("put without a password", (1, f"put: {FILE}: the console refused /files: 401 the site wants a name and a password (MUD_LOGIN)\n"),
                  (lambda ended: (ended.status, ended.errors.decode()))(self.told("contrib/put", FILE)))
        self.note("announce", 0, self.told("contrib/announce", MAC, BULB, MUD_LOGIN=login).status)
        self.note("put", 0, self.told("contrib/put", FILE, MUD_LOGIN=login).status)
        self.told("contrib/dnsmasq-script", "add", MAC, "192.0.2.77", MUD_LOGIN=login, DNSMASQ_TIME_REMAINING=600)
        self.told("contrib/dnsmasq-script", "del", MAC, "192.0.2.77", MUD_LOGIN=login)
        wanted = [("POST", "/hear/dhcp"), ("POST", "/files"), ("POST", "/leases"), ("DELETE", "/leases")]
        self.note("the log", [("dnsmasq", *row, "200") for row in wanted], [(row["user"], row["method"], row["path"], row["status"]) for row in self.site.log("changes.log")])
        self.note("no such password file", 1, self.told("contrib/put", FILE, MUD_LOGIN=self.path("none")).status)
