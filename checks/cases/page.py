"""Looks at the operator's page (contrib/page) in Chromium, on a site of its own (checks/site.py).

It does what an operator does, by the page's own words: a Thing that came is there; its file is dropped, looked at and
approved, and what was dropped passes; a wrong file shows its rule at its place; a hold, a release, a move, a revoke;
a class that is asked for; why; and who did it. Pictures of each view go to out/page/.
"""
import hashlib
import http.server
import json
import os
import subprocess
import threading
import time
import unittest

from checks import drafting, program, texts
from checks.browser import Browser, selenium, within
from checks.case import ProgramCase, needs
from checks.program import read, run
from checks.session import announcement, frames
from checks.site import PORT, Site

MAC = "02:00:00:00:00:01"
URL = "https://lighting.example.com/lightbulb2000"
NEXT = "https://lighting.example.com/lightbulb2001"
BULB = "examples/usage-files/made-lightbulb.json"
SENTENCE = "The Thing may send TCP over IPv4 from any port of its own to port 443 (https) of test.example.com, if the Thing began the connection."
# what a Thing may call itself
HOSTILE = "https://evil.example.com/&lt;b&gt;'onerror=alert(1)'&amp;"
WIDTHS = (1280, 390)


def digest(octets):
    return hashlib.sha256(octets).hexdigest()


def body(**members):
    return json.dumps(members).encode()


@needs("nginx", "htpasswd", "nft", "systemd-sysusers", "curl", "ip", "nsenter", "chromium", "chromedriver")
@unittest.skipIf(os.geteuid() != 0, "only root makes network namespaces")
@unittest.skipIf(selenium() is None, "there is no python3-selenium")
@unittest.skipIf(not os.path.isdir("/usr/share/javascript/bootstrap5"), "there is no libjs-bootstrap5")
class OnPage(ProgramCase):
    """A case with the page before it."""

    def setUp(self):
        super().setUp()
        site = Site(self.folder)
        try:
            site.__enter__()
        except (OSError, subprocess.CalledProcessError) as failure:
            self.skipTest(f"no namespaces can be made ({failure})")
        self.site = site
        self.addCleanup(site.__exit__)
        os.mkdir(site.path("files"))
        os.chmod(site.path("files"), 0o777)
        self.console = site.serve()
        site.open_site()

    def browser(self, view="things", **words):
        page = Browser(self.site, **words)
        page.__enter__()
        self.addCleanup(page.__exit__)
        return page.open(view)

    def post(self, path, octets, method="POST"):
        """What the console itself answers."""
        return json.loads(self.site.run("curl", "-s", "-X", method, "--data-binary", "@-", f"http://127.0.0.1:{PORT}{path}", input=octets).out)

    def keep(self, octets):
        """Puts octets into the folder of files, as 'put' does; their digest."""
        sha256 = digest(octets)
        with open(self.site.path(f"files/{sha256}.json"), "wb") as file:
            file.write(octets)
        return sha256

    def bulb(self, **changed):
        """The bulb's usage file, with other members."""
        root = json.loads(read(BULB))
        root["ietf-mud:mud"].update(changed)
        return json.dumps(root, indent=1).encode()

    def approved(self):
        """A bulb with a lease, whose file is in force and at hand."""
        self.post("/hear/dhcp", announcement(MAC, URL))
        self.post("/leases", body(mac=MAC, address="192.0.2.10", seconds=86400))
        self.post("/names", body(name="test.example.com", address="198.51.100.7", ttl=86400))
        sha256 = self.keep(read(BULB))
        self.post("/files", read(BULB))
        self.post("/verdicts", body(url=URL, sha256=sha256, verdict="waived"))
        return sha256

    def verdict(self, name):
        return self.post("/packets", frames()[name])["verdict"]

    def whole(self, page):
        """Nothing went wrong in the page, and nothing is wider than it."""
        self.note("errors of the page", [], page.errors())


class Operating(OnPage):
    def test_first_file(self):
        """From a Thing that comes to its packets that pass: dropped on the page, looked at, approved, by whom."""
        self.post("/leases", b"{}")
        page = self.browser()
        self.holds("no Thing", page.says("No Thing has announced itself yet."))
        self.post("/hear/dhcp", announcement(MAC, URL))
        self.post("/leases", body(mac=MAC, address="192.0.2.10", seconds=86400))
        self.post("/names", body(name="test.example.com", address="198.51.100.7", ttl=86400))
        page.open()
        for words in (MAC, URL, "no file", "192.0.2.10, 23 hours left"):
            self.holds(f"the Thing: {words}", page.says(words), page.main())
        self.note("its packet", "drop from=drop:no-file", self.verdict("bulb-opens"))
        page.view("Files")
        page.give(BULB)
        self.holds("the file waits", page.says(f"The file of {URL} waits for your verdict."))
        self.holds("the head", page.says("For you: 1 file waits."))
        approve = page.buttons("Approve, no signature checked")
        self.note("it can't be approved before it was looked at", [False], [one.is_enabled() for one in approve])
        page.click("Look")
        self.holds("its entry", page.says(SENTENCE), page.main())
        self.holds("its digest", page.says(digest(read(BULB))))
        page.click("Approve, no signature checked")
        self.holds("it is in force", page.says(f"The file of {URL} is in force."))
        self.note("the store", (digest(read(BULB)), "waived"), self.in_force())
        self.note("its packet passes", "pass from=accept:1", self.verdict("bulb-opens"))
        self.holds("the head", page.says("Nothing waits for you."))
        page.view("Changes")
        for words in ("anna", f"posted a file of {URL}, SHA-256 {digest(read(BULB))}", f"approved, no signature being checked, the file {digest(read(BULB))} of {URL}"):
            self.holds(f"the log: {words}", page.says(words), page.main())
        self.whole(page)

    def in_force(self):
        row = self.site.told("/files")["files"][0]["approved"]
        return row and (row["sha256"], row["verdict"])

    def test_things(self):
        """Hold, release, move and remove."""
        self.approved()
        page = self.browser()
        self.holds("in force", page.says("in force"), page.main())
        page.click("Hold")
        self.holds("held", page.says(f"{MAC} is held: all its packets are dropped."))
        self.note("its packet", "drop from=drop:held", self.verdict("bulb-opens"))
        page.click("Release")
        self.holds("released", page.says(f"{MAC} is released."))
        self.note("its packet passes", "pass from=accept:1", self.verdict("bulb-opens"))
        self.post("/hear/dhcp", announcement(MAC, NEXT))
        page.open()
        self.holds("the second URL", page.says(NEXT) and page.says("For you: 1 Thing has a second URL."))
        page.click("What changes")
        self.holds("what the move does", page.says("No file of that URL is approved, so behind the move all its packets are dropped."))
        page.click("Move")
        page.click("Move it")
        self.holds("moved", page.says(f"{MAC} has moved."))
        self.note("its URL", NEXT, self.site.told("/things")["things"][0]["url"])
        page.click("Remove")
        page.click("Leave it")
        self.note("a question back", 1, len(self.site.told("/things")["things"]))
        page.click("Remove")
        page.click("Remove it")
        self.holds("removed", page.says(f"{MAC} is removed."))
        self.note("the store", [], self.site.told("/things")["things"])
        self.whole(page)

    def test_files(self):
        """What a newer file changes, reject and revoke; a wrong file with its rule at its place."""
        self.approved()
        root = json.loads(self.bulb(**{"last-update": "2026-01-01T00:00:00Z"}))
        aces = root["ietf-access-control-list:acls"]["acl"]
        entry = next(ace for acl in aces for ace in acl["aces"]["ace"] if ace["name"] == "cl0-frdev")
        entry["matches"]["ipv4"]["ietf-acldns:dst-dnsname"] = "other.example.com"
        newer = json.dumps(root).encode()
        page = self.browser("files")
        page.give(self.put("newer.json", newer))
        self.holds("it waits", page.says("waits for your verdict"))
        page.click("Look")
        self.holds("what comes", page.says(SENTENCE.replace("test.", "other.")), page.main())
        text = page.main()
        self.holds("in its part", text.index("What comes:") < text.index("other.example.com") < text.index("What goes:") < text.index(SENTENCE) < text.index("What stays:"), text)
        page.click("Reject")
        page.click("Reject it")
        self.holds("rejected", page.says("The file is rejected."))
        self.note("the store", None, self.site.told("/files")["files"][0]["candidate"])
        page.give(self.put("wrong.json", self.bulb(**{"cache-validity": 169})))
        self.holds("the rule", page.says("The hours for which the file may be kept have to be 1 to 168."))
        line = next(number for number, text in enumerate(self.bulb(**{"cache-validity": 169}).decode().split("\n"), 1) if "169" in text)
        self.holds("its place", page.says(f"It is in line {line}, column 3:"), page.main())
        page.click("Revoke")
        page.click("Revoke it")
        self.holds("revoked", page.says("The file is revoked."))
        self.note("the store", [], self.site.told("/files")["files"])
        self.whole(page)

    def test_names(self):
        """What a file in force asks for stands first, and is bound; it is unbound; networks and names are told."""
        root = json.loads(self.bulb())
        ace = root["ietf-access-control-list:acls"]["acl"][0]["aces"]["ace"][0]
        ace["matches"] = {"ietf-mud:mud": {"controller": "urn:example:lamps"}}
        octets = json.dumps(root).encode()
        self.post("/hear/dhcp", announcement(MAC, URL))
        self.post("/files", octets)
        self.post("/verdicts", body(url=URL, sha256=self.keep(octets), verdict="waived"))
        page = self.browser("names")
        self.holds("it is asked for", page.says("urn:example:lamps") and page.says("test.example.com"), page.main())
        page.click("Bind")
        page.fill("Address", "192.0.2.99")
        page.click("Bind", at=1 if len(page.buttons("Bind")) > 1 else 0)
        self.holds("bound", page.says("192.0.2.99: bound."), page.main())
        self.note("the store", [{"addresses": ["192.0.2.99"], "class": "urn:example:lamps"}], self.site.told("/classes")["classes"])
        page.click("Unbind")
        self.holds("unbound", page.says("192.0.2.99 is unbound."))
        page.fill("Networks", "192.0.2.0/24")
        page.click("Set")
        self.holds("set", page.says("Local networks: set."))
        self.note("the store", ["192.0.2.0/24"], self.site.told("/locals")["locals"])
        page.fill("Name", "test.example.com")
        page.driver.find_elements(page.by.NAME, "address")[-1].send_keys("198.51.100.7")
        page.click("Tell")
        self.holds("told", page.says("test.example.com: new."))
        self.holds("a field of another form", not self.site.told("/classes")["classes"])
        page.fill("Class", "urn:example:lamps")
        page.driver.find_elements(page.by.NAME, "address")[0].send_keys("192.0.2.999")
        page.click("Bind", at=len(page.buttons("Bind")) - 1)
        self.holds("is named", page.says("A field has another form than it has to have: address"), page.main())
        self.whole(page)

    def test_why(self):
        """Why, of a first SYN and of a later packet, whose connection decides."""
        self.approved()
        page = self.browser("why")
        page.fill("Frame in hex", frames()["bulb-opens"].hex())
        page.click("Ask why")
        for words in ("Verdict: pass from=accept:1.", f"Entry from 1: {SENTENCE}", "It is sent to no Thing"):
            self.holds(f"a SYN: {words}", page.says(words), page.main())
        self.holds("a SYN stands for itself", "Of this frame alone" not in page.main())
        page.fill("Frame in hex", frames()["bulb-goes-on"].hex(" "))
        page.click("Ask why")
        self.holds("a later packet", page.says("Of this frame alone; in its connection it may pass"), page.main())
        self.holds("its verdict", page.says("Verdict: drop from=drop:no-match."), page.main())
        page.fill("Frame in hex", "xyz")
        page.click("Ask why")
        self.holds("no hex", page.says("The frame has to be hex digits"))
        self.whole(page)

    def test_flags(self):
        """Where the flags of TCP stand: behind tags, options and extension headers; there are none in later fragments."""
        segment, ends = drafting.tcp(50000, 443, 0x12), ("02:00:00:00:00:01", "02:00:00:00:00:02")
        hop, part, later = b"\x06\1" + bytes(14), b"\x06\0\0\1" + bytes(4), b"\x06\0\0\x09" + bytes(4)
        def six(first, octets):
            return drafting.ethernet(*ends, *drafting.ip("2001:db8::1", "2001:db8::2", first, octets))
        four = drafting.ethernet(*ends, *drafting.ip("192.0.2.1", "192.0.2.2", 6, segment))
        options = bytearray(drafting.ethernet(*ends, *drafting.ip("192.0.2.1", "192.0.2.2", 6, bytes(4) + segment)))
        options[14] = 0x46
        rows = {"IPv4": (four, 18), "options": (bytes(options), 18), "a tag": (drafting.tagged(four, 7), 18), "two tags": (drafting.tagged(four, 7, 8), 18), "IPv6": (six(6, segment), 18),
                "hop by hop": (six(0, hop + segment), 18), "two headers": (six(0, b"\x2c" + hop[1:] + part + segment), 18), "first fragment": (six(44, part + segment), 18),
                "later fragment": (six(44, later + segment), None), "later of IPv4": (drafting.ethernet(*ends, *drafting.ip("192.0.2.1", "192.0.2.2", 6, segment, 185)), None),
                "UDP": (six(17, drafting.udp(1, 2)), None), "cut": (six(0, hop[:8]), None), "short": (b"\1" * 13, None)}
        page = self.browser()
        script = """
        const [rows, done] = arguments;
        import("/why.js").then(({tcpFlags}) => done(rows.map((octets) => tcpFlags(Uint8Array.from(octets)))), (fault) => done(String(fault)));
        """
        got = page.driver.execute_async_script(script, [list(frame) for frame, _ in rows.values()])
        self.note("flags", {name: flags for name, (_, flags) in rows.items()}, dict(zip(rows, got)) if isinstance(got, list) else got)

    def test_kept(self):
        """What was looked at stays open when other files are listed; a file that is dropped by the mouse is taken."""
        self.approved()
        page = self.browser("files")
        page.click("Look")
        self.holds("its entry", page.says(SENTENCE), page.main())
        other = self.bulb(**{"mud-url": NEXT})
        page.drop(self.put("other.json", other))
        self.holds("the other one waits", page.says(f"The file of {NEXT} waits for your verdict."), page.main())
        self.note("its octets are kept", other, read("files/" + digest(other) + ".json", self.folder))
        self.holds("both are listed", page.until(lambda: len(page.buttons("Look")) == 2))
        self.holds("the look is still open", SENTENCE in page.main(), page.main())
        self.post("/revokes", body(url=URL))
        self.holds("and goes with its file", page.until(lambda: SENTENCE not in page.main()))
        page.drop(self.put("long.json", bytes(300_000)))
        self.holds("one that is too long", page.says("It has more than 262144 octets."), page.main())
        self.whole(page)

    def test_log(self):
        """Of a long log the end is read, then what is new, and all of it by a button."""
        line = {"time": "2026-11-30T08:00:00+01:00", "user": "bert", "method": "POST", "path": "/holds", "body": "", "status": "200"}
        with open(self.site.path("log/changes.log"), "a", encoding="ascii") as file:
            for number in range(2000):
                mac = "02:00:00:01:%02x:%02x" % divmod(number, 256)
                file.write(json.dumps({**line, "body": json.dumps({"mac": mac})}) + "\n")
        self.approved()
        page = self.browser("changes")
        self.holds("the newest", page.says("held 02:00:00:01:07:cf"), page.main())
        self.holds("older ones aren't", page.says("Older ones aren't read yet."))
        self.note("of their number", True, "The newest 200 of 2000." not in page.main())
        page.view("Things")
        page.click("Hold")
        page.says(f"{MAC} is held")
        page.view("Changes")
        self.holds("the new one", page.says(f"held {MAC}"), page.main())
        read_again = "return performance.getEntriesByType('resource').filter((one) => one.name.endsWith('changes.log')).map((one) => one.encodedBodySize)"
        page.click("Read again")
        self.holds("the newest stays first", page.until(lambda: f"held {MAC}" in page.main()))
        page.until(lambda: len(page.driver.execute_script(read_again)) >= 3)
        sizes = page.driver.execute_script(read_again)
        self.holds("what is read", max(sizes) <= 65536 and sizes[-1] < 2000, sizes)
        page.click("Read all of today")
        self.holds("all of it", page.says("The newest 200 of 2001."), page.main())
        self.holds("nothing more is to be read", "Older ones aren't read yet." not in page.main())
        # a log that is begun anew
        with open(self.site.path("log/changes.log"), "w", encoding="ascii") as file:
            file.write(json.dumps({**line, "body": '{"mac":"02:00:00:02:00:00"}'}) + "\n")
        page.click("Read again")
        self.holds("of a new log", page.until(lambda: "held 02:00:00:02:00:00" in page.main() and MAC not in page.main()), page.main())
        self.whole(page)

    def test_keyboard(self):
        """By the keys alone: to a view, to a Thing's hold, and out of a question back."""
        self.approved()
        page = self.browser()
        page.says(MAC)
        page.press_until("Hold")
        self.holds("held", page.says(f"{MAC} is held: all its packets are dropped."))
        page.press_until("Remove")
        page.press("ESCAPE")
        self.note("a question left by Escape", 1, len(self.site.told("/things")["things"]))
        page.press_until("Names")
        self.holds("another view", page.says("Local networks"))


class Refusing(OnPage):
    def test_two_operators(self):
        """A file that changed between look and approve is refused, and the new one is shown."""
        sha256 = self.approved()
        first, second = (self.bulb(systeminfo=words, **{"last-update": "2026-01-01T00:00:00Z"}) for words in ("first", "second"))
        self.keep(first), self.keep(second)
        self.post("/files", first)
        page = self.browser("files")
        page.click("Look")
        self.holds("it is looked at", page.says('systeminfo: "first"'), page.main())
        self.post("/files", second)
        page.click("Approve, no signature checked")
        self.holds("it is refused", page.says("Another file waits by now, so nothing was approved. Look at that one."), page.main())
        self.note("the store", (sha256, digest(second)), tuple(self.site.told("/files")["files"][0][which]["sha256"] for which in ("approved", "candidate")))
        self.holds("the new one is shown", page.says(digest(second)))
        self.note("and can't be approved unseen", {False}, {one.is_enabled() for one in page.buttons("Approve, no signature checked")})

    def test_networks(self):
        """What another operator set since isn't undone unseen."""
        self.post("/locals", body(prefixes=["192.0.2.0/24"]), "PUT")
        page = self.browser("names")
        page.says("Local networks")
        page.fill("Networks", "192.0.2.0/25")
        self.post("/locals", body(prefixes=["198.51.100.0/24"]), "PUT")
        page.click("Set")
        self.holds("it is said", page.says("Nothing was set: somebody has set other ones meanwhile, 198.51.100.0/24."), page.main())
        self.note("the store", ["198.51.100.0/24"], self.site.told("/locals")["locals"])
        page.click("Set")
        self.holds("once more", page.says("Local networks: set."), page.main())
        self.note("the store then", ["192.0.2.0/25"], self.site.told("/locals")["locals"])
        page.fill("Networks", "192.0.2.0/99")
        page.click("Set")
        self.holds("one of another form", page.says("A field has another form than it has to have"), page.main())
        page.fill("Networks", "192.0.2.0/26")
        page.click("Set")
        self.holds("and a right one", page.until(lambda: self.site.told("/locals")["locals"] == ["192.0.2.0/26"]), page.main())
        self.whole(page)

    def test_digests(self):
        """Octets of another digest, and octets that aren't there: nothing is shown, and nothing can be approved."""
        self.post("/hear/dhcp", announcement(MAC, URL))
        self.post("/files", read(BULB))
        page = self.browser("files")
        page.click("Look")
        self.holds("not there", page.says("Its octets aren't in the folder of files."))
        with open(self.site.path(f"files/{digest(read(BULB))}.json"), "wb") as file:
            file.write(self.bulb(systeminfo="another"))
        page.click("Look")
        self.holds("of another digest", page.says("What stands in the folder of files has another digest, so it isn't shown."))
        self.holds("nothing is shown", "The Thing may" not in page.main())
        self.note("nothing can be approved", {False}, {one.is_enabled() for one in page.buttons("Approve, signature checked")})
        page.give(BULB)
        self.holds("what stands there is told", page.says("has another digest"), page.main())

    def test_text(self):
        """What Things and makers say is text, and never HTML."""
        named = 'maker "<b>" \u202eabc & \'</td>'
        octets = self.bulb(systeminfo=named)
        for number, url in enumerate((HOSTILE, "https://evil.example.com/" + "a" * 230)):
            self.note(f"the URL {url[:40]} is taken", "new", self.post("/hear/dhcp", announcement(f"02:00:00:00:00:0{number + 2}", url)).get("result"))
        self.post("/files", octets)
        self.post("/classes", body(**{"class": "urn:\"><script>alert(1)</script><b>", "address": "192.0.2.1"}))
        self.keep(octets)
        page = self.browser()
        self.holds("the URL as it is", page.says(HOSTILE), page.main())
        self.note("no element of it", 0, len(page.driver.find_elements(page.by.CSS_SELECTOR, "main img, main b, main script")))
        page.view("Files")
        page.click("Look")
        self.holds("what the file says of itself", page.says('"maker \\u0022\\u003cb\\u003e\\u0022 \\u202eabc & \'\\u003c/td\\u003e"'), page.main())
        page.view("Names")
        self.holds("the class as it is", page.says("urn:\"><script>alert(1)</script><b>"), page.main())
        self.note("no script of it", 0, len(page.driver.find_elements(page.by.CSS_SELECTOR, "main script")))
        self.whole(page)

    def test_stopped(self):
        """A manager that doesn't answer is said, and it goes on when it does."""
        self.approved()
        page = self.browser()
        self.site.end(self.console)
        self.holds("it is said", page.until(lambda: "What stands below may be old." in page.driver.find_element(page.by.ID, "reached").text, 30))
        self.console = self.site.serve()
        self.holds("it goes on", page.until(lambda: not page.driver.find_element(page.by.ID, "reached").is_displayed(), 30))
        self.holds("the Thing is still there", page.says(MAC))

    def test_answers(self):
        """What is answered in place of the console: each is said in words, and the page goes on."""
        self.approved()
        self.site.end(self.console)
        said = {}

        class Answers(http.server.BaseHTTPRequestHandler):
            """Answers every request as 'said' has it."""

            def do_GET(self):
                self.rfile.read(int(self.headers.get("Content-Length", 0)))
                status, text, length = said.get(self.command + self.path, said["any"])
                self.send_response(status)
                self.send_header("Content-Length", str(length or len(text)))
                self.end_headers()
                self.wfile.write(text)

            do_POST = do_GET

            def log_message(self, *_):
                pass

        things = body(things=[{"mac": MAC, "url": URL, "pending": None, "held": False, "leases": []}])
        with within(self.site.holder):
            server = http.server.ThreadingHTTPServer(("127.0.0.1", PORT), Answers)
        self.addCleanup(server.shutdown)
        threading.Thread(target=server.serve_forever, daemon=True).start()
        said["any"] = (200, b'{"due":[],"files":[],"classes":[],"locals":[],"names":[]}', 0)
        said["GET/things"] = (200, things, 0)
        page = self.browser()
        self.holds("the Thing", page.says(MAC))
        for answer, words in (((503, b'{"rule":"keeper"}', 0), "The manager couldn't write its store. Its disk may be full."),
                              ((507, b'{"rule":"memory"}', 0), "The manager has no memory for it."),
                              ((409, b'{"book":"files","refused":8,"rule":"PolicyFull"}', 0), "The approved files would have too many entries together."),
                              ((403, b"<html>", 0), "The site refuses it."),
                              ((429, b"<html>", 0), "Too many requests wait. Try again in a moment."),
                              ((200, b'{"resu', 100), "can't be reached"),
                              ((200, b'{"resu', 0), "What came is no whole answer of the manager.")):
            said["POST/holds"] = answer
            page.click("Hold")
            self.holds(f"{answer[:2]}: {words}", page.says(words), page.main())
        said["GET/things"] = (200, b'{"things":[{"mac":1}]}', 0)
        page.click("Hold")
        self.holds("a listing of another form", page.says("The manager lists its things in a form that this page doesn't know."))
        self.holds("what was there stays", MAC in page.main())
        self.whole(page)


class Showing(OnPage):
    def test_pictures(self):
        """Each view at two widths, in the light and in the dark: nothing is wider than the page."""
        sha256 = self.approved()
        self.keep(self.bulb(systeminfo="newer", **{"last-update": "2026-01-01T00:00:00Z"}))
        self.post("/files", self.bulb(systeminfo="newer", **{"last-update": "2026-01-01T00:00:00Z"}))
        self.post("/hear/dhcp", announcement(MAC, NEXT))
        self.post("/hear/dhcp", announcement("02:00:00:00:00:02", "https://cameras.example.com/" + "model/" * 20))
        self.post("/classes", body(**{"class": "urn:ietf:params:mud:dns", "address": "192.0.2.53"}))
        self.site.asked("POST", "/api/holds", body(mac="02:00:00:00:00:02"))
        self.holds("the file in force", sha256)
        for width in WIDTHS:
            for dark in (False, True):
                page = self.browser(width=width, dark=dark)
                for view in ("Things", "Files", "Names", "Why", "Changes"):
                    page.appearance(width, dark)
                    page.view(view)
                    if view == "Files":
                        page.click("Look")
                        page.says("What comes:")
                    if view == "Why":
                        page.fill("Frame in hex", frames()["bulb-goes-on"].hex())
                        page.click("Ask why")
                        page.says("Verdict")
                    time.sleep(0.3)
                    self.note(f"{view} at {width}, {'dark' if dark else 'light'}: wider by", 0, page.overflow())
                    page.shot(f"{view.lower()}-{width}-{'dark' if dark else 'light'}")
                self.whole(page)
                page.stack.close()

    def test_full(self):
        """A full manager: the first view within a second, or five times that of an empty one."""
        took = {}
        for name in ("empty", "full"):
            if name == "full":
                self.fill()
            page = self.browser()
            page.driver.get(page.driver.current_url.replace("#things", "?again#things"))
            page.until(lambda: page.driver.execute_script("return performance.getEntriesByName('first-view').length > 0"))
            took[name] = page.driver.execute_script("return performance.getEntriesByName('first-view')[0]?.startTime ?? -1")
            page.stack.close()
        self.holds("the first view", 0 < took["full"] < max(1000, 5 * took["empty"]), took)

    def fill(self):
        """512 Things, 128 URLs with two files each, and 4,096 names."""
        self.site.end(self.console)
        rows = [("POST", "/hear/dhcp", announcement("02:00:00:00:%02x:%02x" % divmod(number, 256), f"https://maker.example.com/{number % 128}")) for number in range(512)]
        now = int(time.time())
        for number in range(128):
            for update in ("2020-01-01T00:00:00Z", "2026-01-01T00:00:00Z"):
                octets = self.bulb(**{"mud-url": f"https://maker.example.com/{number}", "last-update": update})
                rows.append(("POST", "/files", octets, now))
                if update.startswith("2020"):
                    rows.append(("POST", "/verdicts", body(url=f"https://maker.example.com/{number}", sha256=digest(octets), verdict="waived"), now))
        rows += [("POST", "/names", body(name=f"host{number}.example.com", address="198.51.100.7", ttl=86400), now) for number in range(4096)]
        octets = b"".join(program.request(*row) for row in rows)
        ended = run("replay", self.site.path("store.db"), input=octets)
        self.note("it is told", {200}, {answer.status for answer in program.answers(ended.out)})
        self.console = self.site.serve()

    def test_sentences(self):
        """The page says of each usage file of the examples what contrib/explain says."""
        taken = [path for path in texts.files("examples/usage-files/*.json") if run("check", input=path).status == 0]
        wanted = {}
        for path in taken:
            ended = run("--json", path, program="contrib/explain", env={**os.environ, "MUD": program.PROGRAM})
            said = json.loads(ended.out)
            wanted[path] = [(entry["words"]) for side in ("from", "to") for entry in said[side]]
        page = self.browser()
        script = """
        const [octets, done] = [Uint8Array.from(atob(arguments[0]), (letter) => letter.charCodeAt(0)), arguments[arguments.length - 1]];
        Promise.all([import("/usage.js"), import("/words.js")]).then(([usage, words]) =>
          done(words.sentences(usage.read(octets)).map((entry) => entry.words)), (fault) => done(String(fault)));
        """
        import base64
        for path in taken:
            got = page.driver.execute_async_script(script, base64.b64encode(read(path)).decode())
            self.note(path, wanted[path], got)
        self.holds("there are some", len(taken) > 5)
