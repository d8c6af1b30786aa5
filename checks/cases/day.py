"""Looks at contrib/mud-day, mud-report and capture, on the day that checks/days.py makes.

What is wanted is computed here from the program's own lines ('lines' of the folder, and runs of 'judge' and 'tally' by the
commands that the folder names), and from what was made. The page is looked at in Chromium.
"""
import base64
import collections
import contextlib
import fcntl
import glob
import gzip
import hashlib
import html.parser
import json
import os
import re
import shutil
import subprocess
import time
import unittest

from checks import browser, days, program
from checks.case import ProgramCase, needs, there_is
from checks.days import AT, CAMERA, CLOUD, DATE, HOUR, HUB, LAPTOP, LAMP, OUTSIDE, PLUG, SENSOR, START, URLS, VIDEO, WEB
from checks.program import Server, capture, read, run
from checks.session import acknowledgement, announcement

LIBRARIES = "/usr/lib/python3/dist-packages"
HOLDER = "<b>bert'&\""
KINDS = ("passed", "dropped", "begun", "unknown", "unmanaged", "link", "unreadable")


def libraries():
    """Whether jinja2 and matplotlib are there."""
    return all(os.path.isdir(f"{LIBRARIES}/{name}") for name in ("jinja2", "matplotlib"))


def digest(octets):
    return hashlib.sha256(octets).hexdigest()


@needs("curl", "sha256sum")
class OfDays(ProgramCase):
    """A case with the made site: its copy of the day's beginning, its captures and its log of changes."""

    cut = None

    def setUp(self):
        super().setUp()
        os.mkdir(self.path("files"))
        with Server(1000, self.path("live.db")) as server:
            days.tell_site(server.port, self.path("files"))
            self.tell_more(days.teller(server.port))
            self.environment = days.environment(self.folder, server.port)
            self.live = self.listed(server.port)
            self.note("the first run, which keeps a copy", (0, b"", b""), self.day()[:3])
            self.listed_after = self.listed(server.port)
        copies = self.path("days/copies")
        os.rename(f"{copies}/{os.listdir(copies)[0]}", f"{copies}/{DATE}.requests.gz")
        self.made = days.Day()
        self.capture_more(self.made)
        self.made.write(self.path("captures"), self.cut)
        self.put("changes.log", "".join(self.changes()).encode())

    def tell_more(self, post):
        """What else the manager knew on the evening before."""

    def capture_more(self, made):
        """What else was captured."""

    def changes(self):
        verdict = json.dumps({"url": URLS[CAMERA], "sha256": digest(days.FILES[CAMERA]), "verdict": "waived"})
        yield days.log_line(START - 9 * 24 * HOUR, "anna", "POST", "/verdicts", verdict)
        yield days.log_line(START + 15 * HOUR, HOLDER, "POST", "/holds", json.dumps({"mac": CAMERA}))
        yield days.log_line(START + 16 * HOUR, "anna", "DELETE", "/holds", json.dumps({"mac": CAMERA}))

    @staticmethod
    def listed(port):
        return [run("-s", f"http://127.0.0.1:{port}/{name}", program="curl").out for name in ("things", "files", "classes", "locals", "names", "due")]

    def day(self, *words, **more):
        ended = run("--in", self.folder, *words, program="contrib/mud-day", env={**self.environment, **more})
        return ended.status, ended.out, ended.errors, ended

    def of(self, name, date=DATE):
        return read(name, self.path("days/" + date))

    def told(self, date=DATE):
        return json.loads(self.of("day.json", date))

    def thing(self, mac):
        return next(one for one in self.told()["things"] if one["mac"] == mac)


class Row:
    """A line of the folder: the packet's number and second, the verdict, and its ends."""

    def __init__(self, line):
        number, second, verdict, rest = re.fullmatch(r"(\d+) (\d+) ((?:pass|drop) (?:unmanaged|link|unreadable \w+|(?:(?:from|to)=\S+ ?)+?)) ?((?:packet|link|unreadable|- -).*)", line).groups()
        self.number, self.second, self.verdict = int(number), int(second), verdict.strip()
        self.parts = rest.split()
        self.tcp = self.parts[4:5] == ["tcp"]
        self.ends = tuple(self.parts[1:3])

    def has(self, *texts):
        return all(text in self.parts for text in texts)


class Made(OfDays):
    """What the folder says."""

    def setUp(self):
        super().setUp()
        self.ended = self.day(DATE)
        self.assertEqual(self.ended[0], 0, self.ended[2].decode())
        self.rows = [Row(line) for line in self.of("lines").decode().splitlines()]

    def verdicts(self, *texts, since=0, until=24 * HOUR):
        return collections.Counter(row.verdict for row in self.rows if row.has(*texts) and START + since <= row.second < START + until)

    def test_verdicts(self):
        """Each part of the made day has the verdict that it is made for."""
        made = days.Day().packets
        self.note("lines", sum(START <= second < START + 24 * HOUR for second, _ in made), len(self.rows))
        self.note("a name of a minute under a connection of an hour", {"pass to=accept:2": 60, "pass from=accept:2": 2}, self.verdicts(VIDEO))
        self.note("a connection of the evening before", {"pass from=accept:1": 48}, self.verdicts(CLOUD))
        self.note("one of the evening before last", {"drop from=drop:no-match": 3}, self.verdicts(HUB))
        self.note("a scan", {"drop to=drop:no-match": 100}, self.verdicts(OUTSIDE))
        self.note("to the lamp's address, before noon", {"pass from=accept:2 to=accept:1": 3, "pass from=accept:1 to=accept:2": 1}, self.verdicts(AT[LAMP], AT[SENSOR], until=12 * HOUR))
        self.note("and behind noon", {"drop from=drop:no-match to=drop:no-file": 1}, self.verdicts(AT[PLUG], AT[SENSOR], since=12 * HOUR))
        self.note("while the lease moves the camera's goes on", {"pass from=accept:1": 4}, self.verdicts(CLOUD, since=11 * HOUR, until=13 * HOUR))

    def test_kinds(self):
        """The day's numbers, from the lines and from what was made."""
        wanted = collections.Counter()
        for row in self.rows:
            kind = {"pass u": "unmanaged", "pass l": "link"}.get(row.verdict[:6], "passed" if row.verdict[:4] == "pass" else "dropped")
            kind = "begun" if row.has(HUB) else "unknown" if row.has("192.0.2.40") else kind
            wanted[(row.second - START) // HOUR, kind] += 1
        told = self.told()
        got = {(hour, kind): row[kind] for hour, row in enumerate(told["hours"]) for kind in KINDS if row[kind]}
        self.note("by hour", dict(wanted), got)
        self.note("hours", [f"{hour:02}:00" for hour in range(24)], [row["time"] for row in told["hours"]])
        self.note("in all", {kind: sum(packets for (_, one), packets in wanted.items() if one == kind) for kind in KINDS}, told["totals"])
        self.note("begun before the capture", [("from", HUB, "8883", 3)], [(one["side"], one["peer"], one["port"], one["packets"]) for one in self.thing(SENSOR)["begun"]])
        self.note("not known yet", (1, START + 12 * HOUR), (self.thing(PLUG)["unknown"], told["announced"][PLUG]))
        self.note("senders that are no Things", {LAPTOP: 25, days.ROUTER: 1}, {one["mac"]: one["packets"] for one in told["senders"]})

    def test_entries(self):
        """How often each entry decided, and those that never did."""
        for mac in (CAMERA, SENSOR, LAMP):
            wanted = collections.Counter()
            for row in self.rows:
                for side, number in re.findall(r"(from|to)=accept:(\d+)", row.verdict):
                    if AT[mac] == row.ends[0 if side == "from" else 1] and (mac != LAMP or row.second < START + 12 * HOUR):
                        wanted[side, int(number)] += 1
            thing = self.thing(mac)
            self.note(f"entries of {URLS[mac]}", dict(wanted), {(one["side"], one["number"]): one["packets"] for one in thing["entries"] if one["packets"]})
            said = json.loads(run("--json", self.put("file.json", days.FILES[mac]), program="contrib/explain", env=self.environment).out)
            self.note(f"words of {URLS[mac]}", [one["words"] for side in ("from", "to") for one in said[side]], [one["words"] for one in thing["entries"]])
        self.note("who gave the verdict", ("anna", "waived"), (self.thing(CAMERA)["file"]["by"], self.thing(CAMERA)["file"]["verdict"]))
        self.note("changes that touch it", [HOLDER, "anna"], [row["user"] for row in self.thing(CAMERA)["changes"]])

    def test_denied(self):
        """What was denied, and that the entry which is named lets it pass, by the program."""
        denied = {(one["peer"], one["port"]): one for one in self.thing(CAMERA)["denied"]}
        wanted = {(WEB, "80"): 5, **{(OUTSIDE, str(port)): 1 for port in range(1, 101)}}
        self.note("of the camera", wanted, {key: one["packets"] for key, one in denied.items()})
        web = denied[WEB, "80"]
        self.note("first and last", (START + 14 * HOUR + 1200, START + 14 * HOUR + 1204), (web["first"], web["last"]))
        for key, text in (((WEB, "80"), WEB), ((OUTSIDE, "7"), OUTSIDE)):
            self.note(f"with the entry for {key} it passes", True, self.passes(CAMERA, denied[key], text, key[1]))

    def passes(self, mac, one, peer, port):
        """Whether what was denied passes by the day's store, with the approved file that has the entry, too."""
        file = json.loads(days.FILES[mac])
        acl = next(acl for acl in file["ietf-access-control-list:acls"]["acl"] if acl["name"].startswith(one["side"]))
        acl["aces"]["ace"].append(one["remedy"]["ace"])
        file["ietf-mud:mud"]["last-update"] = "2026-10-02T00:00:00+00:00"
        octets, moment = json.dumps(file).encode(), self.told()["first"]
        verdict = json.dumps({"url": URLS[mac], "sha256": digest(octets), "verdict": "waived"})
        store, requests = self.path("with.db"), self.requests("state-1")
        program.clear_store(store)
        asked = requests + program.request("POST", "/files", octets, moment) + program.request("POST", "/verdicts", verdict, moment)
        self.assertEqual(run("replay", store, input=asked).status, 0)
        lines = [Row(line + " " + rest) for line, rest in zip(run("judge", store, input=self.joined()).out.decode().splitlines(), self.framed())]
        found = [row.verdict[:4] for row in lines if row.has(peer, port, AT[mac]) and row.second >= START]
        return bool(found) and set(found) == {"pass"}

    def requests(self, name):
        return subprocess.run(["zcat", os.path.join(self.path("days"), DATE, name + ".requests.gz")], stdout=subprocess.PIPE, check=True).stdout

    def joined(self):
        return self.day("--joined", DATE)[1]

    def framed(self):
        return [line.split(" ", 2)[2] for line in run("frames", input=self.joined()).out.decode().splitlines()]

    def test_tally(self):
        """The counts are those of 'tally', and 47 hours give 47."""
        store = self.path("tally.db")
        self.assertEqual(run("replay", store, input=self.requests("state-1")).status, 0)
        lines = run("tally", store, input=self.joined()).out.decode().splitlines()
        self.note("hours", 47, sum(line.startswith("hour ") for line in lines))
        # where no lease moves in the midst: up to noon
        wanted, hour = collections.Counter(), None
        for line in lines:
            words = line.split()
            hour = int(words[1]) if words[0] == "hour" else hour
            if words[0] == "count" and START // HOUR <= hour < START // HOUR + 12:
                wanted[words[1], words[2], words[3]] += int(words[4])
        got = collections.Counter()
        for one in self.all_packets():
            if one["second"] < START + 12 * HOUR:
                for end in one["things"]:
                    got[end["mac"], end["side"], end["ruling"]] += 1
        self.note("counts up to noon", dict(wanted), dict(got))
        whole = collections.Counter()
        for one in self.all_packets():
            for end in one["things"]:
                if not (end["mac"] == PLUG and one["second"] < START + 12 * HOUR):
                    whole[end["mac"], end["side"], end["ruling"]] += 1
        self.note("of the whole day", dict(whole), {(thing["mac"], one["side"], one["ruling"]): one["packets"] for thing in self.told()["things"] for one in thing["rulings"]})

    def all_packets(self):
        """Each packet as an object."""
        if not os.path.exists(self.path(f"days/{DATE}/packets.jsonl")):
            self.assertEqual(self.day("--all", DATE)[0], 0)
        return [json.loads(line) for line in self.of("packets.jsonl").splitlines()]

    def test_dropped(self):
        """An object for each packet that was dropped, with the Thing's address and URL and the local time."""
        rows = [json.loads(line) for line in self.of("dropped.jsonl").splitlines()]
        self.note("numbers", [row.number for row in self.rows if row.verdict.startswith("drop")], [one["number"] for one in rows])
        first = next(one for one in rows if one.get("destination") == WEB and one["things"][0]["mac"] == CAMERA)
        self.note("one", {"second": START + 14 * HOUR + 1200, "time": "2026-11-30T14:20:00+0100", "verdict": "drop from=drop:no-match", "source": AT[CAMERA], "destination": WEB,
                          "protocol": 6, "layer": "tcp", "ports": [50010, 80], "flags": 2, "begun-before": False, "number": first["number"],
                          "things": [{"side": "from", "mac": CAMERA, "url": URLS[CAMERA], "ruling": "drop:no-match", "not-known-yet": False}]}, first)

    def test_commands(self):
        """The commands that the folder names make its files again."""
        os.mkdir(self.path("again"))
        os.mkdir(self.path("bin"))
        os.symlink(program.PROGRAM, self.path("bin/mud"))
        os.symlink(os.path.abspath("contrib/mud-day"), self.path("bin/mud-day"))
        text = self.of("commands").decode().replace("DAY/", self.path(f"days/{DATE}/")).replace("mud-day --verify", "mud-day --in . --verify")
        environment = {**self.environment, "PATH": self.path("bin") + ":" + os.environ["PATH"]}
        ended = run("-e", "-c", text, program="sh", cwd=self.path("again"), env=environment)
        self.note("status", (0, b""), (ended.status, ended.errors))
        self.note("its own comparison", f"{self.path('days')}/{DATE}: all files come out the same\n", ended.out.decode())
        names = [name for name in os.listdir(self.path("days/" + DATE)) if name.startswith(("report-", "export-")) and name != "report-due"] + ["lines"]
        # five reports, the lists of four Things, the lines
        self.note("files that are made one by one", 10, len(names))
        for name in names:
            self.note(name, self.of(name), read(name, self.path("again")))

    def test_evidence(self):
        """The sums hold, a change is seen, and so is a capture that went."""
        self.note("sha256sum", 0, run("-c", "--quiet", "SHA256SUMS", program="sha256sum", cwd=self.path("days/" + DATE)).status)
        self.note("verify", 0, self.day("--verify", DATE)[0])
        other = self.put("other", f"#!/bin/sh\nexec '{program.PROGRAM}' \"$@\"\n".encode())
        os.chmod(other, 0o755)
        ended = self.day("--verify", DATE, MUD=other)
        self.note("another program", (1, ["the program isn't that of the day, of which day.json has the SHA-256", "commands comes out otherwise", "day.json comes out otherwise"]),
                  (ended[0], ended[2].decode().replace("mud-day: ", "").splitlines()))
        with open(self.path(f"days/{DATE}/lines"), "ab") as file:
            file.write(b"\n")
        ended = self.day("--verify", DATE)
        self.holds("a line more", ended[0] == 1 and b"lines was changed" in ended[2] and b"lines comes out otherwise" in ended[2], ended[2])
        os.unlink(self.path(f"captures/{sorted(os.listdir(self.path('captures')))[0]}"))
        ended = self.day("--verify", DATE)
        self.holds("a capture that is gone", ended[0] == 1 and b"1 of 47 captures are gone" in ended[2], ended[2])
        self.note("what the served store lists is as before", self.live, self.listed_after)


class Moves(OfDays):
    """More states of leases than are told apart."""

    moves, at = 10, "192.0.2.77"

    def holder(self, hour):
        return CAMERA if hour % 2 else LAMP

    def capture_more(self, made):
        """An address that goes each hour from the lamp to the camera or back, and the sensor, which may go to the lamp's port 80."""
        made.packets = []
        for hour in range(self.moves + 1):
            made.dhcp(START + hour * HOUR, self.holder(hour), acknowledgement(self.holder(hour), self.at, 7200), True)
            made.sent(START + hour * HOUR + 1800, SENSOR, self.at, 50100 + hour, 80, days.SYN)

    def test_states(self):
        """Of ten moves the first six are told apart; then the last holder counts, and it is told."""
        ended = self.day(DATE)
        self.note("status", 0, ended[0])
        rows = [Row(line) for line in self.of("lines").decode().splitlines()]
        # behind the sixth hour the last one, the lamp, counts
        wanted = ["pass" if hour >= 7 or self.holder(hour) == LAMP else "drop" for hour in range(self.moves + 1)]
        self.note("by hour", wanted, [row.verdict[:4] for row in rows if row.has(self.at, AT[SENSOR])])
        told = self.told()
        self.note("states", [0, *(START + hour * HOUR for hour in range(1, 8))], [state["second"] for state in told["states"]])
        self.note("one", [f"{self.at} goes from {LAMP} to {CAMERA}"], told["states"][1]["words"])
        words = "leases move 10 times in the day: from here on the last ones count"
        self.note("the last one", [words], told["states"][-1]["words"])
        if libraries():
            self.holds("in the page", words in Page(self.of("report.html")).text)


class Refused(OfDays):
    """Names that the manager refuses."""

    name, most = "many.example.net", 64

    def capture_more(self, made):
        made.packets = []
        addresses = [f"198.51.100.{number}" for number in range(100, 100 + self.most + 1)]
        for at in range(0, len(addresses), 13):
            made.put(START + HOUR + at, days.GATE, AT[CAMERA], 17, days.udp(53, 40000, days.answer(self.name, *addresses[at:at + 13])), (days.ROUTER, CAMERA))

    def test_names(self):
        """An address more than a name may have is told, with the rule."""
        self.note("status", 0, self.day(DATE)[0])
        refused = self.told()["refused"]
        self.note("refused", 1, len(refused))
        self.holds("words", "NameFull" in refused[0] and self.name in refused[0] and "198.51.100.164" in refused[0], refused)
        self.note("names that are kept", self.most, self.of("report-names").decode().count(f"name {self.name} "))
        if libraries():
            self.holds("in the page", refused[0] in Page(self.of("report.html")).text)


class TwoDays(OfDays):
    """A day behind another one."""

    def capture_more(self, made):
        # on the day before, what the camera does on the day, too
        for at in (-5 * HOUR, -4 * HOUR):
            made.sent(START + at, CAMERA, WEB, 50200, 80, days.SYN)
        made.packets.sort(key=lambda row: row[0])

    def setUp(self):
        super().setUp()
        shutil.copy(self.path(f"days/copies/{DATE}.requests.gz"), self.path(f"days/copies/{days.BEFORE}.requests.gz"))
        self.assertEqual([self.day(date)[0] for date in (days.BEFORE, DATE)], [0, 0])

    def test_first(self):
        """What was denied on the day before isn't new."""
        told = self.told()
        self.note("days before", [days.BEFORE], told["earlier"]["days"])
        self.note("denied there", [[CAMERA, "from", WEB, "6", "peer", "80"]], told["earlier"]["denied"])
        self.note("denied here", 5, next(one["packets"] for one in self.thing(CAMERA)["denied"] if one["peer"] == WEB))
        if libraries():
            rows = Page(self.of("report.html")).tables["New denials"][1:]
            self.note("new", {("cams.example.com/camera", OUTSIDE, "100"), ("sensors.example.com/sensor", AT[PLUG], "1"), (URLS[PLUG].removeprefix("https://"), AT[SENSOR], "1"),
                              (URLS[PLUG].removeprefix("https://"), WEB, "1")}, {(row[0], row[2], row[5]) for row in rows})
            before = Page(self.of("report.html", days.BEFORE))
            self.holds("of the first day", "No day before is kept, so all that is denied is new." in before.text)

    def test_sums(self):
        """A day that was changed is seen by its own sums, and with new ones by the next day's."""
        self.note("as they are", [0, 0], [self.day("--verify", date)[0] for date in (days.BEFORE, DATE)])
        folder = self.path(f"days/{days.BEFORE}")
        with open(f"{folder}/dropped.jsonl", "ab") as file:
            file.write(b"{}\n")
        ended = self.day("--verify", days.BEFORE)
        self.holds("the day itself", ended[0] == 1 and b"dropped.jsonl was changed" in ended[2], ended[2])
        run("-c", "sha256sum $(ls | grep -v SHA256SUMS) > SHA256SUMS", program="sh", cwd=folder)
        self.note("its new sums hold", 0, run("-c", "--quiet", "SHA256SUMS", program="sha256sum", cwd=folder).status)
        ended = self.day("--verify", DATE)
        self.holds("the next day", ended[0] == 1 and f"../{days.BEFORE}/SHA256SUMS was changed".encode() in ended[2], ended[2])
        self.note("sha256sum", 1, run("-c", "--quiet", "SHA256SUMS", program="sha256sum", cwd=self.path("days/" + DATE)).status)


class Classes(OfDays):
    """A file that drops, and one that asks for a class."""

    hour_class = "urn:example:hour"

    def tell_more(self, post):
        # an entry that drops, of the lamp's maker, in place of the lamp's own file
        dropping = json.loads(days.usage(URLS[LAMP], ("name", "hub.example.net", 25), forwarding="drop").replace(b"2026-10-01", b"2026-10-02"))
        whoever = {"name": "whoever began", "matches": {"ipv4": {"protocol": 6}, "tcp": {"destination-port": {"operator": "eq", "port": 27}}}, "actions": {"forwarding": "drop"}}
        dropping["ietf-access-control-list:acls"]["acl"][0]["aces"]["ace"].append(whoever)
        dropping = json.dumps(dropping).encode()
        asking = days.usage(URLS[SENSOR], ("controller", self.hour_class, 37)).replace(b"2026-10-01", b"2026-10-02")
        for mac, octets in ((LAMP, dropping), (SENSOR, asking)):
            days.tell_file(post, URLS[mac], octets, self.path("files"))

    def capture_more(self, made):
        made.packets = []
        made.sent(START + 60, LAMP, HUB, 50300, 25, days.SYN)
        made.sent(START + 61, LAMP, HUB, 50301, 26, days.SYN)
        made.sent(START + 62, LAMP, HUB, 50302, 27, days.ACK)

    def changes(self):
        yield days.log_line(START + 8 * HOUR, "carl", "POST", "/classes", json.dumps({"class": self.hour_class, "address": "192.0.2.9"}))
        yield days.log_line(START + 9 * HOUR, "carl", "POST", "/classes", json.dumps({"class": "urn:example:other", "address": "192.0.2.9"}))

    def test_names(self):
        """The entry that dropped a packet stands with its names in dropped.jsonl, and its remedy stands in front of it."""
        self.note("status", 0, self.day(DATE)[0])
        rows = [json.loads(line)["things"] for line in self.of("dropped.jsonl").splitlines()]
        end = {"side": "from", "mac": LAMP, "url": URLS[LAMP], "not-known-yet": False}
        self.note("by an entry", [{**end, "ruling": "drop:1", "entry": 1, "acl": "from & list", "ace": '<from "1">'}], rows[0])
        self.note("by none", [{**end, "ruling": "drop:no-match"}], rows[1])
        denied = {one["port"]: one["remedy"] for one in self.thing(LAMP)["denied"]}
        self.note("of a connection that was begun before", ["drop:2", True], [rows[2][0]["ruling"], json.loads(self.of("dropped.jsonl").splitlines()[2])["begun-before"]])
        self.note("is apart", [("drop:2", "27", 1)], [(one["ruling"], one["port"], one["packets"]) for one in self.thing(LAMP)["begun"]])
        self.note("and no denial", {"25": 1, "26": 1}, {one["port"]: one["packets"] for one in self.thing(LAMP)["denied"]})
        self.note("in front of which entry", ("from 1", None), (denied["25"].get("before"), denied["26"].get("before")))

    def test_bound(self):
        """A class that is bound in the day stands at the Thing whose file asks for it, and is bound from the next day on."""
        self.note("status", 0, self.day(DATE)[0])
        touched = {mac: [row["words"] for row in self.thing(mac)["changes"]] for mac in (CAMERA, SENSOR, LAMP)}
        self.note("Things that are touched", [SENSOR], [mac for mac, rows in touched.items() if rows])
        self.holds("words", len(touched[SENSOR]) == 1 and self.hour_class in touched[SENSOR][0], touched)
        self.note("changes of the day", ["carl", "carl"], [row["user"] for row in self.told()["changes"]])
        self.holds("isn't bound yet", self.hour_class.encode() not in self.of("report-classes"))


class Living(OfDays):
    """Long work shows that it lives, and leaves the served store as it was."""

    def at_terminal(self, *words):
        """What a terminal gets, whose standard error it is."""
        ours, theirs = os.openpty()
        process = subprocess.Popen(["contrib/mud-day", "--in", self.folder, *words], env=self.environment, stdin=subprocess.DEVNULL, stdout=subprocess.DEVNULL, stderr=theirs)
        os.close(theirs)
        shown = b""
        with contextlib.suppress(OSError):
            while more := os.read(ours, 65536):
                shown += more
        os.close(ours)
        self.note("status at a terminal", 0, process.wait())
        return shown.decode()

    def test_progress(self):
        shown = self.at_terminal(DATE)
        parts = [part for part in shown.split("\r\x1b[K") if part.strip()]
        stages = list(dict.fromkeys(part.partition(":")[0] for part in parts))
        self.note("stages", ["reading the captures", "telling what was heard", "judging", "writing reports", "drawing the page"], stages)
        packets = len(self.made.packets)
        self.holds("packets of how many", any(re.fullmatch(rf"judging: [\d,]+ of {packets:,} packets, up to 20\d\d-\d\d-\d\d [\d:]+", part) for part in parts), parts)
        self.holds("the line is cleared at the end", shown.endswith("\r\x1b[K"), shown[-80:])
        self.holds("no line is wider than the terminal", all(len(part) < 80 for part in parts), parts)
        self.note("where there is no terminal", (0, b"", b""), self.day(DATE)[:3])

    def test_store(self):
        """'report' of all kinds and 'export' of each Thing are the same before and after, of the store that is served meanwhile."""
        def told():
            kinds = ("things", "files", "classes", "locals", "names", "due")
            return [run("report", self.path("live.db"), kind)[:2] for kind in kinds] + [run("export", self.path("live.db"), mac)[:2] for mac in (CAMERA, SENSOR, LAMP)]
        before = told()
        self.note("statuses", {0}, {status for status, _ in before})
        with Server(1000, self.path("live.db")) as server:
            served = {"MUD_CONSOLE": f"http://127.0.0.1:{server.port}"}
            self.note("the day", 0, self.day(DATE, **served)[0])
            os.unlink(self.path(f"days/copies/{os.listdir(self.path('days/copies'))[0]}"))
            self.note("another copy", 0, self.day(**served)[0])
        for what, one, other in zip(("things", "files", "classes", "locals", "names", "due", CAMERA, SENSOR, LAMP), before, told()):
            self.note(what, one, other)


class Bad(OfDays):
    """What is wrong with the input."""

    cut = 17

    def remarks(self, *words):
        ended = self.day(DATE)
        self.note("status", 0, ended[0])
        for word in words:
            self.holds(word, word in ended[2].decode() and word in " ".join(self.told()["remarks"]), ended[2].decode())

    def name(self, hour):
        return self.path(time.strftime("captures/br0-%Y%m%dT%H%M%SZ.pcap", time.gmtime(START + hour * HOUR)))

    def test_files(self):
        """A file that is cut, an hour twice, another link, no capture: named, and the others count."""
        shutil.copy(self.name(8), self.path("captures/copy.pcap"))
        self.put("captures/other.pcap", capture([(START + 60, bytes(20))], link=113))
        self.put("captures/empty.pcap", b"")
        # the first part of an hour, by its name before the whole of it
        with open(self.name(10), "rb") as file:
            self.put("captures/a-part.pcap", file.read()[:3000])
        self.remarks("is cut behind 2 packets, at 2026-11-30 17:05:00", "copy.pcap has what", "a-part.pcap has what", "the hour is there twice", "this capture isn't of Ethernet")
        rows = self.told()["hours"]
        self.note("the hours that are twice, and the one that is cut", (2, 65, 1), tuple(rows[at]["passed"] for at in (8, 10, 17)))

    def test_interfaces(self):
        """A file of another interface that goes on behind those of the first one, and the files of both that are under way."""
        def frame(hour):
            return START + int(hour * HOUR), days.ethernet(LAPTOP, days.ROUTER, 0x0800, bytes(20))
        self.put("captures/br0-20261128T223000Z.pcap", capture([frame(-24.5)]))
        self.put("captures/br1-20261128T220000Z.pcap", capture([frame(-25), frame(6), frame(23.6)])[:-3])
        with open(self.name(23), "rb+") as file:
            file.write(capture([frame(23.2), frame(23.5)])[:-3])
            file.truncate()
        self.note("status", 0, self.day(DATE)[0])
        rows = self.told()["hours"]
        self.note("unmanaged packets of six and of the last hour", (2, 1), (rows[6]["unmanaged"], rows[23]["unmanaged"]))
        self.note("what is cut", [], [line for line in self.told()["remarks"] if "is cut" in line and "-20261130T160000Z" not in line])

    def test_clock(self):
        """A clock that was set back."""
        rows = [(START + 20 * HOUR + at, days.ethernet(LAPTOP, days.ROUTER, 0x0800, bytes(20))) for at in (1000, 2000, 100)]
        self.put(os.path.relpath(self.name(20), self.folder), capture(rows))
        self.remarks("at 2026-11-30 20:33:20 the clock was set back to 2026-11-30 20:01:40")

    def test_no_capture(self):
        shutil.rmtree(self.path("captures"))
        os.mkdir(self.path("captures"))
        ended = self.day(DATE)
        self.note("status", 1, ended[0])
        self.holds("words", b"no capture in" in ended[2], ended[2])
        self.holds("no folder", not os.path.exists(self.path("days/" + DATE)))

    def test_no_copy(self):
        """Where no copy was made an earlier one counts, which is told; without any there is no day."""
        os.rename(self.path(f"days/copies/{DATE}.requests.gz"), self.path("days/copies/2026-11-28.requests.gz"))
        self.remarks("no copy of the store was made at the beginning of 2026-11-30")
        shutil.rmtree(self.path("days"))
        ended = self.day(DATE)
        self.holds("none at all", ended[0] == 1 and b"no copy of the store was kept" in ended[2], ended[2])
        ended = self.day("--wait", "0.1")
        self.holds("nothing is left of it", not glob.glob(self.path("days/copies/*")))
        self.holds("a console that isn't there", ended[0] == 1 and b"can't be reached" in ended[2], ended[2])

    def test_no_octets(self):
        """A file whose octets aren't there: no copy is made, which is told, and with --without-missing one without it."""
        shutil.rmtree(self.path("days/copies"))
        os.unlink(self.path(f"files/{digest(days.FILES[CAMERA])}.json"))
        with Server(1000, self.path("live.db")) as server:
            served = {"MUD_CONSOLE": f"http://127.0.0.1:{server.port}"}
            ended = self.day(**served)
            self.holds("words", ended[0] == 1 and f"the approved file of {URLS[CAMERA]} isn't in".encode() in ended[2], ended[2])
            self.holds("nothing is left of it", not glob.glob(self.path("days/copies/*")))
            ended = self.day("--without-missing", **served)
            self.holds("without it", ended[0] == 0 and f"the approved file of {URLS[CAMERA]} isn't in".encode() in ended[2], ended[2])
            self.note("a copy", 1, len(glob.glob(self.path("days/copies/*"))))

    @unittest.skipIf(os.geteuid() != 0, "only root mounts a folder")
    @needs("unshare", "mount")
    def test_full(self):
        """A folder that is full in the midst: what stands there stays."""
        self.assertEqual(self.day(DATE)[0], 0)
        sums = self.of("SHA256SUMS")
        script = 'mount -t tmpfs -o size=420k none "$1.new" && cp -a "$1/." "$1.new/" && mount --move "$1.new" "$1" && shift && "$@"; s=$?; ls -A "$0"; cat "$0/%s/SHA256SUMS" | sha256sum >&2; exit $s' % DATE
        os.mkdir(self.path("days.new"))
        ended = run("--mount", "sh", "-c", script, self.path("days"), self.path("days"), os.path.abspath("contrib/mud-day"), "--in", self.folder, DATE, program="unshare", env=self.environment)
        self.note("status", 1, ended.status)
        self.holds("words", b"can't be written, and what was there stays" in ended.errors, ended.errors)
        self.note("what is there", ["2026-11-30", "copies"], sorted(ended.out.decode().split()))
        self.holds("as it was", digest(sums).encode() in ended.errors, ended.errors)

    def test_days(self):
        """Days of 23 and 25 hours."""
        for date, hours, first in (("2026-03-29", 23, 1774738800), ("2026-10-25", 25, 1792879200)):
            shutil.rmtree(self.path("captures"))
            rows = [(first + at * HOUR + 60, days.ethernet(LAPTOP, days.ROUTER, 0x0800, bytes(20))) for at in range(-1, hours + 1)]
            os.mkdir(self.path("captures"))
            self.put("captures/br0.pcap", capture(rows))
            shutil.copy(self.path(f"days/copies/{DATE}.requests.gz"), self.path(f"days/copies/{date}.requests.gz"))
            self.note(f"{date}, status", 0, self.day(date)[0])
            rows = self.told(date)["hours"]
            self.note(f"{date}, packets by hour", [1] * hours, [row["unmanaged"] for row in rows])
            two = {23: ["01:00 CET", "03:00 CEST"], 25: ["02:00 CEST", "02:00 CET"]}[hours]
            at = [row["time"] for row in rows].index(two[0])
            self.note(f"{date}, where the clocks are changed", two, [row["time"] for row in rows[at:at + 2]])

    def test_words(self):
        for words in (["--verify"], ["2026-11-30", "2026-12-01"], ["--nothing"]):
            self.note(" ".join(words), 2, self.day(*words)[0])
        self.holds("no day", self.day("2026-13-01")[0] == 1)


class Earlier(OfDays):
    """Where no copy was made at the day's beginning, but one two days before."""

    def capture_more(self, made):
        """On the day before the plug came, and the sensor got the address that was the lamp's."""
        made.packets = []
        made.dhcp(START - 3 * HOUR, PLUG, announcement(PLUG, URLS[PLUG]))
        made.dhcp(START - 3 * HOUR + 1, PLUG, acknowledgement(PLUG, AT[PLUG], 7200), True)
        made.sent(START + HOUR, PLUG, WEB, 50007, 80, days.SYN)
        made.sent(START + 2 * HOUR, SENSOR, AT[PLUG], 50006, 80, days.SYN, PLUG)

    def test_earlier(self):
        """What was announced and leased behind the copy counts."""
        path = self.path(f"days/copies/{DATE}.requests.gz")
        with gzip.open(path) as file:
            octets = file.read()
        os.unlink(path)
        with open(self.path("days/copies/2026-11-28.requests.gz"), "wb") as whole, gzip.GzipFile(fileobj=whole, mode="wb", mtime=START - 48 * HOUR) as file:
            file.write(octets)
        ended = self.day(DATE)
        self.note("status", 0, ended[0])
        self.holds("words", b"the day is judged by that of 2026-11-28 00:00:00" in ended[2], ended[2])
        self.note("verdicts", ["drop from=drop:no-file", "drop from=drop:no-match to=drop:no-file"], [Row(line).verdict for line in self.of("lines").decode().splitlines()])
        self.note("announced in the day", {}, self.told()["announced"])
        self.note("not known yet", 0, self.told()["totals"]["unknown"])


class Broken(OfDays):
    """Runs that are stopped in the midst, and what they leave."""

    def capture_more(self, made):
        made.packets = made.packets[:60]

    def program_that(self, does):
        """A program that does something in place of 'judge'."""
        path = self.put("mud-that-stops", f"#!/bin/sh\n[ $1 != judge ] || {{ {does}; }}\nexec '{program.PROGRAM}' \"$@\"\n".encode())
        os.chmod(path, 0o755)
        return path

    def test_program(self):
        """The program is killed in the midst: what stood there stays, and nothing else does."""
        self.assertEqual(self.day(DATE)[0], 0)
        sums = self.of("SHA256SUMS")
        ended = self.day(DATE, MUD=self.program_that("head -c 500 > /dev/null; kill -9 $$"))
        self.note("status", 1, ended[0])
        self.holds("words", b"ended with -9" in ended[2] and b"Traceback" not in ended[2], ended[2])
        self.note("what is there", [DATE, "copies"], sorted(os.listdir(self.path("days"))))
        self.note("as it was", sums, self.of("SHA256SUMS"))

    def test_stopped(self):
        """It is told to stop: nothing is left. What a run leaves that was killed goes with the next one."""
        process = subprocess.Popen(["contrib/mud-day", "--in", self.path("files"), DATE], env={**self.environment, "MUD": self.program_that("exec sleep 3")}, stderr=subprocess.DEVNULL)
        self.holds("it works", program.until(lambda: glob.glob(self.path("files/mud-day-*/state-1.db")), 20))
        process.terminate()
        self.note("status", 1, process.wait())
        self.note("what is there", ["copies"], os.listdir(self.path("days")))
        self.note("nor in memory", [], glob.glob(self.path("files/mud-day-*")))
        for name in (f".{DATE}.one", f".{DATE}.two.old"):
            os.mkdir(self.path("days/" + name))
        self.put(f"days/.{DATE}.two.old/mark", b"")
        self.note("a day that was put aside", 1, self.day(DATE, MUD=self.program_that("exit 7"))[0])
        self.note("is in its place again", ["mark"], os.listdir(self.path("days/" + DATE)))
        self.note("the next run", 0, self.day(DATE)[0])
        self.note("what is there then", [DATE, "copies"], sorted(os.listdir(self.path("days"))))

    def test_two(self):
        """Two runs wait for each other."""
        place = os.open(self.path("days"), os.O_RDONLY)
        fcntl.flock(place, fcntl.LOCK_EX)
        process = subprocess.Popen(["contrib/mud-day", "--in", self.folder, DATE], env=self.environment, stderr=subprocess.PIPE)
        self.note("words", b"mud-day: another one makes a day, and this one waits for it\n", process.stderr.readline())
        self.note("what is there", ["copies"], os.listdir(self.path("days")))
        os.close(place)
        self.note("behind it", b"", process.communicate()[1])
        self.note("status", 0, process.returncode)
        self.note("what is there then", [DATE, "copies"], sorted(os.listdir(self.path("days"))))

    def test_folders(self):
        """Folders that are none of a day, or broken ones, are told, and others' aren't taken for days."""
        for name, octets in (("2026-11-29", b"["), ("2026-11-28.saved", b"{}")):
            os.mkdir(self.path("days/" + name))
            self.put(f"days/{name}/day.json", octets)
        ended = self.day(DATE)
        self.note("status", 0, ended[0])
        self.holds("words", b"what was denied on 2026-11-29 isn't known" in ended[2] and b"saved" not in ended[2], ended[2])
        self.note("days before", [], self.told()["earlier"]["days"])
        os.unlink(self.path(f"days/{DATE}/SHA256SUMS"))
        for what, date, words in (("no sums", DATE, b"SHA256SUMS can't be read"), ("no folder", "2026-11-27", b"is no folder of a day"), ("a broken one", "2026-11-29", b"SHA256SUMS can't be read")):
            ended = self.day("--verify", date)
            self.holds(what, ended[0] == 1 and b"mud-day: " in ended[2] and b"Traceback" not in ended[2], ended[2])

    @unittest.skipIf(os.geteuid() != 0, "only root gives files away")
    def test_owner(self):
        """What root makes is of whom the days are."""
        os.chown(self.path("days"), 65534, 65534)
        self.note("status", 0, self.day(DATE)[0])
        owners = {os.stat(path).st_uid for path in [self.path("days/" + DATE), *glob.glob(self.path(f"days/{DATE}/*"))]}
        self.note("owner", {65534}, owners)


class Page(html.parser.HTMLParser):
    """The text of a page, the rows of its tables by their captions, and the text alternatives of its pictures."""

    def __init__(self, octets):
        super().__init__()
        self.text, self.tables, self.pictures, self.tags, self.within = "", {}, [], collections.Counter(), None
        self.feed(octets.decode())

    def handle_starttag(self, tag, attributes):
        self.tags[tag] += 1
        self.within = tag if tag in ("script", "style") else None if tag == "table" else self.within
        if tag == "svg":
            self.pictures.append(dict(attributes)["aria-label"])
        elif tag == "caption":
            self.caption = ""
        elif tag == "tr":
            self.row = []
        elif tag in ("td", "th"):
            self.row.append("")
        if tag in ("caption", "tr", "td", "th"):
            self.within = tag

    def handle_endtag(self, tag):
        if tag == "caption":
            self.tables.setdefault(self.caption, [])
        elif tag == "tr":
            self.tables[self.caption].append(self.row)
        if tag == self.within:
            self.within = None

    def handle_data(self, data):
        if self.within not in ("script", "style"):
            self.text += data
        if self.within == "caption":
            self.caption += data
        elif self.within in ("td", "th"):
            self.row[-1] += data


@unittest.skipIf(not libraries(), "there is no python3-jinja2 and python3-matplotlib")
class Report(OfDays):
    """The page, with its numbers, its words, and as a browser shows it."""

    def setUp(self):
        super().setUp()
        self.assertEqual(self.day(DATE)[0], 0)
        self.octets = self.of("report.html")
        self.page = Page(self.octets)

    def test_numbers(self):
        """Tables and pictures have the day's numbers, counted from the lines."""
        wanted = collections.Counter()
        for line in self.of("lines").decode().splitlines():
            row = Row(line)
            kind = {"pass u": "unmanaged", "pass l": "link upkeep"}.get(row.verdict[:6], "passed" if row.verdict[:4] == "pass" else "dropped")
            kind = "begun before the capture" if row.has(HUB) else "not known yet" if row.has("192.0.2.40") else kind
            wanted[f"{(row.second - START) // HOUR:02}:00", kind] += 1
        head, *rows = self.page.tables["Packets by hour, as the picture has them"]
        got = {(row[0], kind): int(number) for row in rows for kind, number in zip(head[1:], row[1:]) if number != "0"}
        self.note("the table of hours", dict(wanted), got)
        said = {(hour, kind): int(number) for hour, part in re.findall(r"(\d\d:00): ([^;]*)[;.]", self.page.pictures[0]) for number, kind in re.findall(r"(\d+) ([a-z ]+)", part)}
        self.note("the picture of hours", dict(wanted), said)
        self.holds("the worst hour", "The worst hour began at 03:00, with 100 dropped." in self.page.text)
        self.holds("the picture of who talks to whom", f"cams.example.com/camera and {OUTSIDE} ({OUTSIDE}): 100 dropped" in self.page.pictures[1], self.page.pictures[1])
        self.holds("a peer by its name", f"video.example.net ({VIDEO}): 62 passed" in self.page.pictures[1], self.page.pictures[1])

    def test_words(self):
        """Names that others chose come out as text, and what isn't proved is said."""
        for words in (HOLDER, "plugs.example.com/plug'&lt;b&gt;", '<from "1"> in the list from & list', "What is proved, and what isn't", "given by anna", "100 ports from 1 to 100 of the Thing"):
            self.holds(words, words in self.page.text)
        self.note("elements that nobody wrote", 0, self.page.tags["b"])
        self.holds("nothing is asked for elsewhere", not re.search(rb'(?:src|href)="(?!#)', self.octets) and b"url(http" not in self.octets)

    @needs("tidy")
    def test_form(self):
        ended = run("-q", "-e", os.path.join(self.path("days/" + DATE), "report.html"), program="tidy")
        self.note("tidy", (0, b""), (ended.status, ended.errors))

    @needs("chromium", "chromedriver")
    @unittest.skipIf(browser.selenium() is None, "there is no python3-selenium")
    def test_browser(self):
        """Tables sort, nothing is wider than the page, and pictures of it go to out/day."""
        with browser.alone() as driver:
            for name, dark in (("light", False), ("dark", True)):
                driver.execute_cdp_cmd("Emulation.setEmulatedMedia", {"features": [{"name": "prefers-color-scheme", "value": name}]})
                driver.get(f"file://{self.path('days')}/{DATE}/report.html")
                colour = driver.execute_script("return getComputedStyle(document.body).backgroundColor")
                self.note(f"the paper, {name}", "rgb(21, 24, 28)" if dark else "rgb(255, 255, 255)", colour)
                self.note(f"wider than the page, {name}", 0, driver.execute_script("return document.documentElement.scrollWidth - document.documentElement.clientWidth"))
                browser.shot_of(driver, "out/day", name)
            column = "return [...document.querySelectorAll('#hours tbody tr')].map(row => Number(row.children[2].textContent))"
            numbers = driver.execute_script(column)
            press = "document.querySelectorAll('#hours th button')[2].click()"
            driver.execute_script(press)
            self.note("sorted", sorted(numbers), driver.execute_script(column))
            driver.execute_script(press)
            self.note("and back", sorted(numbers, reverse=True), driver.execute_script(column))
            self.note("errors", [], driver.get_log("browser"))
            printed = driver.execute_cdp_cmd("Page.printToPDF", {})["data"]
            with open("out/day/report.pdf", "wb") as file:
                file.write(base64.b64decode(printed))


@needs("tcpdump")
@unittest.skipIf(os.geteuid() != 0 or not there_is("unshare"), "only root captures")
class Capturing(ProgramCase):
    def test_capture(self):
        """Files and counts come of an interface; the oldest go."""
        for name, size, ago in (("old.pcap", 10, 20 * 86400), ("large.pcap", 3000, 300), ("new.pcap", 3000, 200)):
            os.utime(self.put(name, bytes(size)), (time.time() - ago,) * 2)
        # what a machine left that stopped in the midst of a line
        self.put("lo.kernel", b"\0\0\0\n\n1796221000 5")
        script = 'ip link set lo up; "$@" & sleep 2; for n in 1 2 3; do echo x > /dev/udp/127.0.0.1/9; done; sleep 3; kill $!; wait $!'
        words = ["--net", "bash", "-c", script, "bash", os.path.abspath("contrib/capture"), "--every", "1", "--days", "14", "--gigabytes", "0.000005", "lo"]
        ended = run(*words, program="unshare", env={**os.environ, "MUD_CAPTURES": self.folder})
        self.note("status", 0, ended.status)
        found = [name for name in os.listdir(self.folder) if re.fullmatch(r"lo-\d{8}T\d{6}Z\.pcap", name)]
        self.note("files", 1, len(found))
        self.holds("packets", run("frames", input=self.path(found[0])).out.count(b" udp ") >= 3)
        rows = [line.split() for line in read("lo.kernel", self.folder).decode().splitlines()]
        self.holds("counts", sum(int(row[1]) for row in rows) >= 3 and all(row[2] == "0" for row in rows), rows)
        self.note("what stays", ["new.pcap"], sorted(name for name in ("old.pcap", "large.pcap", "new.pcap") if os.path.exists(self.path(name))))
        self.note("an interface that isn't there", 2, run("nowhere.9", program="contrib/capture").status)
