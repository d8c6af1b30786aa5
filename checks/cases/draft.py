"""Looks at the usage files that contrib/draft makes of captures: what the manager says of the same capture by them,
what is left out and told, what is new since an older file, and its time. Its reader of frames says what 'mud frames'
does."""
import json
import os
import random
import re
import resource
import subprocess

from checks import drafting, explaining, program, second_reading, texts
from checks.case import Case, ProgramCase, cases_of, needs
from checks.drafting import BEGIN, CAPTURES, DAY, DRAFT, MAC, OTHER, URL, Scene, drafted
from checks.program import read, run

HOUR = 3600
DAY_MICRO = ("--local", "192.0.2.0/24", "--local", "2001:db8::/64", "--local", "fe80::/10", "--dns", "192.0.2.1", "--ntp", "192.0.2.123")
TRUNK = ("--local", "192.0.2.0/24", "--local", "2001:db8::/64", "--local", "198.51.100.0/24")
# Things of captures that other software made: the capture, the hardware address, the words, and what the report says
CAPTURED = {
    "day": ("day-micro.pcap", MAC, DAY_MICRO, ["to port 443 (https) of test.example.com, if the Thing began", "its own port 80 (http)",
                                                "port 1900 (ssdp) of an address in 239.255.255.250/32"]),
    "second": ("day-micro.pcap", OTHER, DAY_MICRO, ["to port 80 (http) of test.example.com", "Left out of the file: 0."]),
    "part": ("day-part.pcapng", MAC, DAY_MICRO, ["In the file: "]),
    "saved": ("day-saved.pcapng", MAC, DAY_MICRO, ["port 443 (https)"]),
    "trunk": ("vlan-trunk.pcap", MAC, TRUNK, ["to port 80 (http) of an address in the local networks, if the Thing began"]),
    "served": ("vlan-trunk.pcap", OTHER, TRUNK, ["its own port 80 (http)"]),
    "third": ("vlan-trunk.pcap", "02:00:00:00:00:03", TRUNK, ["ICMP of type 8 (echo request)"]),
    "comments": ("trunk-comments.pcapng", MAC, TRUNK, ["port 80 (http)"]),
    "piped": ("trunk-piped.pcapng", OTHER, TRUNK, ["its own port 80 (http)"]),
    "interfaces": ("two-interfaces.pcapng", MAC, (*DAY_MICRO, *TRUNK), ["port 80 (http)"]),
}
MADE = [str(seed) for seed in range(12)]
PACKETS, SECONDS = 1000000, 30


class Drafts(ProgramCase):
    def judged(self, octets, file, options, macs=()):
        """The verdicts on a capture by a manager that was told of it and of the file."""
        store = self.path("store.db")
        program.clear_store(store)
        kept = run("replay", store, input=b"".join(drafting.requests_of(octets, file, options, macs)))
        refused = [answer.body for answer in program.answers(kept.out) if answer.status != 200]
        self.note("what the manager is told, refused", [], refused[:3])
        ended = run("judge", store, input=octets)
        lines = ended.out.decode().splitlines()
        self.note("judge, status", 3 if lines[-1].startswith("fault Cut ") else 0, ended.status)
        return [line.split(" ", 2)[2] for line in lines if not line.startswith("fault")]

    def looked_at(self, octets, *words, mac=MAC, macs=(), is_lean=True):
        """A draft that 'mud check' reads, and by which nothing of the Thing is dropped but what it says; its report, what
        it says of each packet, and the verdicts. Where it is lean, each entry decides a packet of the capture."""
        status, file, report = drafted(octets, *words, mac=mac)
        self.note("status", 0, status)
        self.note("mud check", 0, run("check", input=file).status)
        self.note("the same octets", file, drafted(octets, *words, mac=mac)[1])
        options = DRAFT.words_of([*words, mac, URL])
        verdicts, (fates, rows) = self.judged(octets, file, options, macs), drafting.fates(octets, options)
        self.note("a verdict for each packet", len(fates), len(verdicts))
        wrong = [(number, verdict, fate) for number, (verdict, fate) in enumerate(zip(verdicts, fates), 1)
                 if fate in ("kept", "default", "link") and verdict.startswith("drop")]
        self.note("dropped that is in the file", [], wrong[:3])
        if is_lean:
            entries = {(side, number) for row in rows for side, number in row.places.items()}
            deciding = {(side, int(number)) for verdict in verdicts for side, number in re.findall("(from|to)=accept:([0-9]+)", verdict)}
            self.note("entries that never decide", set(), entries - deciding - set(drafting.idle(rows)))
        self.note("let through that is unreadable", [], [row for row in zip(verdicts, fates) if row[1] == "unreadable" and row[0].startswith("pass")])
        return report, fates, verdicts


class Frames(Case):
    def told(self, what, octets):
        """The reader of captures says of each frame what 'mud frames' does."""
        lines = []
        for number, (second, frame) in enumerate(drafting.frames_of(octets), 1):
            packet = CAPTURES.Packet(frame)
            said = f"unreadable {packet.part}" if packet.part else "link" if packet.is_link else str(packet)
            lines.append(f"{number} {second} {said}")
        self.note(what, run("frames", input=octets).out.decode().splitlines(), lines)

    def test_captures(self):
        for path in texts.files("examples/captures/*.pcap", "examples/captures/*.pcapng"):
            self.told(path, read(path))

    def test_made(self):
        """Frames by chance, some of them cut, and some of which an octet is another one."""
        maker, pick = second_reading.Maker(7), random.Random(7)
        frames = [maker.frame() for _ in range(4000)]
        for at in range(0, len(frames), 2):
            octets = bytearray(frames[at])
            if octets:
                octets[pick.randrange(len(octets))] = pick.randrange(256)
            frames[at] = bytes(octets)
        self.told("made frames", program.capture([(BEGIN + at, frame) for at, frame in enumerate(frames)]))


@cases_of(CAPTURED)
class Captured(Drafts):
    """A case for each Thing of the repository's captures."""

    def each(self, name):
        path, mac, words, wanted = CAPTURED[name]
        octets = read("examples/captures/" + path)
        report, fates, verdicts = self.looked_at(octets, *words, mac=mac)
        for text in wanted:
            self.holds(text, text in report, report)
        others = {verdict for verdict, fate in zip(verdicts, fates) if fate is None}
        self.holds("others' packets", others <= {"pass unmanaged", "pass link"}, others)
        self.looked_at_others(octets, words, mac, fates)

    def looked_at_others(self, octets, words, mac, fates):
        """All that others send or receive among them is dropped where they are Things, too, for which no file speaks."""
        file, options = drafted(octets, *words, mac=mac)[1], DRAFT.words_of([*words, mac, URL])
        others = sorted({frame[6:12].hex(":") for _, frame in drafting.frames_of(octets)} - {mac})
        verdicts = self.judged(octets, file, options, [(other, URL + other.replace(":", "-")) for other in others])
        said = {verdict for verdict, fate in zip(verdicts, fates) if fate is None}
        self.holds("other Things' packets", {verdict.split()[0] for verdict in said - {"pass link"}} <= {"drop"}, said)


# all captures of the repository that have frames, and each Thing of them
ALL = {re.sub("[^a-z0-9]+", "_", path.partition("/")[2]): path for path in texts.files("examples/*/*.pcap", "examples/*/*.pcapng")}


@cases_of(ALL)
class Everything(Drafts):
    """A case for each capture of the repository, which makes a draft for each hardware address that sends in it."""

    def each(self, name):
        octets = read(ALL[name])
        try:
            frames = drafting.frames_of(octets)
        except CAPTURES.Unread as unread:
            self.note("a capture that can't be read", (1, b"", f"draft: {unread}\n"), drafted(octets))
            return
        said = run("frames", input=octets).out.decode().splitlines()
        if said[-1:] and said[-1].startswith("fault") and not said[-1].startswith("fault Cut"):
            self.holds("the manager doesn't read it, and so not its end", len(said) - 1 <= len(frames))
            return
        for mac in sorted({frame[6:12].hex(":") for _, frame in frames if len(frame) >= 12 and not frame[6] & 1}):
            self.looked_at(octets, *DAY_MICRO, mac=mac)


def week():
    """A week of a Thing: what it does each day, and what it did once, at night, by ports of management and as a scan."""
    scene = Scene(begin=BEGIN)
    for day in range(7):
        scene.now = BEGIN + day * DAY + 3 * HOUR
        scene.connect("203.0.113.80", 8443, own=54000 + day)
        for hour in (8, 13, 20):
            scene.now = BEGIN + day * DAY + hour * HOUR
            scene.name("cloud.example.net", "203.0.113.5", "203.0.113.6", "2001:db8:1::5")
            scene.connect("203.0.113.5", 443, own=50000 + day).wait(5).connect("203.0.113.6", 443, own=51000 + day)
            scene.connect("2001:db8:1::5", 443).wait(1).ask("192.168.1.1", 123).ask("8.8.8.8", 53)
            scene.connect("192.168.1.20", 1883, own=52000 + hour).wait(30).connect("192.168.1.30", 80, is_sent=False, own=40000 + hour)
            scene.connect("203.0.113.77", 8883, own=53000 + hour).connect("192.168.1.40", 22, is_sent=False, own=41000 + hour)
            scene.connect("198.51.100.9", 8081, is_sent=False, own=42000 + hour, answers=False)
            scene.put(True, "239.255.255.250", 17, drafting.udp(50000, 1900), far="01:00:5e:7f:ff:fa").ask("192.168.1.20", 5000, own=5000)
    scene.wait(HOUR).connect("203.0.113.99", 6667).wait(3)
    for last in range(100, 140):
        scene.connect(f"192.168.1.{last}", 8080, answers=False, own=55000 + last)
    return scene


class Reasons(Drafts):
    def test_week(self):
        """What is left out of a week, with its reasons; then what is asked for."""
        octets = week().octets()
        report, fates, verdicts = self.looked_at(octets, "--dns", "192.168.1.1", "--ntp", "192.168.1.1", "--controller", "192.168.1.20")
        left = dict(re.findall(r"(?m)^[0-9]+: The Thing may not (.*)\.\n    Left out: (.*?)\. Number", report))
        self.note("left out", {
            "send TCP over IPv4 from any port of its own to port 6667 of an address in 203.0.113.99/32, if the Thing began the connection": "seen once",
            "send TCP over IPv4 from any port of its own to port 8080 (http-alt) of an address in the local networks, if the Thing began "
            "the connection": "seen once, part of a scan of many addresses or ports, always refused",
            "send TCP over IPv4 from any port of its own to port 8443 of an address in 203.0.113.80/32, if the Thing began the connection": "at night alone",
            "send TCP over IPv4 from its own port 22 (ssh) to any port of an address in the local networks, if the other side began "
            "the connection": "a port of management",
            "send TCP over IPv4 from its own port 8081 to any port of an address in 198.51.100.9/32, if the other side began the connection":
            "always refused"}, left)
        self.note("all of it is dropped", {"drop"}, {verdict.split()[0] for verdict, fate in zip(verdicts, fates) if fate == "left"})
        for text in ("Seen 42 times, in 294 packets, from 2027-01-15 08:00:00", "on 7 of 7 days", "an address bound as its own controller (my-controller)",
                     "No --dns names this server (8.8.8.8)", "over IPv6 from any port of its own to port 443 (https) of cloud.example.net",
                     "Without a name: 8.8.8.8, 198.51.100.9, 203.0.113.77, 203.0.113.80, 203.0.113.99."):
            self.holds(text, text in report, report)
        words = [word for reason in DRAFT.REASONS for word in ("--with", reason)]
        report, fates, verdicts = self.looked_at(octets, *words, "--dns", "192.168.1.1", "--ntp", "192.168.1.1")
        self.holds("all is asked for", "Left out of the file: 0." in report and "It was asked for: a port of management." in report, report)
        self.note("all passes", {"pass"}, {verdict.split()[0] for verdict in verdicts})

    def test_number(self):
        """One thing is asked for by its number, and the others keep theirs."""
        octets = week().octets()
        before = drafted(octets)[2]
        number = re.search(r"(?m)^([0-9]+): .* port 22 \(ssh\)", before)[1]
        after = drafted(octets, "--with", number)[2]
        self.note("left out", set(re.findall(r"(?m)^([0-9]+): ", before)) - {number}, set(re.findall(r"(?m)^([0-9]+): ", after)))

    def test_short(self):
        """Of a shorter capture nothing is left out for its time."""
        scene = Scene(begin=BEGIN + 2 * HOUR).connect("203.0.113.5", 443).wait(17 * HOUR).connect("203.0.113.6", 443)
        self.holds("seventeen hours", "Left out of the file: 0." in drafted(scene.octets())[2])
        scene.wait(2 * HOUR).connect("203.0.113.6", 443)
        self.holds("nineteen hours", "Left out of the file: 0." in drafted(scene.octets())[2])
        scene.wait(2 * HOUR).connect("203.0.113.6", 443)
        self.holds("twenty-one hours", "Left out of the file: 1." in drafted(scene.octets())[2])

    def test_scan_of_ports(self):
        """One address tries many ports of the Thing."""
        scene = Scene()
        for port in range(1000, 1040):
            scene.connect("192.168.1.66", port, is_sent=False, own=40000, answers=port == 1010)
        report = self.looked_at(scene.octets())[0]
        self.holds("an open port", re.search(r"own port 1010 .*\n    Left out: part of a scan of many addresses or ports\. ", report), report)
        self.holds("all", "In the file: 0." in report and "Left out of the file: 40." in report)


    def test_scan_of_addresses(self):
        """Many addresses at one port are told together, and of a scan of more than are told apart the rest is one row."""
        scene = Scene().connect("203.0.113.5", 443)
        for last in range(40):
            scene.put(True, f"198.51.100.{last}", 6, drafting.tcp(50001, 81, 2))
        report = self.looked_at(scene.octets())[0]
        told = r"198\.51\.100\.0/32.*\n    Left out: part of a scan.* The same of 39 more addresses, in 39 packets: numbers "
        self.holds("told together", re.search(told, report), report)
        self.note("rows", 1, report.count("to port 81 "))
        for at in range(70000):
            scene.put(True, f"100.{64 + (at >> 16)}.{at >> 8 & 255}.{at & 255}", 6, drafting.tcp(50002, 82, 2))
        scene.name("late.example.net", "100.66.0.1", "100.66.0.2").connect("100.66.0.1", 443, own=1).connect("100.66.0.2", 443, own=2)
        words = ("--dns", "192.168.1.1", "--with", "scan", "--with", "unanswered", "--with", "once")
        report = drafted(scene.octets(), *words)[2]
        rest = re.compile(r"(?m)^([0-9]+): .* to port 82 of any address, .*\n    Left out: .*one of more addresses than are told apart\.")
        self.holds("the rest", rest.search(report), report[-3000:])
        self.holds("the rest by its number", rest.search(drafted(scene.octets(), *words, "--with", rest.search(report)[1])[2]))
        self.holds("a name", re.search(r"(?m)^from .* of late\.example\.net, if.*\n    Seen 2 times", report), report[-3000:])


class Meanings(Drafts):
    def test_names(self):
        """A name that is told after the first packet, two names of one address, and a name that is none."""
        scene = Scene().connect("203.0.113.5", 443, own=1).name("early.example.net", "203.0.113.5").connect("203.0.113.5", 443, own=2)
        scene.name("later.example.net", "203.0.113.5").connect("203.0.113.5", 443, own=3)
        scene.name("bad-.example.net", "203.0.113.6").connect("203.0.113.6", 443, own=4)
        scene.name("far.example.net", "203.0.113.7", server="9.9.9.9").connect("203.0.113.7", 443, own=5)
        report = self.looked_at(scene.octets(), "--dns", "192.168.1.1", is_lean=False)[0]
        peers = re.findall(r"(?m)^from.* to port 443 \(https\) of (.*), if", report)
        self.note("peers", ["early.example.net", "later.example.net", "an address in 203.0.113.6/32", "an address in 203.0.113.7/32"], peers)
        self.holds("the times", re.search("of early.*\n    Seen 2 times", report) and re.search("of later.*\n    Seen once", report), report)
        self.holds("the server", "names are those of the DNS answers of 192.168.1.1." in report, report)

    def test_peers(self):
        """Each address of local peers and of a name is told, and what others began is marked."""
        scene = Scene().connect("192.168.1.66", 80, is_sent=False).connect("192.168.1.7", 80, is_sent=False, own=50001)
        scene.put(False, "192.168.1.66", 1, b"\x08\0\0\0").put(True, "192.168.1.66", 1, b"\0\0\0\0").put(True, "192.168.1.66", 1, b"\3\3\0\0")
        scene.name("a.example.net", "203.0.113.5").connect("203.0.113.5", 443).put(True, "192.168.1.8", 1, b"\x08\0\0\0")
        report = self.looked_at(scene.octets(), "--dns", "192.168.1.1")[0]
        others, answers = " Others began it: see that you know them.", " It answers what others sent: see that you know them."
        nothing = " It quotes nothing that was seen."
        for what, peers, mark in (("its own port 80", "192.168.1.7, 192.168.1.66", others), ("receive ICMP of type 8", "192.168.1.66", others),
                                  ("send ICMP of type 0", "192.168.1.66", answers), ("send ICMP of type 3", "192.168.1.66", nothing),
                                  ("send ICMP of type 8", "192.168.1.8", ""), ("port 443", "203.0.113.5", "")):
            said = re.search(rf"(?m)^.*{what} .*\n.*? With ([^ ].*?)\.( Others.*| It .*|)$", report)
            self.note(what, (peers, mark), said and said.groups())

    def test_servers(self):
        """The servers of the defaults that were used are told; of the file it isn't said that a maker supports the Thing."""
        octets = Scene().name("a.example.net", "203.0.113.5").connect("203.0.113.5", 443).octets()
        report = self.looked_at(octets, "--dns", "192.168.1.1", "--dns", "192.168.1.2", "--ntp", "192.168.1.1")[0]
        self.holds("servers", "by the defaults: for DNS 192.168.1.1; for NTP none." in report, report)
        head = explaining.explained(drafted(octets)[1])["head"]
        self.note("support", [False, True], [any(text in line for line in head) for text in ("still supports", "no maker says")])

    def test_groups(self):
        """What others send to groups isn't read, and that is said."""
        report = self.looked_at(Scene().connect("203.0.113.5", 443).octets())[0]
        self.holds("groups", "What others send to groups or to all isn't read" in report, report)

    def test_remarks(self):
        """A broadcast, a renewal of a lease, and segments behind a reset have words of their own."""
        scene = Scene().put(True, "192.168.1.255", 1, b"\x08\0\0\0", far="ff:ff:ff:ff:ff:ff").put(True, "224.0.0.22", 2, bytes(8), far="01:00:5e:00:00:16")
        scene.put(True, "192.168.1.1", 17, drafting.udp(68, 67)).connect("203.0.113.5", 443, end=4)
        report = self.looked_at(scene.octets())[0]
        for what, said in (("192.168.1.255/32", "It was sent as a broadcast."), ("port 67", "It renews or releases a lease;"),
                           ("port 443", "or behind their reset or two hours of silence, 1 packet, which")):
            self.holds(what, re.search(rf"(?m)^.*{what}.*\n.* {said}", report), report)
        self.note("one broadcast", 1, report.count("broadcast"))

    def test_connections(self):
        """What no SYN began, what comes behind a reset or a long silence, and what has no SYN at all."""
        scene = Scene().connect("203.0.113.5", 443, own=50001).connect("203.0.113.5", 443, own=50002, begins=False)
        scene.connect("203.0.113.5", 443, own=50003, end=4).put(False, "203.0.113.5", 6, drafting.tcp(443, 50003, 4))
        scene.connect("203.0.113.5", 443, own=50004).wait(7440).put(True, "203.0.113.5", 6, drafting.tcp(50004, 443, 16))
        scene.wait(7441).put(True, "203.0.113.5", 6, drafting.tcp(50004, 443, 16)).connect("203.0.113.6", 9000, own=50005, begins=False)
        report, fates, verdicts = self.looked_at(scene.octets())
        self.note("strays", 5 + 2 + 1, fates.count("stray"))
        self.note("they are dropped", {"drop"}, {verdict.split()[0] for verdict, fate in zip(verdicts, fates) if fate == "stray"})
        self.holds("told", re.search("Of connections whose first SYN isn't in the capture.*: 8 packets", report), report)
        wanted = r"port 9000 of an address in 203.0.113.6/32, whoever began the connection\.\n.*Nobody was seen to begin it"
        self.holds("open", re.search(wanted, report), report)

    def test_fragments(self):
        """Later fragments and frames that can't be read are counted."""
        scene = Scene().ask("203.0.113.5", 7000).put(True, "203.0.113.5", 17, bytes(32), fragment=4).put(True, "203.0.113.5", 6, bytes(8))
        report, fates, _ = self.looked_at(scene.octets())
        self.note("fates", ["kept", "kept", "fragment", "unreadable"], fates)
        self.holds("told", re.search("Later fragments.*: 1 packet\\.", report) and re.search("can't be read.*: 1 packet\\.", report), report)
        self.holds("of another packet", "later fragment of its packets" not in report, report)

    def test_pieces(self):
        """Later fragments are told beside what their first one belongs to, of both IP versions."""
        scene = Scene().put(True, "203.0.113.5", 17, drafting.udp(50000, 7000, bytes(24)), fragment=0x2000)
        scene.put(True, "203.0.113.5", 17, bytes(32), fragment=0x2004).put(True, "203.0.113.5", 17, bytes(32), fragment=8)
        for place, data in ((1, drafting.udp(50000, 7001, bytes(24))), (4 << 3, bytes(32))):
            scene.put(True, "2001:db8:1::5", 44, bytes([17, 0]) + place.to_bytes(2, "big") + b"\0\0\0\x09" + data)
        report, fates, verdicts = self.looked_at(scene.octets())
        self.note("fates", ["kept", "fragment", "fragment", "kept", "fragment"], fates)
        self.note("they are dropped", ["pass", "drop", "drop", "pass", "drop"], [verdict.split()[0] for verdict in verdicts])
        for port, said in ((7000, "Beside it 2 later fragments of its packets,"), (7001, "Beside it 1 later fragment of its packets,")):
            self.holds(said, re.search(rf"(?m)^.*port {port} .*\n.* {said}", report), report)

    def test_vlans(self):
        """Frames with VLAN tags are as those without, and are told."""
        scene = Scene().name("a.example.net", "203.0.113.5").connect("203.0.113.5", 443)
        plain = drafted(scene.octets())
        self.holds("without", "VLAN" not in plain[2], plain[2])
        scene.packets = [(second, drafting.tagged(frame, *((7,) if at % 2 else (100, 7)))) for at, (second, frame) in enumerate(scene.packets)]
        report = self.looked_at(scene.octets())[0]
        self.note("the same file", plain[1], drafted(scene.octets())[1])
        told = f"With VLAN tags (of 7, 100), which the manager passes over, so no entry asks for them: {len(scene.packets)} packets."
        self.holds("told", told in report, report)

    def test_another(self):
        """What another Thing with the same file does is dropped."""
        scene, other = week(), Scene(OTHER, "192.168.1.11", "2001:db8::11")
        for hour in range(4):
            other.now = BEGIN + hour * HOUR
            other.name("other.example.org", "198.51.100.80", server="192.168.1.2").connect("198.51.100.80", 443, own=hour).connect("203.0.113.5", 80)
            other.connect("192.168.1.30", 23).connect("192.168.1.30", 8000, is_sent=False).ask("203.0.113.5", 443).put(True, "192.168.1.30", 1, b"\x08\0\0\0")
        octets = program.capture(sorted(scene.packets + other.packets, key=lambda row: row[0]))
        _, fates, verdicts = self.looked_at(octets, "--dns", "192.168.1.1", "--ntp", "192.168.1.1", macs=[(OTHER, URL)])
        others = [verdict for verdict, fate in zip(verdicts, fates) if fate is None]
        self.note("its packets", len(other.packets), len(others))
        self.note("they are dropped", {"drop"}, {verdict.split()[0] for verdict in others})

    def test_controllers(self):
        scene = Scene().connect("192.168.1.20", 1883).connect("192.168.1.21", 8883).connect("203.0.113.9", 443)
        words = ("--controller", "192.168.1.20", "--controller", "192.168.1.21=urn:example:hub", "--controller", "203.0.113.9=urn:example:cloud")
        report = self.looked_at(scene.octets(), *words)[0]
        for text in ("port 1883 (mqtt) of an address bound as its own controller", 'of an address of the class "urn:example:hub"', '"urn:example:cloud"'):
            self.holds(text, text in report, report)

    def test_most(self):
        """Of 150 names those that were seen most stand in the file."""
        scene = Scene()
        for at in range(150):
            scene.name(f"n{at:03}.example.net", f"203.0.113.{at}")
            for own in range(2 if at % 5 else 1):
                scene.connect(f"203.0.113.{at}", 443, own=own)
        report = self.looked_at(scene.octets(), "--dns", "192.168.1.1")[0]
        self.holds("128", "In the file: 128." in report and "Left out of the file: 22." in report, report[:300])
        rare = re.findall(r"(?m)^[0-9]+: .* of n([0-9]+)\.example\.net.*\n    Left out: the rarest", report)
        self.note("the rarest", set(), {int(at) % 5 for at in rare} - {0})
        long = Scene()
        for at in range(128):
            name = ".".join([f"{at:03}" + "x" * 58] * 4)
            long.name(name, f"203.0.113.{at}").connect(f"203.0.113.{at}", 443)
        self.looked_at(long.octets(), "--dns", "192.168.1.1")

    def test_against(self):
        """What is new since an older file, and what of that wasn't seen."""
        tests = {"ipv4": {"ietf-acldns:dst-dnsname": "cloud.example.net"}, "tcp": {"destination-port": {"port": 443}}}
        back = {"ipv4": {"ietf-acldns:src-dnsname": "cloud.example.net"}}
        unseen = {"ipv4": {"ietf-acldns:dst-dnsname": "gone.example.net"}}
        old = self.put("old.json", explaining.octets_of(explaining.usage_file(
            [("from", 4, [explaining.ace("a", tests), explaining.ace("b", unseen)]), ("to", 4, [explaining.ace("c", back)])], URL)))
        scene = Scene().name("cloud.example.net", "203.0.113.5").connect("203.0.113.5", 443, own=1).connect("203.0.113.5", 8883, own=2)
        report = self.looked_at(scene.octets(), "--dns", "192.168.1.1", "--against", old)[0]
        self.holds("known", not re.search(r"port 443 .*\n.*New", report) and "port 443" in report, report)
        self.holds("new", re.search(r"port 8883 .*\n.*New: the older file doesn't allow it", report), report)
        self.holds("unseen", re.search(r"allows what wasn't seen:\nfrom 2: The Thing may send any packet over IPv4 to gone\.example\.net\.\n", report), report)
        again = self.put("again.json", drafted(scene.octets(), "--dns", "192.168.1.1")[1])
        report = drafted(scene.octets(), "--dns", "192.168.1.1", "--against", again)[2]
        self.holds("nothing", "New:" not in report and "All that" in report, report)


@cases_of(MADE)
class Chance(Drafts):
    """A case for each of some captures that are made by chance."""

    def each(self, seed):
        pick, scene = random.Random(int(seed)), Scene(begin=BEGIN + 5 * HOUR)
        peers = ["203.0.113.5", "203.0.113.6", "192.168.1.20", "192.168.1.21", "2001:db8:1::5", "fe80::20", "224.0.0.251", "ff02::fb"]
        ports = [53, 80, 123, 443, 5000, 40000, 60000]
        for _ in range(500):
            peer, port, own, side, kind = pick.choice(peers), pick.choice(ports), pick.choice(ports), pick.random() < 0.7, pick.random()
            scene.wait(pick.choice([0, 0, 0, 1, 30, 900, 4000, 8000]))
            if peer in ("224.0.0.251", "ff02::fb"):
                scene.put(True, peer, *pick.choice([(17, drafting.udp(own, port)), (2, bytes(8)), (58, b"\x8f\0\0\0")]), far="33:33:00:00:00:fb")
            elif kind < 0.4:
                scene.connect(peer, port, side, own, pick.choice([17, 4]), pick.random() < 0.8, pick.random() < 0.8)
            elif kind < 0.6:
                scene.ask(peer, port, own, side, pick.random() < 0.7)
            elif kind < 0.7:
                scene.put(side, peer, 6, drafting.tcp(port, own, pick.choice([2, 16, 18, 4, 17, 20])))
            elif kind < 0.8:
                scene.put(side, peer, pick.choice([1, 58, 47, 2]), bytes([pick.choice([0, 3, 8, 128]), 0, 0, 0]))
            elif kind < 0.9:
                scene.put(side, peer, 17, drafting.udp(own, port), fragment=pick.choice([0, 8]) if ":" not in peer else 0)
            else:
                name, server = pick.choice(["a.example.net", "b.example.net"]), pick.choice(["192.168.1.1", "203.0.113.6"])
                scene.name(name, pick.choice(peers[:2] + peers[4:5]), server=server)
        words = ("--dns", "192.168.1.1", *pick.choice([(), ("--controller", "192.168.1.20"), ("--ntp", "192.168.1.21"), ("--with", "once", "--with", "night")]))
        _, fates, _ = self.looked_at(scene.octets(), *words, is_lean=False)
        self.holds("kept, strays and what is left to the defaults", {"kept", "stray", "default"} <= set(fates), set(fates))


def refusing():
    """A Thing whose peers refuse by resets and by errors of ICMP, don't answer, or answer at last."""
    scene, mine, lamp, gate = Scene(), "192.168.1.10", "192.168.1.30", "192.168.1.1"
    scene.connect("203.0.113.5", 81, answers=False).put(True, "203.0.113.5", 6, drafting.tcp(50001, 82, 2)).connect("203.0.113.5", 443)
    scene.connect("203.0.113.5", 83, answers=False).wait(9).connect("203.0.113.5", 83, own=50002)
    scene.put(True, "203.0.113.6", 6, drafting.tcp(50003, 84, 2))
    scene.put(False, gate, 1, drafting.error(3, 1, mine, "203.0.113.6", 6, drafting.tcp(50003, 84, 2)))
    scene.put(True, lamp, 17, drafting.udp(50004, 9)).put(False, lamp, 1, drafting.error(3, 3, mine, lamp, 17, drafting.udp(50004, 9), cut=0))
    scene.put(True, lamp, 17, drafting.udp(50004, 10)).put(False, lamp, 1, drafting.error(3, 3, mine, lamp, 17, drafting.udp(50004, 10)))
    scene.put(True, "2001:db8::5", 17, drafting.udp(50004, 11))
    scene.put(False, "2001:db8::1", 58, drafting.error(1, 4, "2001:db8::10", "2001:db8::5", 17, drafting.udp(50004, 11)))
    scene.put(True, "203.0.113.8", 1, b"\x08\0\0\0\0\1\0\1")
    scene.put(False, gate, 1, drafting.error(3, 1, mine, "203.0.113.8", 1, b"\x08\0\0\0\0\1\0\1"))
    # a ping that is answered at last, and a reset of what nobody was seen to begin
    scene.put(True, "2001:db8::8", 58, b"\x80\0\0\0\0\1\0\1").put(False, "2001:db8::8", 58, b"\x81\0\0\0\0\1\0\1")
    scene.put(False, "2001:db8::1", 58, drafting.error(1, 3, "2001:db8::10", "2001:db8::8", 58, b"\x80\0\0\0\0\1\0\1"))
    scene.put(False, "203.0.113.11", 6, drafting.tcp(85, 50007, 20))
    scene.put(False, lamp, 17, drafting.udp(50005, 5000)).put(True, lamp, 1, drafting.error(3, 3, lamp, mine, 17, drafting.udp(50005, 5000)))
    return scene.put(True, "203.0.113.9", 17, drafting.udp(50006, 514))


class Refusals(Drafts):
    def test_refused(self):
        """What was only ever refused, or a connection that nobody answered, is left out; what is sent without an answer isn't."""
        report, fates, _ = self.looked_at(refusing().octets())
        reset, unreachable, silent = " It was refused by a reset,", " It was refused by an error of ICMP,", " No answer was seen."
        for what, reason, said in (("port 81 ", "always refused", reset), ("port 82 ", "never answered", silent), ("port 83 ", None, None),
                                   ("port 84 ", "always refused", unreachable), ("port 9 ", None, silent), ("port 10 ", "always refused", unreachable),
                                   ("port 11 ", "always refused", unreachable), ("type 8 ", "always refused", unreachable),
                                   ("type 128 ", None, None), ("port 85 ", "always refused", reset),
                                   ("its own port 5000 ", "always refused", unreachable), ("port 514 ", None, silent), ("port 443 ", None, None)):
            row = re.search(rf"(?m)^.*{what}.*\n    (?:Left out: (.*?)\. Number [0-9]+\. )?(.*)$", report)
            told = [text for text in (reset, unreachable, silent) if text in row[2]]
            self.note(what, (reason, [said] if said else []), (row[1], told))
        # the segments to port 81, 82, 84 and of 85, what went to 10, 11 and 5000, a ping, and seven errors
        self.note("packets that are left out", 2 + 1 + 1 + 1 + 3 + 1 + 7, fates.count("left"))

    def test_errors(self):
        """An error is tied to what it quotes, and has no entry of its own unless it is asked for."""
        octets = refusing().octets()
        file, report = drafted(octets)[1:]
        # that a ping is sent and answered stands in the file, and nothing else of ICMP
        self.note("types in the file", ["128", "129"], re.findall('"type": ([0-9]+)', file.decode()))
        numbers = dict(re.findall(r"(?m)^([0-9]+): The Thing may not (.*)$", report))
        for number, words in numbers.items():
            if "(destination unreachable)" not in words:
                continue
            quoted = re.search(rf"(?m)^{number}: .*\n    Left out: an error of ICMP\. .* What it quotes: (.*?)\.$", report)
            if quoted[1].startswith(("from", "to")):
                told = rf"(?m)^{quoted[1]}: .* of type 128 .*\n.* Errors of ICMP quote it: number {number}\."
                self.holds("or what is in the file", re.search(told, report), quoted[1])
                continue
            places = re.findall("number ([0-9]+)", quoted[1])
            self.holds("it quotes what is left out", places and all(place in numbers for place in places), quoted[1])
            for place in places:
                self.holds("and that says so", re.search(rf"(?m)^{place}: .*\n.* Errors of ICMP quote it: .*number {number}\b", report), place)
        report = self.looked_at(octets, "--with", "error", "--with", "refused", "--with", "unanswered", is_lean=False)[0]
        self.holds("asked for", "Left out of the file: 0." in report and "It was asked for: an error of ICMP." in report, report)

    def test_kinds(self):
        """Time exceeded and redirects are left out, what the defaults let through and nothing at all is quoted, too."""
        mine, gate, ask = "192.168.1.10", "192.168.1.1", drafting.udp(50000, 53)
        scene = Scene().ask(gate, 53).connect("203.0.113.5", 443, own=50001)
        scene.put(True, gate, 1, drafting.error(3, 3, gate, mine, 17, drafting.udp(53, 50000)))
        scene.put(False, gate, 1, drafting.error(11, 0, mine, "203.0.113.5", 6, drafting.tcp(50001, 443, 24)))
        scene.put(False, gate, 1, drafting.error(5, 1, mine, "203.0.113.99", 6, drafting.tcp(50001, 443, 24)))
        scene.put(False, "2001:db8::1", 58, drafting.error(3, 0, "2001:db8::10", "2001:db8::9", 17, ask)).put(False, gate, 1, b"\x0c\0\0\0")
        report = self.looked_at(scene.octets(), "--dns", gate)[0]
        self.note("in the file", ["from 1, to 1"], re.findall("(?m)^((?:from|to) [0-9].*?):", report))
        for what, quoted in (("send ICMP of type 3 ", "what is left to the defaults"), ("receive ICMP of type 11 ", "from 1, to 1"),
                             ("receive ICMP of type 5 ", "nothing that was seen"), ("receive ICMPv6 of type 3 ", "nothing that was seen"),
                             ("receive ICMP of type 12 ", "nothing that was seen")):
            said = re.search(rf"(?m)^[0-9]+: The Thing may not {what}.*\n    Left out: an error of ICMP\. .* (?:What it quotes:|It quotes) (.*?)\.$", report)
            self.note(what, quoted, said and said[1])

    def test_too_large(self):
        """What says that a packet is too large for its way comes into the file with what it quotes, and only so."""
        mine, way = "192.168.1.10", "203.0.113.1"
        scene = Scene().connect("203.0.113.5", 443, own=50001).connect("203.0.113.5", 22, own=50002).connect("2001:db8:1::5", 443, own=50003)
        scene.put(False, way, 1, drafting.error(3, 4, mine, "203.0.113.5", 6, drafting.tcp(50001, 443, 24)))
        scene.put(False, "203.0.113.2", 1, drafting.error(3, 4, mine, "203.0.113.5", 6, drafting.tcp(50002, 22, 24)))
        scene.put(False, "2001:db8:2::1", 58, drafting.error(2, 0, "2001:db8::10", "2001:db8:1::5", 6, drafting.tcp(50003, 443, 24)))
        scene.put(False, "203.0.113.3", 1, drafting.error(3, 4, mine, "203.0.113.77", 6, drafting.tcp(50001, 443, 24)))
        scene.ask("203.0.113.53", 53).put(False, "203.0.113.4", 1, drafting.error(3, 4, mine, "203.0.113.53", 17, drafting.udp(50000, 53)))
        octets = scene.wait(2 * DAY).connect("203.0.113.5", 443, own=50001).connect("2001:db8:1::5", 443, own=50003).octets()
        for words, left in (((), {"203.0.113.2", "203.0.113.3"}), (("--with", "management", "--with", "once"), {"203.0.113.3"}),
                            (("--with", "error"), {"203.0.113.2"})):
            report = self.looked_at(octets, "--dns", "203.0.113.53", *words)[0]
            self.note(" ".join(words), left, set(re.findall(r"(?m)^[0-9]+: .* of type 3 .*in (.*)/32\.$", report)))
            told = r"(?m)^to [0-9]+: .* of type 3 .* in 203\.0\.113\.4/32\.\n.* What it quotes: what is left to the defaults"
            self.holds("of the defaults", re.search(told, report), report)
            self.holds("its IPv6", re.search(r"(?m)^to [0-9]+: .* of type 2 .* in 2001:db8:2::1/128\.\n.* is told what is too large", report), report)


class Directions(Drafts):
    def test_file(self):
        """The file of a Thing, as an object."""
        scene = Scene().name("cloud.example.net", "203.0.113.5").connect("203.0.113.5", 443).ask("203.0.113.5", 7000, own=50001)
        scene.connect("192.168.1.30", 80, is_sent=False).put(True, "192.168.1.30", 17, drafting.udp(50002, 514))
        scene.put(True, "224.0.0.251", 17, drafting.udp(5353, 5353), far="01:00:5e:00:00:fb")
        scene.put(True, "2001:db8:1::5", 58, b"\x80\0\0\0").put(False, "2001:db8:1::5", 58, b"\x81\0\0\0")
        status, octets, _ = drafted(scene.octets(), "--dns", "192.168.1.1")
        file = json.loads(octets)
        mud, lists = file["ietf-mud:mud"], file["ietf-access-control-list:acls"]["acl"]
        head = [mud[name] for name in ("mud-version", "mud-url", "last-update", "cache-validity")]
        self.note("its head", (0, [1, URL, "2027-01-15T00:00:00Z", 168]), (status, head))
        matches = {each["name"]: [ace["matches"] for ace in each["aces"]["ace"]] for each in lists}
        policy = {side: [row["name"] for row in mud[side + "-device-policy"]["access-lists"]["access-list"]] for side in ("from", "to")}
        local, begun, other = ({"ietf-mud:mud": {"local-networks": [None]}}, *({"ietf-mud:direction-initiated": side + "-device"} for side in ("from", "to")))

        def port(side, number):
            return {side + "-port": {"operator": "eq", "port": number}}

        def name(side, protocol):
            return {f"ietf-acldns:{side}-dnsname": "cloud.example.net", "protocol": protocol}

        self.note("from the Thing", [
            {"ipv4": {"destination-ipv4-network": "224.0.0.251/32", "protocol": 17}, "udp": port("destination", 5353)},
            {**local, "ipv4": {"protocol": 6}, "tcp": {**port("source", 80), **other}},
            {**local, "ipv4": {"protocol": 17}, "udp": port("destination", 514)},
            {"ipv4": name("dst", 6), "tcp": {**port("destination", 443), **begun}},
            {"ipv4": name("dst", 17), "udp": port("destination", 7000)},
            {"ipv6": {"destination-ipv6-network": "2001:db8:1::5/128", "protocol": 58}, "icmp": {"type": 128, "code": 0}}],
            [each for one in policy["from"] for each in matches[one]])
        self.note("to the Thing", [
            {**local, "ipv4": {"protocol": 6}, "tcp": {**port("destination", 80), **other}},
            {"ipv4": name("src", 6), "tcp": {**port("source", 443), **begun}},
            {"ipv4": name("src", 17), "udp": port("source", 7000)},
            {"ipv6": {"source-ipv6-network": "2001:db8:1::5/128", "protocol": 58}, "icmp": {"type": 129, "code": 0}}],
            [each for one in policy["to"] for each in matches[one]])
        self.note("what it does", {"accept"}, {ace["actions"]["forwarding"] for each in lists for ace in each["aces"]["ace"]})

    def test_asked_for(self):
        """A direction in which nothing was seen has no entry: of a log, of the renewal of a lease, and of a DHCP server."""
        scene = Scene().put(True, "203.0.113.9", 17, drafting.udp(50006, 514)).put(True, "192.168.1.1", 17, drafting.udp(68, 67))
        scene.put(False, "192.168.1.1", 17, drafting.udp(67, 68, drafting.leased()))
        report = self.looked_at(scene.octets())[0]
        self.note("entries", ["from 1", "from 2"], re.findall("(?m)^((?:from|to) [0-9].*?):", report))
        scene = Scene().put(False, "192.168.1.20", 17, drafting.udp(68, 67)).put(True, "192.168.1.20", 17, drafting.udp(67, 68, drafting.leased()))
        report = self.looked_at(scene.octets())[0]
        self.note("a server's", ["to 1"], re.findall("(?m)^((?:from|to) [0-9].*?):", report))
        self.holds("only sent", "nothing that the Thing received" not in report, report)
        report = self.looked_at(Scene().put(True, "203.0.113.9", 17, drafting.udp(50006, 514)).octets())[0]
        self.holds("nothing received", "The capture has nothing that the Thing received" in report, report)

    def test_both_ports(self):
        """UDP between two ports alone, which either side began, needs one entry in a direction."""
        scene = Scene().ask("192.168.1.30", 5353, own=5353).wait(9).ask("192.168.1.31", 5353, own=5353, is_sent=False)
        scene.ask("192.168.1.32", 5683, own=5684).ask("192.168.1.33", 5684, own=5683, is_sent=False)
        report = self.looked_at(scene.octets())[0]
        self.holds("two rows", "In the file: 2." in report and "Left out of the file: 0." in report, report)
        scene.ask("192.168.1.34", 5353, own=50000).ask("192.168.1.34", 5353, own=50000, is_sent=False)
        self.holds("another port", "In the file: 3." in self.looked_at(scene.octets())[0], report)

    def test_one_sided(self):
        """What goes on behind the first segment was answered, also where the capture has one direction."""
        scene = Scene().connect("203.0.113.5", 443)
        scene.packets = [row for row in scene.packets if row[1][6:12] == bytes.fromhex(MAC.replace(":", ""))]
        report = self.looked_at(scene.octets(), is_lean=False)[0]
        self.holds("in the file", "In the file: 1." in report and "No answer" not in report, report)


class Words(Drafts):
    def test_words(self):
        octets = Scene().connect("203.0.113.5", 443).octets()
        for words in (["--with", "often"], ["--local", "nowhere"], ["--dns", "192.168.1"], ["--controller", "192.168.1.1="], ["--controlle", "192.168.1.1"]):
            self.note(" ".join(words), 2, drafted(octets, *words)[0])
        self.note("no hardware address", 2, drafted(octets, mac="02:00:00:00:00")[0])
        self.note("a Thing that isn't there", (1, b"", f"draft: the capture has nothing of {OTHER}\n"), drafted(octets, mac=OTHER))
        self.note("a message", 1, drafted(read("examples/dhcp/made-lease.bin"))[0])
        self.note("nothing", 1, drafted(b"")[0])
        self.note("an older file that is refused", 1, drafted(octets, "--against", "examples/usage-files/made-list.json")[0])
        status, file, report = drafted(octets[:-3])
        self.note("a capture that is cut", (0, True), (status, "ends in the midst of a packet" in report))
        self.note("mud check of it", 0, run("check", input=file).status)
        loud = drafted(octets, mac=MAC.upper())
        self.note("upper case", drafted(octets)[1:], loud[1:])

    def test_formats(self):
        """The same packets in both formats give the same octets, for a week, too."""
        scene = week()
        self.note("classic and pcapng", drafted(scene.octets()), drafted(scene.sections()))

    def test_clock(self):
        """Without --now the file is of the clock's moment."""
        octets = Scene().connect("203.0.113.5", 443).octets()
        first, second = (run(MAC, URL, program=drafting.SCRIPT, input=octets).out for _ in range(2))
        files = [{**(file := json.loads(octets)), "ietf-mud:mud": {**file["ietf-mud:mud"], "last-update": ""}} for octets in (first, second)]
        self.note("all else is the same", files[0], files[1])


@needs("curl", "sha256sum")
class ThreeCommands(Drafts):
    def test_guide(self):
        """The three commands of docs/GUIDE.md, from a capture to a file in force."""
        section = texts.read("docs/GUIDE.md").partition("\n## A file for a Thing that has none\n")[2].partition("\n## ")[0]
        commands = re.findall(r"(?m)^    (\S.*)$", section.partition("three commands")[2])[:3]
        self.note("their programs", ["draft", "put", "curl"], [command.split()[0].rpartition("/")[2] for command in commands])
        mac, url = re.search(r" (..(?::..){5}) (\S+) <", commands[0]).groups()
        self.put("week.pcap", Scene(mac, "192.168.77.9").name("a.example.net", "203.0.113.5", server="192.168.77.1").connect("203.0.113.5", 443).octets())
        with program.Server(1000, self.path("store.db")) as server:
            console = f"http://127.0.0.1:{server.port}"
            script = "\n".join(commands).replace("/usr/local/share/mud", os.path.abspath("contrib")).replace("http://127.0.0.1:8080", console)
            ended = subprocess.run(["bash", "-ec", script], cwd=self.folder, stdout=subprocess.PIPE, stderr=subprocess.PIPE, check=False,
                                   env={**os.environ, "MUD_CONSOLE": console, "MUD_FILES": self.path("files")})
            self.note("status", 0, ended.returncode)
            self.holds("in force", ended.stdout.endswith(b'{"result":"approved"}'), ended.stdout + ended.stderr)
            self.holds("its URL", f" new {url} ".encode() in ended.stdout, ended.stdout)
        report = read("report.txt", self.folder) if os.path.exists(self.path("report.txt")) else b""
        for text in (b"In the file: 1.", b"port 443 (https) of a.example.net"):
            self.holds(text.decode(), text in report, report.decode())


class Time(Drafts):
    alone = True

    def test_million(self):
        """A million packets in at most half a minute of the processor, with its child processes."""
        scene = Scene()
        for at in range(1500):
            scene.wait(1).connect(f"203.0.113.{at % 200}", 443, own=40000 + at).ask("192.168.1.1", 53, own=40000 + at)
        octets = scene.octets()
        times = PACKETS // len(scene.packets) + 1
        with open(self.path("million.pcap"), "wb") as file:
            file.write(octets[:24])
            for _ in range(times):
                file.write(octets[24:])
        before = resource.getrusage(resource.RUSAGE_CHILDREN)
        ended = run(MAC, URL, program=drafting.SCRIPT, input=self.path("million.pcap"))
        after = resource.getrusage(resource.RUSAGE_CHILDREN)
        seconds = after.ru_utime + after.ru_stime - before.ru_utime - before.ru_stime
        self.note("status", 0, ended.status)
        self.holds(f"{times * len(scene.packets)} packets in {SECONDS} seconds", seconds <= SECONDS, f"{seconds:.1f} seconds")
