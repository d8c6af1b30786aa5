"""Runs the built program over each example message, usage file, capture, folder and store, and compares lines and status."""
import os
import re
import subprocess

from checks import program, session, texts
from checks.case import ProgramCase, needs
from checks.program import read, run, table

KINDS = ("things", "files", "classes", "locals", "names", "due")
RESOLVERS = ("192.0.2.53", "2001:db8::53")
MOST_SECONDS = 2147483647
HOST = re.compile(r"[A-Za-z0-9_]([A-Za-z0-9_-]*[A-Za-z0-9_])?")


def packets_of(name):
    """The rows of tshark's reading of a capture, as it writes them."""
    return [line.split("\t") for line in read(name).decode().split("\n") if re.match(r"[0-9]+\t", line)]


def line_of(row):
    """What `mud frames` says of a packet, by tshark's reading: an address of the sender, its protocol, ports and
    so on. IP and link upkeep are told by the fields that it has."""
    number, time, source, destination, hops = row[0], row[2].split(".")[0], *row[13:16]
    protocol, from_port, to_port, flags, kind, code = row[16], row[21], row[22], row[23], row[24], row[25]
    is_dhcp = protocol == "17" and ((from_port, to_port) == ("67", "68") or (
        (from_port, to_port) == ("68", "67") and (source == "0.0.0.0" or destination == "255.255.255.255")))
    is_neighbour = protocol == "58" and kind and 133 <= int(kind) <= 137 and hops == "255"
    if not source or is_dhcp or is_neighbour:
        return f"{number} {time} link"
    layer = ""
    if protocol == "6" and from_port:
        layer = f" tcp {from_port} {to_port} {flags}"
    elif protocol == "17" and from_port:
        layer = f" udp {from_port} {to_port}"
    elif protocol in ("1", "58") and kind:
        layer = f" icmp {kind} {code}"
    return f"{number} {time} packet {source} {destination} {protocol}{layer}"


def is_host(text):
    """Labels of letters, digits, '-' and '_', none of which begins or ends with '-'."""
    labels = text.split(".")
    return 0 < len(text) <= 253 and all(len(label) <= 63 and HOST.fullmatch(label) for label in labels)


class Learnt:
    """What `mud snoop` says of the DNS answers of a capture, by tshark's reading. Of each record it says whose it is,
    its type, class, seconds and content. Here aliases are followed: an address counts where it stands behind the
    links from the question's name to its own, for the least seconds of these and its own. No name is known before.
    Of a packet that no server sent the line's beginning is known alone: 'begins' has whether that is so."""

    def __init__(self, rows):
        self.lines, self.begins, self.until, self.learnt = [], [], {}, 0
        for row in rows:
            self.packet(row)

    def want(self, line, begins=False):
        self.lines.append(line)
        self.begins.append(begins)

    def packet(self, row):
        head = f"{row[0]} {row[1].split('.')[0]} "
        source, from_port, tcp_port = row[2] or row[3], row[4], row[5]
        if from_port == "53" and source in RESOLVERS and row[6] == "1":
            self.want(head + "pass to=default-dns")
            if row[7:11] == ["0", "0", "0", "1"]:
                self.follow(row, int(row[1].split(".")[0]))
            else:
                self.want("dns fault NotAnswer")
        else:
            self.want(head + ("drop to=" if "53" in (from_port, tcp_port) else ""), True)

    def follow(self, row, second):
        name, kind = row[11].lower(), row[12]
        if row[13] != "0x0001" or kind not in ("1", "28") or not is_host(name):
            return
        owners, kinds, classes, seconds = (column.split() for column in row[15:19])
        contents = {"5": iter(row[19].split()), "1": iter(row[20].split()), "28": iter(row[21].split())}
        alias, least = name, MOST_SECONDS + 1
        for owner, one, its_class, ttl in list(zip(owners, kinds, classes, seconds))[:int(row[14])]:
            content = next(contents.get(one, iter(())), "")
            if its_class != "0x0001" or owner.lower() != alias:
                continue
            if one == kind and 1 <= min(least, int(ttl)) <= MOST_SECONDS:
                self.observed(name, content, second, min(least, int(ttl)))
            if one == "5":
                alias, least = content.lower(), min(least, int(ttl))

    def observed(self, name, address, second, ttl):
        before, now = self.until.get((name, address), 0), second + ttl
        word = "new" if second >= before else "renewed" if before < now else "same"
        if word != "same":
            self.until[name, address] = now
        self.want(f"name {name} {address} {ttl} {word}")
        self.learnt += 1

    def differs(self, lines):
        """The lines that aren't as wanted."""
        if len(lines) != len(self.lines):
            return [f"{len(self.lines)} lines are wanted, {len(lines)} came"]
        rows = zip(self.lines, self.begins, lines)
        return [f"wanted '{line}', got '{got}'" for line, begins, got in rows if not (got.startswith(line) if begins else got == line)]


class Messages(ProgramCase):
    def heard(self, kind):
        for file, status, line in table(f"examples/{kind}/expected.tsv"):
            self.ends(file, int(status), line + "\n", run("hear", kind, input=f"examples/{kind}/{file}"))

    def test_dhcp(self):
        self.heard("dhcp")

    def test_lldp(self):
        self.heard("lldp")


class Files(ProgramCase):
    def test_usage_files(self):
        for name, status in table("examples/usage-files/expected.tsv"):
            path = f"examples/usage-files/{name}"
            self.ends(name, int(status), read(path + ".lines"), run("check", input=path + ".json"))

    def test_usage_edits(self):
        """Each row has a file below examples/, the status and the lines of what is made of it, with \\n between two,
        and the edits, one behind the other: what is replaced where it stands first, and what stands there then."""
        for number, (name, status, lines, *edits) in enumerate(table("examples/usage-edits/edits.tsv"), 2):
            octets = read(f"examples/{name}.json")
            for old, new in zip(edits[::2], edits[1::2]):
                self.assertIn(old.encode(), octets, f"examples/usage-edits/edits.tsv:{number}: nothing to replace")
                octets = octets.replace(old.encode(), new.encode(), 1)
            self.ends(f"edits.tsv:{number}", int(status), lines.replace("\\n", "\n") + "\n", run("check", input=octets))

    def test_longest_file(self):
        """A file with spaces behind it, of as many octets as one may have and of one more."""
        octets = read("examples/usage-files/made-lightbulb.json").ljust(262145)
        lines = read("examples/usage-files/made-lightbulb.lines")
        self.ends("262,144 octets", 0, lines, run("check", input=octets[:-1]))
        self.ends("262,145 octets", 3, read("examples/usage-edits/too-long.lines"), run("check", input=octets))

    def test_import(self):
        """A folder that is imported into a store, and once more; a capture is judged by that store, and tallied."""
        store = self.path("store")
        for lines in ("first", "again"):
            self.ends(lines, 3, read(f"examples/import/{lines}.lines"), run("import", store, "examples/import/folder"))
        capture = "examples/captures/vlan-trunk.pcap"
        rows = packets_of(capture + ".tsv")
        lines = "".join(f"{row[0]} {row[2].split('.')[0]} pass unmanaged\n" for row in rows)
        self.ends("judge by a store without a Thing", 0, lines, run("judge", store, input=capture))
        line = f"packets {len(rows)} unmanaged {len(rows)} link 0 unreadable 0 pass 0 drop 0 both 0\n"
        self.ends("tally by a store without a Thing", 0, line, run("tally", store, input=capture))

    def test_names_of_files(self):
        """Files by the names of a table: each is imported, refused or skipped, in the order of their octets."""
        os.mkdir(self.path("names"))
        rows = table("examples/import/names.tsv")
        for name, file, _ in rows:
            self.put("names/" + name, read("examples/" + file))
        lines = "".join(f"{name} {words}\n" for name, _, words in rows)
        self.ends("import", 3, lines, run("import", ":memory:", self.path("names")))


class Captures(ProgramCase):
    def test_tshark(self):
        """The lines of each capture against tshark's reading of it."""
        for path in texts.files("examples/captures/*.pcap", "examples/captures/*.pcapng"):
            lines = [line_of(row) for row in packets_of(path + ".tsv")]
            self.assertTrue(lines, path)
            self.ends(path, 0, "\n".join(lines) + "\n", run("frames", input=path))

    def test_pcapng(self):
        """The lines of each capture that examples/pcapng/make.py makes."""
        for name, status in table("examples/pcapng/expected.tsv"):
            path = f"examples/pcapng/{name}"
            self.ends(name, int(status), read(path + ".lines"), run("frames", input=path + ".pcapng"))

    def test_resolvers(self):
        """What real resolvers answered to a Thing against tshark's reading of it."""
        for capture in texts.files("examples/resolvers/*.pcap"):
            store = self.replayed("examples/resolvers/network.session", os.path.basename(capture))
            ended, learnt = run("snoop", store, input=capture), Learnt(packets_of(capture + ".tsv"))
            differing = learnt.differs(ended.out.decode().splitlines())
            self.note(capture, (0, True, []), (ended.status, learnt.learnt > 0, differing[:5]))

    def replayed(self, path, name):
        """The store that a session makes."""
        one, store = session.runs_of(path)[0], self.path(name)
        self.ends(path, one.status, one.wanted, run("replay", store, input=one.octets))
        return store

    def test_reports(self):
        """The tables of a store that a session of the console has made, which a second run finds; and of none."""
        store = self.replayed("examples/report/network.session", "network")
        for kind in KINDS:
            self.ends(f"report of {kind}", 0, read(f"examples/report/{kind}.lines"), run("report", store, kind))
            self.ends(f"report of {kind} of an empty store", 0, "", run("report", ":memory:", kind))

    def test_snoop(self):
        """Captures that teach names to a store which a session of the console has made."""
        for name, status in table("examples/snoop/expected.tsv"):
            store, path = self.replayed("examples/snoop/network.session", name), f"examples/snoop/{name}"
            texts_of = path.rpartition(".")[0]
            self.ends(name, int(status), read(texts_of + ".lines"), run("snoop", store, input=path))
            self.ends(f"the names of {name}", 0, read(texts_of + ".names"), run("report", store, "names"))

    def test_export(self):
        """The lists of a Thing with addresses of both versions of IP, whose file has lists for IPv6 alone."""
        store = self.replayed("examples/export/network.session", "network")
        lines = read("examples/export/hub.lines")
        self.ends("export", 0, lines, run("export", store, "02:00:00:00:00:06"))

    def test_drill(self):
        for path in texts.files("examples/drill/*.lines"):
            self.ends(path, 0, read(path), run("drill", os.path.basename(path).removesuffix(".lines")))


@needs("sqlite3")
class Judged(ProgramCase):
    """By a store with a Thing, which sqlite3 makes, in the earlier form of its record."""

    def bulb(self):
        """The store."""
        store = self.path("bulb")
        with open("examples/judge/store.sql", "rb") as text:
            subprocess.run(["sqlite3", store], stdin=text, check=True)
        return store

    def test_connections(self):
        """A forwarded reset ends a connection; and the name of the server has ended at 1060, though no connection has."""
        store = self.bulb()
        for what, packets, last in (
                ("a reset", ((1001, "bulb-opens"), (1001, "bulb-resets"), (1001, "cloud-answers")), "3 1001 drop to=drop:no-match\n"),
                ("a name that ended", ((1001, "bulb-opens"), (8441, "cloud-answers")), "2 8441 drop to=drop:no-match\n")):
            octets = program.capture([(second, session.frames()[name]) for second, name in packets])
            lines = "".join(f"{number} 1001 pass from=accept:1\n" for number in range(1, len(packets)))
            self.ends(what, 0, lines + last, run("judge", store, input=octets))

    def test_many_peers(self):
        """A Thing is denied 257 peers, and the last one of them again in the next hour: what it is denied beyond 256 of
        them is counted in one line."""
        opens = session.frames()["bulb-opens"]
        packets = [(1001, opens[:30] + bytes([10, 0, number >> 8, number & 255]) + opens[34:]) for number in range(1, 258)]
        packets.append((3600, packets[-1][1]))
        head, count = "02:00:00:00:00:01 from", "count 02:00:00:00:00:01 from drop:no-match"
        denied = "".join(f"denied {head} 10.0.{number >> 8}.{number & 255} 6 443 1\n" for number in range(1, 257))
        lines = (f"hour 0\n{count} 257\nhour 1\n{count} 1\n{denied}denied {head} others 2\n"
                 "packets 258 unmanaged 0 link 0 unreadable 0 pass 0 drop 258 both 0\n")
        self.ends("tally", 0, lines, run("tally", self.bulb(), input=program.capture(packets)))

    def test_judge(self):
        store = self.bulb()
        capture = "examples/judge/made-bulb.pcap"
        self.ends("judge", 3, read("examples/judge/made-bulb.lines"), run("judge", store, input=capture))
        # the fourth packet is a later fragment, which has no port
        self.ends("tally", 3, read("examples/tally/made-bulb.lines"), run("tally", store, input=capture))
        for name in ("one-packet", "cut-last-number", "simple-packet"):
            path = f"examples/pcapng/{name}"
            lines = re.sub("packet .*", "pass from=accept:1", read(path + ".lines").decode())
            self.ends(f"judge of {name}", 3 if "fault" in lines else 0, lines, run("judge", store, input=path + ".pcapng"))
        self.ends("tally in pcapng", 0, read("examples/tally/one-packet.lines"), run("tally", store, input="examples/pcapng/one-packet.pcapng"))
        self.ends("the report of it", 0, read("examples/report/earlier-form.lines"), run("report", store, "things"))
        shown = "SELECT hex(substr(body, 1, 5)), hex(substr(body, -11)) FROM item WHERE kind = 1"
        ended = run(store, shown, program="sqlite3")
        self.ends("the record of the Thing, in the present form", 0, read("examples/report/present-form.row"), ended)
