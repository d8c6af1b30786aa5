"""Runs the built program where its words, its input or its output are at fault, and measures how much it takes of its input."""
import os
import pty
import re
import resource
import shutil
import signal
import struct
import subprocess
import threading
import time

from checks import program, texts
from checks.case import ProgramCase, needs
from checks.program import CLOSED, read, run

MESSAGE = "examples/dhcp/made-lease.bin"
FILE = "examples/usage-files/made-lightbulb.json"
CAPTURE = "examples/captures/vlan-trunk.pcap"
REQUESTS = "examples/console/first-requests.txt"
STORE = "examples/judge/store.sql"
FULL = "/dev/full"
OUTPUTS = {FULL: ("a full device", "the output can't be written: No space left on device (os error 28)"),
           CLOSED: ("a closed output", "the output can't be written: Bad file descriptor (os error 9)")}
UNOPENED = "the store can't be opened: its folder isn't there, or the file may not be read and written"
BAD_INPUT = "the input can't be read: Is a directory (os error 21)"
COMMANDS = "hear check frames judge snoop tally import report export replay serve drill".split()
UNLISTED = [line.strip() for line in """
    hear|hear dhcp dhcp|Check|-h|judge|judge -s|judge a b|tally|tally -t|tally a b|import|import a|import -a b|import a -b|import a b c|replay|replay -s
    replay a b|report|report a|report a thing|report a Things|report a things b|report -a things|export|export a
    export a 02:00:00:00:00|export a 02-00-00-00-00-01|export a 02:00:00:00:00:01 b|export -a 02:00:00:00:00:01|serve|serve a
    serve a 8080|serve a 8080 1 1|serve -a 8080 1|serve a 0 1|serve a 65536 1|serve a 08080 1|serve a +8080 1|serve a 8080 0
    serve a 8080 1000001|serve a 8080 -1|drill|drill 0|drill 01|drill 100001|drill -1|drill a|drill 1 1
    drill 18446744073709551617|--help|--version|help|help judge|judge --help|check --|-- check
    """.replace("\n", "|").split("|") if line.strip()]


PORT, COUNT, NUMBER = (f"{name} is 1 to {most}, without a zero in front" for name, most in (("PORT", 65535), ("COUNT", 1000000), ("N", 100000)))
KIND, MAC = "KIND is things, files, classes, locals, names or due", "MAC is six pairs of hex digits with colons between them"
# words, and what is wrong with them
WRONG = [
    ([], "a command is wanted"), (["chekc"], "'chekc': there is no such command"), (["Check"], "'Check': there is no such command"),
    (["help"], "'help': there is no such command"), ([""], "'': there is no such command"),
    (["--help"], "'--help': no word begins with a dash"), (["--version"], "'--version': no word begins with a dash"),
    (["judge", "a", "-v"], "'-v': no word begins with a dash"), (["chekc", "-"], "'-': no word begins with a dash"),
    (["hear"], "hear: dhcp or lldp is missing"), (["hear", "dhpc"], "'dhpc': hear reads dhcp or lldp"), (["hear", "dhcp", "lldp"], "'lldp': it is a word too many"),
    (["frames", "day.pcap"], "'day.pcap': it is a word too many"), (["judge"], "judge: STORE is missing"), (["judge", ""], "'': it names no STORE"),
    (["judge", "a", "day.pcap"], "'day.pcap': it is a word too many"), (["import", "a"], "import: FOLDER is missing"), (["import", "a", ""], "'': it names no FOLDER"),
    (["report", "a"], "report: KIND is missing"), (["report", "a", "thing"], f"'thing': {KIND}"), (["report", "a", "Things"], f"'Things': {KIND}"),
    (["export", "a"], "export: MAC is missing"), (["export", "a", "02-00-00-00-00-01"], f"'02-00-00-00-00-01': {MAC}"),
    (["serve", "a", "080", "5"], f"'080': {PORT}"), (["serve", "a", "65536", "5"], f"'65536': {PORT}"), (["serve", "a", "8080", "0"], f"'0': {COUNT}"),
    (["serve", "a", "8080"], "serve: COUNT is missing"), (["serve", "", "x", "y"], "'': it names no STORE"), (["drill", "100001"], f"'100001': {NUMBER}"),
    (["hear", b"dhcp\xff"], "a word isn't UTF-8"),
]


def sql(store, text):
    """A store that sqlite3 makes or changes by this text."""
    subprocess.run(["sqlite3", store], input=text.encode() if isinstance(text, str) else text, check=True)


class FaultyRuns(ProgramCase):
    def silent(self, what, status, ended):
        """The status came and nothing was written."""
        self.note(what + ", status", status, ended.status)
        self.note(what + ", octets written", b"", ended.out)

    def says(self, what, sentence, ended):
        """Standard error was told this, and nothing else."""
        self.note(what + ", what standard error is told", f"mud: {sentence}\n", ended.errors.decode())

    def line(self, what, status, line, ended):
        self.note(what + ", status", status, ended.status)
        self.note(what + ", line", line + "\n", ended.out.decode())

    def is_refused(self, what, status, sentence, ended):
        self.silent(what, status, ended)
        self.says(what, sentence, ended)

    def unwritten(self, what, *words, outputs=(FULL, CLOSED), **more):
        """The words end with 4 at an output that takes nothing, and say so."""
        for out in outputs:
            ended = run(*words, out=out, **more)
            self.note(f"{what} to {OUTPUTS[out][0]}, status", 4, ended.status)
            self.says(f"{what} to {OUTPUTS[out][0]}", OUTPUTS[out][1], ended)


class Words(FaultyRuns):
    """2: the words are no listed line. Nothing is read of the input, and the usage text is on standard error."""

    def unlisted(self, what, *words):
        ended = run(*words, input=MESSAGE, cwd=self.folder)
        self.silent(what, 2, ended)
        self.note(what + ", whether it says how to call the program", 1, len(re.findall(rb"^usage: mud ", ended.errors, re.M)))
        return ended.errors.decode().replace(" hear lldp", " ")

    def test_unlisted(self):
        for words in [line.split() for line in UNLISTED] + [
                [], ["hear", ""], ["hear", b"dhcp\xff"], [b"\xc3"], ["judge", ""], ["import", self.path("none"), ""], ["serve", "", "8080", "1"]]:
            self.unlisted(f"the words {words}", *words)
        self.note("whether words that are no listed line make a store", [], os.listdir(self.folder))

    def test_wrong_words(self):
        """The line before the usage text names the word that is wrong."""
        for words, line in WRONG:
            ended = run(*words, input=b"", cwd=self.folder)
            self.note(f"the line of {words}", f"mud: {line}", ended.errors.decode().split("\n")[0])
            self.note(f"what comes behind the line of {words}", ["mud 1.0.0", "usage: mud COMMAND"], ended.errors.decode().split("\n")[1:3])

    def test_usage(self):
        text = self.unlisted("drill with an empty word", "drill", "")
        for command in COMMANDS:
            self.note(f"lines of the usage text on {command}", 1, len(re.findall(rf"^ *{command}(?: |$)", text, re.M)))
        self.note("octets left where the words are no listed line", os.path.getsize(FILE), run("chekc", input=FILE).left)


class Input(FaultyRuns):
    """3: the input breaks a rule; the line is the fault's."""

    def test_empty(self):
        for words, line in (("hear dhcp", "fault Cut 0"), ("frames", "fault Cut 0"), ("check", "fault Json"), ("judge :memory:", "fault Cut 0")):
            self.line(f"{words} of nothing", 3, line, run(*words.split()))

    def test_longest_packets(self):
        """64 packets of 262,144 octets, and the head of one that is longer."""
        octets = program.capture([(0, bytes(262144))] * 64)
        ended = run("judge", ":memory:", input=octets)
        self.note("the longest packets, status", 0, ended.status)
        self.note("the longest packets, lines", "".join(f"{n} 0 pass unmanaged\n" for n in range(1, 65)), ended.out.decode())
        ended = run("judge", ":memory:", input=octets + bytes(8) + (262145).to_bytes(4, "little") * 2)
        self.note("a packet that is longer, status", 3, ended.status)
        self.note("a packet that is longer, line", b"fault Long 16778264", ended.out.splitlines()[-1])

    def test_snoop_without_server(self):
        ended = run("snoop", ":memory:", input=CAPTURE)
        self.note("status", 0, ended.status)
        self.note("lines", run("judge", ":memory:", input=CAPTURE).out, ended.out)
        self.says("snoop", "no name could be learnt: no address is bound to urn:ietf:params:mud:dns", ended)

    def test_import(self):
        os.mkdir(self.path("files"))
        self.silent("import of an empty folder", 0, run("import", ":memory:", self.path("files")))
        self.put("files/1000-empty.json", b"")
        self.line("import of a refused file", 3, "1000-empty.json refused 2 Json", run("import", ":memory:", self.path("files")))


def block(kind, body):
    """A block of pcapng."""
    size = struct.pack("<I", 12 + len(body))
    return struct.pack("<I", kind) + size + body + size


# a section with an interface of Ethernet and one of Linux cooked (draft-ietf-opsawg-pcapng)
SECTION = block(0x0A0D0D0A, struct.pack("<IHHq", 0x1A2B3C4D, 1, 0, -1))
INTERFACES = block(1, struct.pack("<HHI", 1, 0, 0)) + block(1, struct.pack("<HHI", 113, 0, 0))


def packet_of(interface):
    """A packet of an interface, of 60 octets."""
    return block(6, struct.pack("<5I", interface, 0, 0, 60, 60) + bytes(60))


class Unread(FaultyRuns):
    """3 behind a capture that can't be read: standard error says what it is and what to do, and what it says helps."""

    def refused(self, what, line, sentence, octets, *words):
        """The line of the fault is the last one, and standard error has this sentence."""
        words = words or ("frames",)
        ended = run(*words, input=octets)
        self.note(what + ", status", 3, ended.status)
        self.note(what + ", line", line, ended.out.decode().splitlines()[-1])
        self.says(what, sentence, ended)

    def helps(self, what, sentence, octets, lines):
        """By the line of tshark that stands at the end of what is said, frames reads so many lines."""
        if not shutil.which("tshark"):
            self.left_out(what + ", by the line", "there is no tshark")
            return
        line = sentence[sentence.index("tshark "):].replace("IN", self.put("in", octets)).replace("OUT", self.path("out"))
        subprocess.run(line, shell=True, stderr=subprocess.DEVNULL, check=True)
        ended = run("frames", input=self.path("out"))
        self.note(what + ", by the line", (0, lines), (ended.status, ended.out.count(b"\n")))

    def test_links(self):
        for link, rest in ((113, " (Linux cooked), and not of Ethernet: capture at an interface, and not at 'any'"),
                           (276, " (Linux cooked, version 2), and not of Ethernet: capture at an interface, and not at 'any'"),
                           (127, " (802.11 with radiotap), and not of Ethernet: it was heard by a monitor; capture at an interface of Ethernet"),
                           (101, " (raw IP), and not of Ethernet: capture at an interface of Ethernet"),
                           (4000, ", and not of Ethernet: capture at an interface of Ethernet")):
            for order in "<>":
                self.refused(f"link {link}, order {order}", "fault LinkType", f"the capture is of link {link}{rest}",
                             program.capture([(1, bytes(60))], link=link, order=order, magic=0xA1B23C4D))
        said = "the capture says that check sequences follow its frames: tshark -F pcap -r IN -w OUT"
        octets = program.capture([(1, bytes(64))], link=0x24000001)
        self.refused("a frame check sequence", "fault LinkType", said, octets)
        self.helps("a frame check sequence", said, octets, 1)

    def test_packed(self):
        for tool, unpack, format in (("gzip", "zcat", "gzip"), ("zstd", "zstdcat", "zstd"), ("bzip2", "bzcat", "bzip2"), ("xz", "xzcat", "xz")):
            if not shutil.which(tool):
                self.left_out(tool, f"there is no {tool}")
                continue
            packed = self.put("packed", subprocess.run([tool, "-c", CAPTURE], capture_output=True, check=True).stdout)
            for words in (["frames"], ["judge", ":memory:"], ["snoop", ":memory:"], ["tally", ":memory:"]):
                line = " ".join(words).replace(":memory:", "STORE")
                ended = run(*words, input=packed)
                self.note(f"{line} of {format}, status and last line", (3, b"fault Magic"), (ended.status, ended.out.splitlines()[-1]))
                said = f"mud: the input is packed by {format}: {unpack} FILE | mud {line}"
                self.note(f"{line} of {format}, what standard error is told first", [said], ended.errors.decode().splitlines()[:1])
                # what it says is done
                command = said.partition("by ")[2].partition(": ")[2].replace("FILE", packed).replace("mud ", program.PROGRAM + " ").replace("STORE", ":memory:")
                shown = subprocess.run(command, shell=True, capture_output=True, check=False)
                self.note(f"{line} of {format}, by the line", run(*words, input=CAPTURE).out, shown.stdout)

    def test_interfaces(self):
        """pcapng of two links: what stands before the first packet of the other link has its lines."""
        octets = SECTION + INTERFACES + packet_of(0) + packet_of(1) + packet_of(0)
        place = len(SECTION + INTERFACES + packet_of(0))
        said = ("the packet at that octet came by an interface of another link than Ethernet: capture at an interface of Ethernet, and not at 'any'; "
                "where the capture has several, those of the first alone: ")
        line = "tshark -r IN -Y 'frame.interface_id==0' -w OUT"
        self.refused("two links", f"fault LinkType {place}", said + line, octets)
        alone = SECTION + block(1, struct.pack("<HHI", 276, 0, 0))
        self.refused("one interface, of another link", f"fault LinkType {len(alone)}", said + line, alone + packet_of(0))
        self.refused("a broken section", "fault Magic 0", "the section of the capture at that octet is damaged", SECTION[:8] + bytes(4) + SECTION[12:])
        self.helps("two links", line, octets, 2)

    def test_other_formats(self):
        said = "the input is no capture in the classic format or in pcapng; one in another format: tshark -F pcap -r IN -w OUT"
        snoop = b"snoop\0\0\0" + struct.pack(">II", 2, 4) + struct.pack(">IIIIII", 60, 60, 84, 0, 1000, 0) + bytes(60)
        self.refused("snoop's format", "fault Magic", said, snoop)
        self.refused("a text", "fault Magic", said, b"no capture at all, but a line of text\n")
        self.helps("snoop's format", said, snoop, 1)

    def test_other_faults(self):
        """Of any other fault nothing is said besides."""
        octets = program.capture([(1, bytes(60))])
        for what, broken in (("nothing", b""), ("a part of the header", octets[:20]), ("another version", octets[:4] + bytes(4) + octets[8:]),
                             ("a part of a packet", octets[:-1]), ("a section alone that is cut", SECTION[:-2])):
            ended = run("frames", input=broken)
            self.note(what + ", status and standard error", (3, b""), (ended.status, ended.errors))

    def test_terminal(self):
        """At a terminal a command that reads says that it waits, and reads."""
        for words, awaited in ((["judge", ":memory:"], "a capture"), (["frames"], "a capture"), (["hear", "lldp"], "a message"),
                               (["check"], "a usage file"), (["replay", ":memory:"], "requests"), (["report", ":memory:", "due"], None)):
            ours, theirs = pty.openpty()
            ran = subprocess.Popen([program.PROGRAM, *words], stdin=theirs, stdout=subprocess.DEVNULL, stderr=subprocess.PIPE)
            os.close(theirs)
            os.write(ours, b"\n\x04\x04")
            said = ran.communicate(timeout=program.SECONDS)[1].decode()
            os.close(ours)
            wanted = [f"mud: waiting for {awaited} on standard input"] if awaited else []
            self.note(f"{words} at a terminal", wanted, said.splitlines()[:1])


class Failures(FaultyRuns):
    """4: reading the input or writing the lines failed."""

    def test_streams(self):
        frame = "examples/lldp/lldpd-mud-01.bin"
        for words, path in (("hear dhcp", MESSAGE), ("hear lldp", frame), ("check", FILE), ("frames", CAPTURE),
                            ("judge :memory:", CAPTURE), ("replay :memory:", REQUESTS)):
            self.unwritten(words, *words.split(), input=path)
            self.is_refused(f"{words} of a closed input", 4, BAD_INPUT, run(*words.split(), input=CLOSED))
            self.is_refused(f"{words} of a folder", 4, BAD_INPUT, run(*words.split(), input="examples"))
        ended = run("frames", input=CAPTURE)
        self.note("a whole capture, status", 0, ended.status)
        self.note("a whole capture, lines", 44, ended.out.count(b"\n"))
        self.unwritten("drill", "drill", "1", outputs=[FULL])

    def test_reports(self):
        store, thing = self.path("store"), "02:00:00:00:00:01"
        ended = run("report", ":memory:", "things", out="/dev/full")
        self.note("report of an empty table to a full device, status", 0, ended.status)
        self.note("replay into a store, status", 0, run("replay", store, input=REQUESTS).status)
        self.line("report of a store", 0, "local 192.0.2.0/24", run("report", store, "locals", input=CLOSED))
        self.unwritten("report", "report", store, "locals")
        self.line("export of no Thing", 3, "fault NoThing", run("export", store, thing, input=CLOSED))
        self.unwritten("export of no Thing", "export", store, thing, outputs=[FULL])

    def test_answers(self):
        """Where an answer can't be written, its request stays carried out, and none behind it is."""
        store = self.path("store")
        two = (program.request("PUT", "/locals", '{"prefixes":["192.0.2.0/25"]}', 5)
               + program.request("POST", "/classes", '{"address":"192.0.2.53","class":"urn:ietf:params:mud:dns"}', 6))
        self.unwritten("replay of two requests", "replay", store, input=two, outputs=[FULL])
        self.note("the first one's networks", b"local 192.0.2.0/25\n", run("report", store, "locals").out)
        self.silent("the second one's classes", 0, run("report", store, "classes"))

    def test_folders(self):
        os.makedirs(self.path("other/1-folder.json"))
        os.mkdir(self.path("files"))
        self.put("files/1000-empty.json", b"")
        self.unwritten("import", "import", ":memory:", self.path("files"))
        for what, path, sentence in (
                ("a folder that isn't there", self.path("none"), "the folder can't be read: No such file or directory (os error 2)"),
                ("a file in a folder's place", FILE, "the folder can't be read: Not a directory (os error 20)")):
            self.is_refused("import of " + what, 4, f"{path}: {sentence}", run("import", ":memory:", path))
        folder = self.path("other/1-folder.json")
        self.is_refused("import of a folder in a file's place", 4, f"{folder}: the file can't be read: Is a directory (os error 21)",
                        run("import", ":memory:", self.path("other")))


@needs("sqlite3")
class Items(FaultyRuns):
    """6: an item of the store is no record. Then the input isn't read."""

    def unread(self, what, line, path, *words):
        """The line, with 6, and nothing is taken of the input."""
        ended = run(*words, input=path)
        self.line(what, 6, line, ended)
        self.note(what + ", octets left", os.path.getsize(path), ended.left)

    def test_bad_item(self):
        bad, files, fault = self.path("bad"), self.path("files"), "fault item 1 020000000001"
        os.mkdir(files)
        sql(bad, read(STORE))
        sql(bad, "UPDATE item SET body = X'' WHERE kind = 1")
        self.unread("a store with a bad item", fault, CAPTURE, "judge", bad)
        self.unwritten("a store with a bad item", "judge", bad, input=CAPTURE, outputs=[FULL])
        self.line("import into a store with a bad item", 6, fault, run("import", bad, files))
        for words in (("replay", bad), ("report", bad, "names"), ("serve", bad, "8080", "1")):
            self.unread(f"{words[0]} with a bad item", fault, REQUESTS, *words)

    def test_last_octet(self):
        """A Thing's record of the present form whose last octet is neither 0 nor 1."""
        last = self.path("last")
        sql(last, read(STORE))
        sql(last, "UPDATE item SET body = CAST(X'02' || substr(body, 2) || X'02' AS BLOB) WHERE kind = 1")
        self.line("a record that ends with 2", 6, "fault item 1 020000000001", run("report", last, "things"))

    def test_bad_stamp(self):
        """Of several bad items the first is named, and one with an empty key without a key."""
        sql(self.path("stamp"), program.ITEMS + "; INSERT INTO item VALUES (6, X'', X'01'), (7, X'00', X'01')")
        self.line("a store with a bad stamp", 6, "fault item 6", run("report", self.path("stamp"), "things"))


class Keeper(FaultyRuns):
    """7: the keeper of the store failed. Then the input isn't read, and standard error is told which cause it was."""

    def refused(self, store, sentence):
        """Each command ends so with this store."""
        ended = run("judge", store, input=CAPTURE)
        self.is_refused("judge", 7, f"{store}: {sentence}", ended)
        self.note("judge, octets left", os.path.getsize(CAPTURE), ended.left)
        os.makedirs(self.path("files"), exist_ok=True)
        for words in (("import", store, self.path("files")), ("replay", store), ("report", store, "due"), ("serve", store, "8080", "1")):
            self.is_refused(words[0], 7, f"{store}: {sentence}", run(*words, input=REQUESTS))

    def test_no_folder(self):
        self.refused(self.path("none/store"), UNOPENED)

    def test_folder(self):
        self.refused(self.folder, UNOPENED)

    def test_pipe(self):
        """A named pipe isn't waited for."""
        os.mkfifo(self.path("pipe"))
        self.refused(self.path("pipe"), UNOPENED)

    def test_text(self):
        self.refused(self.put("text", (b"no store\n" * 600)[:5000]), "it is no store, or it is damaged")

    @needs("sqlite3")
    def test_other_database(self):
        sql(self.path("notes"), "CREATE TABLE note (id INTEGER PRIMARY KEY) STRICT")
        self.refused(self.path("notes"), "it is no store, or it is damaged")

    def test_used(self):
        used = self.path("used")
        with subprocess.Popen([program.PROGRAM, "replay", used], stdin=subprocess.PIPE, stdout=subprocess.PIPE) as holder:
            holder.stdin.write(read(REQUESTS)[:1])
            holder.stdin.flush()
            program.until(lambda: os.path.exists(used + "-wal") and os.path.getsize(used + "-wal"))
            self.refused(used, "another program uses the store")
            holder.communicate()

    def test_no_room(self):
        """No file of the process may be longer than 8 kB, and a change needs more of the log."""
        def limited():
            signal.signal(signal.SIGXFSZ, signal.SIG_IGN)
            resource.setrlimit(resource.RLIMIT_FSIZE, (8192, 8192))

        store = self.path("small")
        self.silent("report of a new store", 0, run("report", store, "things"))
        ended = run("replay", store, input=REQUESTS, preexec_fn=limited)
        self.note("replay into a store that can't grow, status", 0, ended.status)
        self.note("replay into a store that can't grow, answer", b"HTTP/1.1 503 Service Unavailable", ended.out.split(b"\r\n")[0])
        self.says("replay into a store that can't grow", f"{store}: the disk failed", ended)

    @needs("unshare")
    def test_full_disk(self):
        """A file system of 100 kB, where one can be mounted for this command alone."""
        disk = self.path("disk")
        os.mkdir(disk)
        words = ["-m", "sh", "-c", 'mount -t tmpfs -o size=100k tmpfs "$1" && shift && exec "$@"', "-", disk]
        if run(*words, "true", program="unshare").status != 0:
            self.skipTest("no file system can be mounted here")
        ended = run(*words, program.PROGRAM, "replay", f"{disk}/store", input=REQUESTS, program="unshare")
        self.is_refused("replay into a store on a full disk", 7, f"{disk}/store: the disk is full", ended)


class Taken(FaultyRuns):
    """At most one octet more is taken than a message or a usage file has. What is behind it stays for the next reader."""

    SIZE = 400000

    def test_file(self):
        zeros = self.put("zeros", bytes(self.SIZE))
        for words, most, line in (("hear dhcp", 65536, "fault Long\n"), ("hear lldp", 65536, None), ("check", 262145, "fault TooLong\n")):
            ended = run(*words.split(), input=zeros)
            self.note(f"octets taken by {words}", most, self.SIZE - ended.left)
            if line:
                self.note(f"the line of {words}", line, ended.out.decode())

    def test_slow_pipe(self):
        for words, most in (("hear dhcp", 65536), ("check", 262145)):
            reader, writer = os.pipe()

            def give(writer=writer):
                for _ in range(4):
                    os.write(writer, bytes(self.SIZE // 4))
                    time.sleep(0.1)
                os.close(writer)

            giver = threading.Thread(target=give)
            giver.start()
            subprocess.run([program.PROGRAM, *words.split()], stdin=reader, stdout=subprocess.DEVNULL, check=False)
            left = sum(map(len, iter(lambda: os.read(reader, 65536), b"")))
            giver.join()
            os.close(reader)
            self.note(f"octets taken by {words} of a slow pipe", most, self.SIZE - left)


STAND_IN = """#!/bin/sh
[ "$1" = ci ] || exit 1
[ ! -e crates/mud_base/must-fail ] && [ -e crates/mud_base/src ] && echo "rt: mud_base proved"
echo "rt: mud_url is kept: an earlier run on this machine proved the same files over the same libraries"
if [ "$STATUS" = 0 ]; then
  mkdir -p crates/mud/out
  printf '#!/bin/sh\\n' >crates/mud/out/mud
  chmod +x crates/mud/out/mud
fi
exit "$STATUS"
"""


class Scripts(FaultyRuns):
    """./mud and ./build in a clone, without the toolchain and with a stand-in of it."""

    def setUp(self):
        super().setUp()
        for crate in texts.below("mud"):
            for part in ("src", "must-fail"):
                os.makedirs(self.path(f"clone/crates/{crate}/{part}"))
        os.mkdir(self.path("clone/checks"))
        for name in texts.files("mud", "build", "crates.txt", "HANDLES", "checks/print", "checks/*.py"):
            shutil.copy(name, self.path("clone/" + name))
        os.mkdir(self.path("bin"))
        for tool in ("sh", "dirname", "find", "head", "mktemp", "rm"):
            os.symlink(shutil.which(tool), self.path("bin/" + tool))

    def test_without_toolchain(self):
        """A status of its own, and a sentence that says what to install."""
        environment = {"PATH": self.path("bin")}
        ended = run("check", input=FILE, program=self.path("clone/mud"), env=environment)
        self.silent("./mud without rt", 127, ended)
        self.holds("./mud without rt, what to install", b"install the Rattle toolchain" in ended.errors)
        self.silent("./build without rt", 127, run(program=self.path("clone/build"), env=environment))

    def build(self, status):
        os.mkdir(self.path("with-rt"))
        os.chmod(self.put("with-rt/rt", STAND_IN.encode()), 0o755)
        path = self.path("with-rt") + ":" + os.environ["PATH"]
        return run(program=self.path("clone/build"), env={**os.environ, "STATUS": status, "PATH": path})

    def test_build(self):
        """A stand-in that says that it proved a crate, and makes a program where it is told to."""
        ended, count = self.build("0"), len(texts.below("mud"))
        self.silent("./build", 0, ended)
        said = ended.errors.decode().splitlines()
        self.note("the first line", f"build: proving {count} crates, as many side by side as there are processors and memory",
                  said[0].partition(";")[0])
        lines = [re.sub(r"some \d+ left", "some left", one) for one in said if " are proved" in one]
        self.note("the lines of crates", [f"build: 1 of {count} crates are proved; 0 minutes gone, some left (mud_base)",
                                          f"build: 2 of {count} crates are proved, 1 of them before this run; 0 minutes gone, some left (mud_url)"], lines)
        self.note("the last line", "build: done", said[-1])

    def test_build_unproved(self):
        self.silent("./build where a crate isn't proved", 1, self.build("1"))
        self.holds("there is no program", not os.path.exists(self.path("clone/out/mud")))

    def test_built(self):
        """Where it is built and nothing is newer: the program's own status, without the toolchain."""
        for folder in ("clone/crates/mud/out", "clone/out"):
            os.mkdir(self.path(folder))
            shutil.copy(program.PROGRAM, self.path(folder + "/mud"))
            ended = run("hear", "dhcp", input=MESSAGE, program=self.path("clone/mud"), env={"PATH": self.path("bin")})
            self.line(f"./mud of a built program in {folder}", 0, "lease 02:00:00:00:00:01 192.0.2.10 86400", ended)
            shutil.rmtree(self.path(folder))
