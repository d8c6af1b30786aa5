"""Sends to the built program what a stranger may send.

First with the answers that the formats give: each first part of a message, a frame, a usage file, two captures and a
DNS answer, options and TLVs that go past the end, lists within one another, IPv6 extension headers, and what is longer
than an input may be. (The first parts of requests, and of bodies, are among the sessions.) Then each file of examples
through each reader, where the status has to be 0 or 3 and each line one that the command may write (checks/written.py).
"""
from checks import session, texts, written
from checks.case import ProgramCase, cases_of
from checks.program import capture, copy_store, packet_ends, read, request, run

URL = "https://lighting.example.com/lightbulb2000"
MAC = "02:00:00:00:00:01"


def fault_at(size, steps):
    """The last of these steps, each an offset and what stands there, that isn't behind the size."""
    return [text for offset, text in steps if size >= offset][-1]


class Hostile(ProgramCase):
    def said(self, what, status, lines, octets, *words):
        self.ends(what, status, lines, run(*words, input=octets))

    def first_parts(self, octets, count, steps, *words):
        """The first octets, so many, say what stands behind the last offset of the steps: a fault or a line."""
        for size in range(count):
            text = fault_at(size, steps)
            self.said(f"the first {size} octets, {words}", 3 if text.startswith("fault") else 0, text + "\n", octets[:size], *words)


class Messages(Hostile):
    def test_dhcp(self):
        """A client's message: 240 octets of fixed fields, the options 53 at 240, 161 at 243 and 255 at 289."""
        message = read("examples/dhcp/made-url-and-more.bin")
        steps = [(0, "fault Cut 0"), (240, "nothing"), (241, "fault Cut 240"), (243, "nothing"), (244, "fault Cut 243"), (289, f"url {MAC} {URL}")]
        self.first_parts(message, 291, steps, "hear", "dhcp")
        for what, status, lines, octets in (
                ("an option of 255 octets past the end", 3, "fault Cut 243\n", message[:243] + b"\xa1\xff" + message[245:]),
                ("an option that is its code alone", 3, "fault Cut 289\n", message[:289] + b"\xa1"),
                ("as many octets of padding as a message may have", 0, "nothing\n", message[:240] + bytes(65295)),
                ("one octet of padding more", 3, "fault Long\n", message[:240] + bytes(65296))):
            self.said(what, status, lines, octets, "hear", "dhcp")

    def test_lldp(self):
        """14 octets of Ethernet, TLVs at 14, 23 and 27, the MUD URL TLV at 31, the end at 292."""
        frame = read("examples/lldp/made-url-of-255.bin")
        url = f"url {MAC} https://lighting.example.com/{'a' * 226}"
        steps = [(0, "fault Cut 0"), (14, "fault Order"), (15, "fault Cut 14"), (23, "fault Order"), (24, "fault Cut 23"), (27, "fault Order"),
                 (28, "fault Cut 27"), (31, "nothing"), (32, "fault Cut 31"), (292, url), (293, "fault Cut 292"), (294, url)]
        self.first_parts(frame, 295, steps, "hear", "lldp")
        for what, fault, octets in (
                ("a TLV of 511 octets past the end", "fault Cut 31\n", frame[:31] + bytes.fromhex("ffff00005e01") + frame[37:]),
                ("a first TLV of 511 octets past the end", "fault Cut 14\n", frame[:14] + b"\x03\xff" + frame[16:]),
                ("an end with an octet", "fault Order\n", frame[:31] + b"\0\1\0")):
            self.said(what, 3, fault, octets, "hear", "lldp")


def lists(count):
    return b"[" * count + b"]" * count


class Files(Hostile):
    def test_usage_file(self):
        """No part of it is a JSON text but the whole."""
        octets, lines = read("examples/usage-files/made-lightbulb.json"), read("examples/usage-files/made-lightbulb.lines")
        self.first_parts(octets, len(octets), [(0, "fault Json")], "check")
        self.said("a whole usage file", 0, lines, octets, "check")
        for count, fault in ((127, "WrongKind"), (128, "Json"), (200, "Json"), (100000, "Json")):
            self.said(f"{count} lists within one another", 3, f"fault {fault}\n", lists(count), "check")
        self.said("200 objects within one another, not closed", 3, "fault Json\n", b'{"a":' * 200, "check")
        for count, status, text in ((125, 0, lines), (126, 3, "fault Json\n"), (200, 3, "fault Json\n")):
            within = octets.replace(b'"mud-version"', b'"x":' + lists(count) + b',"mud-version"')
            self.said(f"a usage file with {count} lists in two objects", status, text, within, "check")
        self.said("one octet more than a usage file may have", 3, "fault TooLong\n", b" " * 262145, "check")
        self.said("as many octets as a usage file may have", 3, "fault Json\n", b" " * 262144, "check")

    def answered(self, what, body, status, answer):
        """The body is sent to /classes, and this is the answer's body."""
        self.said(what, 0, session.answer(status, answer), request("POST", "/classes", body, 5), "replay", ":memory:")

    def test_bodies(self):
        for count in (127, 128, 200):
            self.answered(f"a body of {count} lists within one another", lists(count), 400, '{"rule":"json"}')
        body = b'{"address":"192.0.2.53","class":"urn:ietf:params:mud:dns","x":'
        self.answered("a body with 126 lists in its object", body + lists(126) + b"}", 200, '{"result":"bound"}')
        self.answered("a body with 127 lists in its object", body + lists(127) + b"}", 400, '{"rule":"json"}')


def frame_of(digits):
    return bytes.fromhex(digits)


def extensions(count):
    """A frame of the bulb's with so many IPv6 extension headers, and then UDP."""
    return frame_of(f"0200000000fe020000000001 86dd 60000000{8 * count + 8:04x}0040 20010db8000000000000000000000001"
                    f" 20010db8000000000000000000000002 {'3c00010400000000' * (count - 1)} 1100010400000000 9c401389 00080000")


def answer_to_bulb(message):
    """A frame with this DNS message from the server that is bound."""
    size = len(message)
    return frame_of(f"020000000001 0200000000fe 0800 4500{size + 28:04x} 00010000 4011 0000 c0000235 c000020a"
                    f" 0035 9c40 {size + 8:04x} 0000") + message


FOUR_LINES = ["1 1795735776 link", "2 1795735776 link", "3 1795735776 packet 192.0.2.10 192.0.2.20 1 icmp 8 0",
              "4 1795735776 packet 192.0.2.20 192.0.2.10 1 icmp 0 0"]


class Captures(Hostile):
    def bulb(self):
        """A store with the bulb, made by requests."""
        made, store = session.run_of_steps(*session.BULB), self.path("bulb")
        ended = run("replay", store, input=made.octets)
        self.assertEqual(ended.out, made.wanted)
        return store

    def each_part(self, octets, lines, status, *words):
        """Of each first part the lines of the packets that are whole, and where it is cut; these lines are the whole's."""
        ends = packet_ends(octets)
        for size in range(len(octets)):
            whole = [line + "\n" for end, line in zip(ends[1:], lines) if end <= size]
            at = 0 if size < 24 else ends[len(whole)]
            fault = "" if size >= 24 and size == at else f"fault Cut {at}\n"
            self.said(f"the first {size} octets, {words[0]}", 3 if fault else 0, "".join(whole) + fault, octets[:size], *words)
        self.said(f"all octets, {words[0]}", status, "\n".join(lines) + "\n", octets, *words)

    def test_frames(self):
        """Of the first four packets of this one tshark says the same."""
        self.each_part(read("examples/captures/vlan-trunk.pcap")[:384], FOUR_LINES, 0, "frames")

    def test_judge(self):
        lines = read("examples/judge/made-bulb.lines").decode().splitlines()
        self.each_part(read("examples/judge/made-bulb.pcap"), lines, 3, "judge", self.bulb())

    def test_extensions(self):
        store = self.bulb()
        for what, frame, line, verdict in (
                ("eight extension headers", extensions(8), "packet 2001:db8::1 2001:db8::2 17 udp 40000 5001", "drop from=drop:no-match"),
                ("nine extension headers", extensions(9), "unreadable extension", "drop unreadable extension"),
                ("a packet without octets", b"", "unreadable ethernet", "drop unreadable ethernet")):
            octets = capture([(1001, frame)])
            self.said(f"{what}, frames", 0, f"1 1001 {line}\n", octets, "frames")
            self.said(f"{what}, judge", 0, f"1 1001 {verdict}\n", octets, "judge", store)

    def test_dns_answer(self):
        """12 octets of header, the name that is asked for at 12, its type and class up to 34; an alias at 34, its type at
        36, its content from 46 to 50; and an address at 50, its type at 52, its content from 62 to 66. Behind it stands
        what isn't read. A name is cut at its label that begins last."""
        store = self.bulb()
        answer = frame_of("0001 8180 0001 0002 0000 0000 0474657374076578616d706c6503636f6d00 0001 0001 "
                          "c00c 0005 0001 0000001e 0004 0161c011 c02e 0001 0001 0000003c 0004 c6336409 0000")
        steps = [(0, "dns fault Cut 0")] + [(at, f"dns fault Cut {at}") for at in (12, 17, 25, 29)]
        steps += [(30, "dns fault Cut 12"), (34, "dns fault Cut 34"), (50, "dns fault Cut 50"),
                  (66, "name test.example.com 198.51.100.9 30 new"), (67, "name test.example.com 198.51.100.9 30 same")]
        for size in range(len(answer) + 1):
            octets = capture([(1001, answer_to_bulb(answer[:size]))])
            lines = f"1 1001 pass to=default-dns\n{fault_at(size, steps)}\n"
            self.said(f"the first {size} octets of a DNS answer", 0, lines, octets, "snoop", store)


@cases_of(written.READERS)
class EachFile(Captures):
    """Each file of examples through each reader."""

    def each(self, name):
        words = ["hear", name] if name in ("dhcp", "lldp") else [name]
        if name in ("judge", "tally", "snoop"):
            words.append(self.path("read"))
            copy_store(self.bulb(), self.path("read"))
        elif name == "replay":
            words.append(":memory:")
        for path in texts.files("examples/**"):
            ended = run(*words, input=path)
            with self.subTest(path):
                written.look(name, ended.status, ended.out)
