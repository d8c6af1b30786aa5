"""contrib/draft as a module, captures that are made for it, and what the manager says of them by a drafted file."""
import contextlib
import importlib.machinery
import importlib.util
import ipaddress
import json
import os
import struct
import sys

from checks import program
from checks.explaining import digest
from checks.program import run
from checks.texts import HERE

SCRIPT = os.path.join(HERE, "contrib/draft")
URL = "https://lighting.example.com/lightbulb2000"
MAC, OTHER, GATE = "02:00:00:00:00:01", "02:00:00:00:00:02", "02:00:00:00:00:fe"
DNS, NTP = "urn:ietf:params:mud:dns", "urn:ietf:params:mud:ntp"
DAY = 86400
BEGIN = 1800000000 // DAY * DAY


def loaded():
    """contrib/draft and what it stands on, which are no part of this package."""
    sys.path.insert(0, os.path.join(HERE, "contrib"))
    try:
        loader = importlib.machinery.SourceFileLoader("draft", SCRIPT)
        module = importlib.util.module_from_spec(importlib.util.spec_from_loader("draft", loader))
        loader.exec_module(module)
        return module
    finally:
        sys.path.pop(0)


DRAFT = loaded()
CAPTURES, DEEDS = DRAFT.captures, DRAFT.seen_deeds


def reader_of(octets):
    """A reader of the octets, as a program has one of its input."""
    at = 0

    def read(count):
        nonlocal at
        taken = octets[at:at + count]
        at += len(taken)
        return taken

    return read


def frames_of(octets):
    """The frames of a capture, up to where it is cut, each with its second."""
    rows = []
    with contextlib.suppress(CAPTURES.Cut):
        rows.extend(CAPTURES.frames(reader_of(octets)))
    return rows


def drafted(octets, *words, mac=MAC, now=BEGIN):
    """The file's octets and the report of a draft."""
    ended = run(*words, "--now", str(now), mac, URL, program=SCRIPT, input=octets, env={**os.environ, "TZ": "UTC", "MUD": program.PROGRAM})
    return ended.status, ended.out, ended.errors.decode()


# ---- Frames

def ethernet(source, to, kind, packet):
    return bytes.fromhex((to + source).replace(":", "")) + struct.pack(">H", kind) + packet


def ip(source, to, protocol, payload, fragment=0):
    """An IP packet."""
    one, other = (ipaddress.ip_address(text).packed for text in (source, to))
    if len(one) == 4:
        return 0x0800, struct.pack(">BBHHHBBH", 0x45, 0, 20 + len(payload), 1, fragment, 64, protocol, 0) + one + other + payload
    return 0x86DD, struct.pack(">IHBB", 6 << 28, len(payload), protocol, 64) + one + other + payload


def tcp(source, to, flags):
    return struct.pack(">HHIIBBHHH", source, to, 1, 0, 0x50, flags, 1024, 0, 0)


def udp(source, to, data=b""):
    return struct.pack(">HHHH", source, to, 8 + len(data), 0) + data


def error(kind, code, source, to, protocol, payload, cut=8):
    """An error of ICMP that quotes a packet: its IP header, and so many octets behind it."""
    packet = ip(source, to, protocol, payload)[1]
    return struct.pack(">BBHI", kind, code, 0, 0) + packet[:(40 if ":" in source else 20) + cut]


def tagged(frame, *vlans):
    """A frame with VLAN tags."""
    return frame[:12] + b"".join(struct.pack(">HH", 0x8100, vlan) for vlan in vlans) + frame[12:]


def answer(name, *addresses):
    """A DNS answer: the name is an alias of another one, which has the addresses."""
    def labels(text):
        return b"".join(bytes([len(part)]) + part.encode() for part in text.split(".")) + b"\0"

    def row(owner, kind, data):
        return labels(owner) + struct.pack(">HHIH", kind, 1, 60, len(data)) + data

    packed = [ipaddress.ip_address(address).packed for address in addresses]
    rows = [row(name, 5, labels("alias.example.net"))] + [row("alias.example.net", 1 if len(it) == 4 else 28, it) for it in packed]
    return struct.pack(">6H", 1, 0x8180, 1, len(rows), 0, 0) + labels(name) + struct.pack(">HH", 1, 1) + b"".join(rows)


class Scene:
    """A capture of a Thing, which is made step by step; each step is some seconds later than the last one."""

    def __init__(self, mac=MAC, own="192.168.1.10", own6="2001:db8::10", begin=BEGIN):
        self.mac, self.own, self.own6, self.now, self.packets = mac, own, own6, begin, []

    def wait(self, seconds):
        self.now += seconds
        return self

    def put(self, is_sent, peer, protocol, payload, fragment=0, far=GATE):
        """A packet to the peer or from it."""
        own = self.own if ":" not in peer else self.own6
        kind, packet = ip(*((own, peer) if is_sent else (peer, own)), protocol, payload, fragment)
        self.packets.append((self.now, ethernet(*((self.mac, far) if is_sent else (far, self.mac)), kind, packet)))
        return self

    def connect(self, peer, port, is_sent=True, own=50000, end=17, answers=True, begins=True):
        """A connection that one side begins to a port of the other."""
        ports = (own, port)
        flags = [(True, 2), (False, 18), (True, 16), (True, 24), (False, 24), (False, end), (True, 16)] if answers else [(True, 2), (False, 20)]
        for by_client, flag in flags if begins else flags[2:]:
            self.put(by_client == is_sent, peer, 6, tcp(*(ports if by_client else ports[::-1]), flag))
        return self

    def ask(self, peer, port, own=50000, is_sent=True, answers=True, data=b""):
        """A datagram that one side sends to a port of the other, and what is answered."""
        self.put(is_sent, peer, 17, udp(own, port))
        return self.put(not is_sent, peer, 17, udp(port, own, data)) if answers else self

    def name(self, name, *addresses, server="192.168.1.1"):
        """The Thing asks for a name."""
        return self.ask(server, 53, data=answer(name, *addresses))

    def octets(self):
        return program.capture(self.packets)

    def sections(self):
        """The same in pcapng."""
        def block(kind, body):
            body += bytes(-len(body) % 4)
            return struct.pack("<2I", kind, 12 + len(body)) + body + struct.pack("<I", 12 + len(body))

        rows = [(divmod(int(second) * 1000000, 1 << 32), frame) for second, frame in self.packets]
        return (block(0x0A0D0D0A, struct.pack("<IHHq", 0x1A2B3C4D, 1, 0, -1)) + block(1, struct.pack("<HHI", 1, 0, 0))
                + b"".join(block(6, struct.pack("<5I", 0, high, low, len(frame), len(frame)) + frame) for (high, low), frame in rows))


# ---- The manager

def requests_of(octets, file, options, macs=()):
    """What the manager is told of a capture, at its first second: announcements, leases, names until its end, servers,
    local networks, and the file with its verdict. More Things have another URL, or the same where it is given."""
    rows = frames_of(octets)
    moment, until = rows[0][0], max(second for second, _ in rows) + DAY
    mac = bytes.fromhex(options.mac.replace(":", ""))
    told = [("POST", "/hear/dhcp", announcement(options.mac, URL))] + [("POST", "/hear/dhcp", announcement(*other)) for other in macs]
    for _, frame in rows:
        packet = CAPTURES.Packet(frame)
        if packet.layer != "udp" or packet.datagram() is None:
            continue
        source, destination, data = packet.datagram()
        if (source, destination) == (67, 68):
            told.append(("POST", "/hear/dhcp", data))
        elif source == 53 and frame[:6] == mac:
            name, found = CAPTURES.answers(data)
            found = found if DEEDS.HOST.fullmatch(name) else []
            told += [("POST", "/names", {"name": name, "address": str(address), "ttl": until - moment}) for address, _ in found]
    for kind, addresses in ((DNS, options.dns), (NTP, options.ntp)):
        told += [("POST", "/classes", {"class": kind, "address": str(address)}) for address in addresses]
    told += [("POST", "/classes", {**({"class": uri} if uri else {"my-controller-of": URL}), "address": str(address)})
             for address, uri in options.controller]
    told += [("PUT", "/locals", {"prefixes": list(options.local or DRAFT.LOCAL)}), ("POST", "/files", file),
             ("POST", "/verdicts", {"url": URL, "sha256": digest(file), "verdict": "waived"})]
    return [program.request(method, target, body if isinstance(body, bytes) else json.dumps(body), moment) for method, target, body in told]


def announcement(mac, url):
    """A client's message with a MUD URL."""
    message = bytearray(240)
    message[0], message[1], message[2] = 1, 1, 6
    message[28:34] = bytes.fromhex(mac.replace(":", ""))
    message[236:240] = bytes.fromhex("63825363")
    return bytes(message) + b"\xa1" + bytes([len(url)]) + url.encode() + b"\xff"


def leased():
    """A server's message that leases nothing."""
    return bytes([2, 1, 6]) + bytes(233) + bytes.fromhex("63825363") + b"\xff"


def fates(octets, options):
    """Of each packet what the draft says of it: a word, or what was found and whether it stands in the file; and all that
    was found."""
    reader = DEEDS.Reader(options.mac, [it.packed for it in options.dns], [it.packed for it in options.ntp])
    taken = [reader.take(second, frame) for second, frame in frames_of(octets)]
    rows = DRAFT.found_in(reader, DRAFT.Known(options.local or DRAFT.LOCAL, options.controller))
    DRAFT.give_reasons(rows, reader)
    kept = DRAFT.kept_of(rows, set(getattr(options, "with")))
    DRAFT.drafted(URL, kept, BEGIN)
    strays = {id(deed) for key, deed in reader.deeds.items() if key[4] == "tcp" and key[5] is None and not deed.found.is_open}
    return [fate if fate is None or isinstance(fate, str) else "stray" if id(fate) in strays else "kept" if fate.found in kept else "left"
            for fate in taken], rows


def idle(rows):
    """The entries that may decide nothing of the capture: of a connection of which one direction isn't in it, and of a name
    all of whose addresses have another one, too."""
    for row in rows:
        alike = [other for other in rows if other.places and other.key()[4:] == row.key()[4:] and (other.version, other.label[0]) == (row.version, "name")]
        others = {peer for other in alike if other is not row for peer in other.deed.peers}
        seen = {"from": row.deed.sent, "to": row.deed.packets - row.deed.sent}
        for side, number in row.places.items():
            if (row.kind == "tcp" and not seen[side]) or (row.label[0] == "name" and set(row.deed.peers) <= others):
                yield side, number
