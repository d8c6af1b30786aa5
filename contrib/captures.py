"""Captures, frames and DNS answers, for the programs that stand beside this file.

A capture is libpcap's in the classic format, or pcapng, of Ethernet. A frame is read as the manager reads it.
"""
import functools
import ipaddress
import struct

VLANS = (0x8100, 0x88A8)
LLDP, IPV4, IPV6 = 0x88CC, 0x0800, 0x86DD
TCP, UDP, ICMP, ICMPV6 = 6, 17, 1, 58
HOP_BY_HOP, ROUTING, FRAGMENT, DESTINATION = 0, 43, 44, 60
TAGS, EXTENSIONS = 2, 8
LONGEST_TTL = 2147483647
# types of ICMP that quote the packet that they tell of, and how much of it they have at least
ERRORS = {4: (3, 4, 5, 11, 12), 6: (1, 2, 3, 4)}
QUOTED = {4: 28, 6: 48}
ETHERNET = 1
CLASSIC = {b"\xd4\xc3\xb2\xa1": "<", b"\x4d\x3c\xb2\xa1": "<", b"\xa1\xb2\xc3\xd4": ">", b"\xa1\xb2\x3c\x4d": ">"}
SECTION, INTERFACE, SIMPLE, ENHANCED, OBSOLETE = 0x0A0D0D0A, 1, 3, 6, 2
MOST, LATEST = 524288, 0xFFFFFFFF
V4_HEAD = struct.Struct(">BxHxxHxBxx4s4s").unpack_from
V6_HEAD = struct.Struct(">BxxxHBB16s16s").unpack_from
PORTS = struct.Struct(">HH").unpack_from


class Unread(Exception):
    """Why it is no capture that can be read, in words."""


class Cut(Unread):
    """It ends in the midst of a packet."""

    def __init__(self):
        super().__init__("the capture ends in the midst of a packet")


@functools.lru_cache(maxsize=1 << 16)
def address_of(octets):
    """The address of 4 or 16 octets."""
    return ipaddress.ip_address(octets)


# ---- Captures

def whole(octets, count):
    """So many octets of a reader, which gives fewer at the end alone."""
    taken = octets(count) if count else b""
    if len(taken) < count:
        raise Cut()
    return taken


def frames(octets):
    """The seconds and the octets of each frame. `octets(n)` gives n octets, and fewer at the end alone."""
    head = octets(4)
    if not head:
        return
    if head == b"\x0a\x0d\x0d\x0a":
        yield from sections(octets, head)
    elif head in CLASSIC:
        yield from classic(octets, CLASSIC[head])
    else:
        raise Unread("this is no capture in libpcap's classic format or in pcapng")


def classic(octets, order):
    """The frames behind the first four octets of a capture in the classic format."""
    if struct.unpack(order + "I", whole(octets, 20)[16:])[0] != ETHERNET:
        raise Unread("this capture isn't of Ethernet, as one of '-i any' isn't")
    numbers = struct.Struct(order + "3I").unpack_from
    while head := octets(16):
        if len(head) < 16:
            raise Cut()
        seconds, _, captured = numbers(head)
        if captured > MOST:
            raise Unread("a packet of the capture is too long")
        yield seconds, whole(octets, captured)


def sections(octets, head):
    """The frames of a capture in pcapng, whose first four octets were read."""
    order, units = "<", []
    while head:
        if head == b"\x0a\x0d\x0d\x0a":
            length, magic = whole(octets, 4), whole(octets, 4)
            order = {b"\x4d\x3c\x2b\x1a": "<", b"\x1a\x2b\x3c\x4d": ">"}.get(magic)
            if order is None:
                raise Unread("a section of the capture has no order of octets")
            skip(octets, struct.unpack(order + "I", length)[0] - 12)
            units = []
        else:
            if len(head) < 4:
                raise Cut()
            kind, size = struct.unpack(order + "2I", head + whole(octets, 4))
            yield from block(octets, order, kind, size - 8, units)
        head = octets(4)


def block(octets, order, kind, size, units):
    """The frame of a block, where it has one; an interface adds its units of time to a second."""
    if kind in (SIMPLE, OBSOLETE):
        raise Unread("a packet of the capture is in an old form: tshark -F pcap -r IN -w OUT makes another one")
    if kind not in (INTERFACE, ENHANCED):
        skip(octets, size)
        return
    if not 4 <= size <= MOST:
        raise Unread("a block of the capture is too long")
    body = whole(octets, size)[:-4]
    if len(body) < (20 if kind == ENHANCED else 8):
        raise Unread("a block of the capture is too short")
    if kind == INTERFACE:
        units.append(units_of(body, order))
        return
    number, high, low, captured = struct.unpack(order + "4I", body[:16])
    if number >= len(units) or not units[number]:
        raise Unread("a packet of the capture isn't of Ethernet")
    seconds = (high << 32 | low) // units[number]
    if captured > len(body) - 20 or seconds > LATEST:
        raise Unread("a packet of the capture has more octets than its block, or comes too late")
    yield seconds, body[20:20 + captured]


def units_of(body, order):
    """How many units of time an interface has in a second, or 0 where it isn't Ethernet."""
    if struct.unpack(order + "H", body[:2])[0] != ETHERNET:
        return 0
    at, power = 8, 6
    while at + 4 <= len(body):
        code, length = struct.unpack(order + "2H", body[at:at + 4])
        if code == 0:
            break
        if code == 9 and length == 1:
            power = body[at + 4]
        at += 4 + (length + 3) // 4 * 4
    return 2 ** (power & 127) if power & 128 else 10 ** power


def skip(octets, count):
    """Passes over so many octets."""
    if count < 4:
        raise Unread("a block of the capture is too short")
    while count:
        count -= len(whole(octets, min(count, MOST)))


# ---- Frames

class Packet:
    """What a frame says. `part` is the part of it that can't be read, `version` that of an IP packet and else 0;
    `is_link` says that it isn't IP or keeps the link up, `later` that it is a later fragment, and `layer` is `tcp`,
    `udp`, `icmp` or nothing. `pair` is the ports, or the type and code of ICMP. `vlans` is the numbers of its tags, and
    `whole` tells the packet that it is a fragment of, or is None. Addresses are in octets."""

    __slots__ = ("frame", "kind", "part", "version", "is_link", "later", "protocol", "source", "destination", "layer", "pair",
                 "flags", "at", "end", "vlans", "whole")

    def __init__(self, frame):
        self.frame, self.kind, self.part, self.version, self.vlans = frame, 0, None, 0, ()
        self.is_link, self.later, self.layer, self.pair, self.whole = False, False, None, None, None
        self.source = self.destination = self.protocol = None
        size = len(frame)
        if size < 14:
            self.part = "ethernet"
            return
        at, tags, kind = 14, 0, frame[12] << 8 | frame[13]
        while kind in VLANS:
            if tags == TAGS or size < at + 4:
                self.part = "tag"
                return
            self.vlans += ((frame[at] & 15) << 8 | frame[at + 1],)
            kind, at, tags = frame[at + 2] << 8 | frame[at + 3], at + 4, tags + 1
        self.kind = kind
        if kind == IPV4:
            self.read_ipv4(at, size)
        elif kind == IPV6:
            self.read_ipv6(at, size)
        else:
            self.is_link = True

    @property
    def to(self):
        """The hardware address that it is for."""
        return self.frame[:6].hex(":")

    def read_ipv4(self, at, size):
        if size < at + 20:
            self.part = "ip"
            return
        first, total, fragment, self.protocol, source, destination = V4_HEAD(self.frame, at)
        head = 4 * (first & 15)
        if first >> 4 != 4 or head < 20 or total < head or size < at + head:
            self.part = "ip"
            return
        self.version, self.source, self.destination = 4, source, destination
        if fragment & 0x3FFF:
            self.whole = (source, destination, self.protocol, self.frame[at + 4:at + 6])
        if fragment & 0x1FFF:
            self.later = True
            return
        self.read_layer(at + head, min(at + total, size), ICMP)
        if self.layer == "udp" and self.pair in ((67, 68), (68, 67)):
            self.is_link = self.pair[0] == 67 or source == bytes(4) or destination == b"\xff" * 4

    def read_ipv6(self, at, size):
        if size < at + 40:
            self.part = "ip"
            return
        first, length, following, hops, source, destination = V6_HEAD(self.frame, at)
        if first >> 4 != 6:
            self.part = "ip"
            return
        self.version, self.source, self.destination = 6, source, destination
        at, end, headers = at + 40, min(at + 40 + length, size), 0
        while following in (HOP_BY_HOP, ROUTING, FRAGMENT, DESTINATION):
            length = 8 if following == FRAGMENT else 8 * (self.frame[at + 1] + 1) if at + 8 <= end else 8
            if headers == EXTENSIONS or end < at + length:
                self.part = "extension"
                return
            if following == FRAGMENT:
                place = self.frame[at + 2] << 8 | self.frame[at + 3]
                self.later = place >> 3 != 0
                if place & 0xFFF9:
                    self.whole = (source, destination, self.frame[at + 4:at + 8])
            following, at, headers = self.frame[at], at + length, headers + 1
            if self.later:
                self.protocol = following
                return
        self.protocol = following
        self.read_layer(at, end, ICMPV6)
        self.is_link = self.layer == "icmp" and 133 <= self.pair[0] <= 137 and hops == 255

    def read_layer(self, at, end, icmp):
        """Reads the transport header."""
        frame, protocol, self.at, self.end = self.frame, self.protocol, at, end
        if protocol == TCP:
            if end < at + 20 or frame[at + 12] >> 4 < 5:
                self.part = "transport"
                return
            self.layer, self.pair, self.flags = "tcp", PORTS(frame, at), frame[at + 13]
        elif protocol == UDP:
            if end < at + 8:
                self.part = "transport"
                return
            self.layer, self.pair = "udp", PORTS(frame, at)
        elif protocol == icmp:
            if end < at + 4:
                self.part = "transport"
                return
            self.layer, self.pair = "icmp", (frame[at], frame[at + 1])

    def datagram(self):
        """The ports and the data of a UDP datagram that isn't cut in pieces, or None."""
        if self.layer != "udp":
            return None
        length = self.frame[self.at + 4] << 8 | self.frame[self.at + 5]
        return (*self.pair, self.frame[self.at + 8:self.at + length]) if length <= self.end - self.at else None

    def is_error(self):
        """Whether it is ICMP that tells of another packet."""
        return self.layer == "icmp" and self.pair[0] in ERRORS[self.version]

    def quoted(self):
        """The packet of which an ICMP error tells, or None where that can't be read. Its end may be cut."""
        octets = self.frame[self.at + 8:self.end]
        if len(octets) < QUOTED[self.version]:
            return None
        # of a TCP header the ports are there, and for the rest stands one without options
        kind = IPV4 if self.version == 4 else IPV6
        packet = Packet(bytes(12) + kind.to_bytes(2, "big") + octets + b"\x50" * 20)
        return packet if packet.layer else None

    def __str__(self):
        """As 'mud frames' says it, of a packet that can be read."""
        if not self.version:
            return "- -"
        text = f"packet {address_of(self.source)} {address_of(self.destination)} {self.protocol}"
        if self.layer is None:
            return text
        flags = f" {self.flags}" if self.layer == "tcp" else ""
        return f"{text} {self.layer} {self.pair[0]} {self.pair[1]}{flags}"


# ---- DNS answers

def name_at(message, at):
    """The name that begins there, in lower case, and the place behind it."""
    labels, behind, jumps = [], None, 0
    while message[at]:
        if message[at] >= 0xC0:
            behind = behind or at + 2
            at = int.from_bytes(message[at : at + 2], "big") & 0x3FFF
            jumps += 1
            if jumps > 127:
                raise ValueError("a name that goes in a circle")
        else:
            labels.append(message[at + 1 : at + 1 + message[at]].decode("ascii"))
            at += 1 + message[at]
    return ".".join(labels).lower(), behind or at + 1


def answers(message):
    """The name that a DNS answer is for, and its addresses, each with the least time on the way to it. Of what can't
    be read it is no name and no address."""
    try:
        return answers_of(message)
    except (IndexError, ValueError, struct.error):
        return "", []


def answers_of(message):
    _, flags, questions, count = struct.unpack(">4H", message[:8])
    if flags & 0x8000 == 0 or flags & 15 or questions != 1:
        return "", []
    name, at = name_at(message, 12)
    at += 4
    aliases, addresses = {}, []
    for _ in range(count):
        owner, at = name_at(message, at)
        kind, _, ttl, size = struct.unpack(">HHIH", message[at : at + 10])
        at += 10
        if kind == 5:
            aliases[owner] = (name_at(message, at)[0], ttl)
        elif (kind, size) in ((1, 4), (28, 16)):
            addresses.append((owner, ipaddress.ip_address(message[at : at + size]), ttl))
        at += size
    owner, least = name, LONGEST_TTL
    times = {name: least}
    while owner in aliases and aliases[owner][0] not in times:
        owner, ttl = aliases[owner]
        least = min(least, ttl)
        times[owner] = least
    return name, [(address, min(ttl, times[owner])) for owner, address, ttl in addresses if owner in times]
