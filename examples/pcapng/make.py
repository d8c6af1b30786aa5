#!/usr/bin/env python3
"""Makes the captures in this folder by draft-ietf-opsawg-pcapng, and the lines and statuses that `mud frames`
owes to them: expected.tsv names each file and its status, NAME.lines are its lines. What is expected is said
here beside each capture, and isn't read back from it.

    examples/pcapng/make.py     writes all files anew
"""

import os
import struct

FOLDER = os.path.dirname(os.path.abspath(__file__))

# a frame of 54 octets, a SYN from 192.0.2.10 port 50000 to 198.51.100.7 port 443, and an ARP request
SYN = bytes.fromhex("0200000000fe02000000000108004500002800010000400600 00c000020ac6336407"
                    "c35001bb00000001000000005002ffff00000000".replace(" ", ""))
ARP = bytes.fromhex("ffffffffffff0200000000010806000108000604000102000000000 1c000020a000000000000c0000201".replace(" ", ""))
SYN_WORDS = "packet 192.0.2.10 198.51.100.7 6 tcp 50000 443 2"


class Writer:
    """Blocks in one order of octets."""

    def __init__(self, little=True):
        self.mark = "<" if little else ">"

    def pack(self, form, *numbers):
        return struct.pack(self.mark + form, *numbers)

    def block(self, kind, body, total=None, last=None):
        body += b"\0" * (-len(body) % 4)
        length = len(body) + 12
        return (self.pack("II", kind, length if total is None else total) + body
                + self.pack("I", length if last is None else last))

    def option(self, code, content):
        return self.pack("HH", code, len(content)) + content + b"\0" * (-len(content) % 4)

    def section(self, major=1, minor=0, options=b"", magic=0x1A2B3C4D):
        return self.block(0x0A0D0D0A, self.pack("IHHq", magic, major, minor, -1) + options)

    def interface(self, link=1, options=b"", reserved=0):
        return self.block(1, self.pack("HHI", link, reserved, 262144) + options)

    def packet(self, time, octets, interface=0, options=b"", captured=None, **more):
        head = self.pack("IIIII", interface, time >> 32, time & 0xFFFFFFFF,
                         len(octets) if captured is None else captured, len(octets))
        return self.block(6, head + octets + b"\0" * (-len(octets) % 4) + options, **more)

    def resolution(self, octet):
        return self.option(9, bytes([octet]))


L, B = Writer(True), Writer(False)
BEGUN = L.section() + L.interface()
ONE = L.packet(1059000000, SYN)
CASES = []


def whole(name, octets, *packets):
    """A capture that ends whole: each packet by its seconds, and by its words where it isn't the SYN."""
    lines = [f"{n} {seconds} {words}" for n, (seconds, words) in enumerate(packets, 1)]
    CASES.append((name, 0, octets, lines))


def broken(name, octets, fault, *packets):
    lines = [f"{n} {seconds} {words}" for n, (seconds, words) in enumerate(packets, 1)]
    CASES.append((name, 3, octets, lines + [f"fault {fault}"]))


def syn(seconds):
    return seconds, SYN_WORDS


ARP_AT = "link"

# ---- whole captures
whole("one-packet", BEGUN + ONE, syn(1059))
whole("section-alone", L.section())
whole("version-1-2", L.section(1, 2) + L.interface() + ONE, syn(1059))
whole("big", B.section() + B.interface() + B.packet(1059000000, SYN), syn(1059))
whole("both-orders", BEGUN + ONE + B.section() + B.interface() + B.packet(2000000000, ARP) + L.section() + L.interface()
      + L.packet(3 * 10**6 - 1, SYN), syn(1059), (2000, ARP_AT), syn(2))
whole("powers-of-ten", L.section() + b"".join(L.interface(options=L.resolution(n)) for n in range(10))
      + b"".join(L.packet(7 * 10**n + 10**n - 1, SYN, interface=n) for n in range(10)), *[syn(7)] * 10)
whole("powers-of-two", B.section() + b"".join(B.interface(options=B.resolution(128 + n)) for n in range(31))
      + b"".join(B.packet(9 * 2**n + 2**n - 1, SYN, interface=n) for n in range(31)), *[syn(9)] * 31)
whole("last-of-two-options", L.section() + L.interface(options=L.resolution(0) + L.resolution(3)) + L.packet(1059999, SYN), syn(1059))
whole("options-ended", L.section() + L.interface(options=L.option(0, b"") + L.resolution(77)) + ONE, syn(1059))
whole("comments-and-names",
      L.section(options=L.option(1, b"a comment") + L.option(4, b"a program") + L.option(0, b""))
      + L.interface(options=L.option(2, b"eth0") + L.resolution(9) + L.option(11, b"\0tcp") + L.option(0, b""))
      + L.block(4, L.pack("HH", 1, 17) + bytes([192, 0, 2, 10]) + b"host.example\0" + b"\0" * 3 + L.pack("HH", 0, 0))
      + L.packet(1059 * 10**9, SYN, options=L.option(1, b"a comment of a packet") + L.option(0, b""))
      + L.block(5, L.pack("III", 0, 0, 0) + L.option(4, L.pack("Q", 1)) + L.option(0, b""))
      + L.block(10, L.pack("II", 0x544C534B, 5) + b"keys\n")
      + L.block(0xBAD, L.pack("I", 32473) + b"of a maker")
      + L.block(0x12345678, b"x" * 5000)
      + L.packet(1060 * 10**9, ARP), syn(1059), (1060, ARP_AT))
whole("three-interfaces", L.section() + L.interface() + L.interface(options=L.resolution(0)) + L.interface(options=L.resolution(0x94))
      + L.packet(5 * 10**6, SYN) + L.packet(6, SYN, interface=1) + L.packet(7 * 2**20, ARP, interface=2), syn(5), syn(6), (7, ARP_AT))
whole("interface-of-another-link-unused", L.section() + L.interface(113) + L.interface() + L.packet(1059000000, SYN, interface=1), syn(1059))
whole("sixty-four-interfaces", L.section() + L.interface() * 64 + L.packet(1059000000, SYN, interface=63), syn(1059))
whole("offset-0", L.section() + L.interface(options=L.option(14, b"\0" * 8)) + ONE, syn(1059))
whole("last-second", L.section() + L.interface(options=L.resolution(0)) + L.packet(2**32 - 1, SYN), syn(2**32 - 1))
whole("filling-captured", BEGUN + L.packet(1059000000, SYN + b"\0\0"), syn(1059))

# ---- each fault, at the octet where its block begins
broken("cut-last-number", BEGUN + ONE[:-4], "Cut 48")
broken("simple-packet", BEGUN + L.block(3, ONE[8:-4]), "PacketForm 48")
broken("obsolete-packet", BEGUN + ONE + L.block(2, ONE[8:-4]), "PacketForm 136", syn(1059))
broken("cut-head", BEGUN + ONE + ONE[:11], "Cut 136", syn(1059))
broken("cut-in-a-passed-block", BEGUN + L.block(5, b"\0" * 40)[:-1], "Cut 48")
broken("endless-passed-block", BEGUN + L.pack("II", 5, 0xFFFFFFFC) + b"\0" * 100, "Cut 48")
broken("no-section", L.section()[:4] + b"\0" * 5, "Cut 0")
broken("no-order", L.section(magic=0x1A2B3C4E), "Magic 0")
broken("later-section-without-order", BEGUN + L.section(magic=0), "Magic 48")
broken("version-1-1", L.section(1, 1), "Version 0")
broken("version-2-0", BEGUN + ONE + B.section(2, 0), "Version 136", syn(1059))
broken("link-113", L.section() + L.interface(113) + ONE, "LinkType 48")
broken("missing-interface", BEGUN + L.packet(1059000000, SYN, interface=1), "Interface 48")
broken("forgotten-interface", BEGUN + ONE + L.section() + ONE, "Interface 164", syn(1059))
broken("one-interface-too-many", L.section() + L.interface() * 65, f"Many {28 + 64 * 20}")
broken("total-not-a-multiple-of-4", BEGUN + L.pack("II", 6, 87) + ONE[8:], "Length 48")
broken("total-too-short", BEGUN + L.pack("II", 6, 28) + ONE[8:], "Length 48")
broken("total-of-8", BEGUN + L.pack("III", 7, 8, 8), "Length 48")
broken("other-last-number", BEGUN + L.packet(1059000000, SYN, last=84), "Length 48")
broken("other-last-number-of-a-passed-block", BEGUN + L.block(5, b"\0" * 12, last=20), "Length 48")
broken("captured-beyond-the-block", BEGUN + L.packet(1059000000, SYN, captured=57), "Length 48")
broken("option-passes", L.section() + L.interface(options=L.pack("HH", 1, 5) + b"abcd"), "Length 28")
broken("resolution-of-two-octets", L.section() + L.interface(options=L.option(9, b"\6\0")), "Length 28")
broken("resolution-of-no-octet", L.section() + L.interface(options=L.option(9, b"")), "Length 28")
broken("long-packet-block", BEGUN + L.pack("II", 6, 524292) + ONE[8:], "Long 48")
broken("long-captured", BEGUN + L.packet(1059000000, SYN, captured=262145), "Long 48")
broken("resolution-10", L.section() + L.interface(options=L.resolution(10)), "Resolution 28")
broken("resolution-2-31", L.section() + L.interface(options=L.resolution(0x9F)), "Resolution 28")
broken("offset-1", L.section() + L.interface(options=L.option(14, L.pack("q", 1))), "Resolution 28")
broken("offset-of-four-octets", L.section() + L.interface(options=L.option(14, b"\0" * 4)), "Resolution 28")
broken("too-late", L.section() + L.interface(options=L.resolution(0)) + L.packet(2**32, SYN), "Late 56")

with open(os.path.join(FOLDER, "expected.tsv"), "w", encoding="utf-8") as table:
    table.write("file\tstatus\n")
    for name, status, octets, lines in CASES:
        with open(os.path.join(FOLDER, name + ".pcapng"), "wb") as capture:
            capture.write(octets)
        with open(os.path.join(FOLDER, name + ".lines"), "w", encoding="utf-8") as text:
            text.write("".join(line + "\n" for line in lines))
        table.write(f"{name}\t{status}\n")
