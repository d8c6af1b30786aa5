"""How dear a day of ten million packets is, for contrib/mud-day beside the program that it runs.

Each second of the day has the same count of packets; what they are is known, and so what the day has to say of them. EACH in
the environment is another count, for a quick look.
"""
import os
import struct
import time

from checks import days, program
from checks.case import needs
from checks.cases.day import KINDS, OfDays
from checks.days import AT, CAMERA, CLOUD, DATE, HOUR, LAPTOP, OUTSIDE, ROUTER, START, WEB
from checks.drafting import ethernet, ip, tcp, udp
from checks.program import read

# 116 packets in each second are 10,022,400 in the day, and the bound is for as many; each has so many octets of data
WHOLE, DATA, CONNECTIONS, BLOCKS = 116, 40, 40, 500
EACH = int(os.environ.get("EACH", WHOLE))
SECONDS, MEGABYTES = 120, 500
MARK = b"\xde\xad\xbe\xef"
# the program, which notes the processor's time that it and this shell took
WRAPPED = """#!/usr/bin/env bash
"{program}" "$@"
status=$?
# no pipe: behind one a shell of its own would tell, which ran nothing
times >> "{times}"
exit $status
"""


def tcp_frame(source, to, ports, flags, macs):
    return ethernet(*macs, *ip(source, to, 6, tcp(*ports, flags) + bytes(DATA)))


@needs("bash")
class BusyDay(OfDays):
    alone = True

    def setUp(self):
        super().setUp()
        os.makedirs(self.path("bin"))
        with open(self.path("bin/mud"), "w", encoding="ascii") as file:
            file.write(WRAPPED.format(program=program.PROGRAM, times=self.path("times")))
        os.chmod(self.path("bin/mud"), 0o755)
        self.environment["MUD"] = self.path("bin/mud")

    def capture_more(self, made):
        made.packets = []

    @staticmethod
    def dropped(number):
        """A packet that is dropped, each of another connection: a try of the camera, one of an outsider, or a datagram."""
        port = 1024 + number % 60000
        if number % 3 == 0:
            return tcp_frame(AT[CAMERA], WEB, (port, 80), days.SYN, (CAMERA, ROUTER))
        if number % 3 == 1:
            return tcp_frame(OUTSIDE, AT[CAMERA], (port, 23), days.SYN, (ROUTER, CAMERA))
        return ethernet(CAMERA, ROUTER, *ip(AT[CAMERA], WEB, 17, udp(port, 9999, bytes(DATA))))

    @staticmethod
    def other(number):
        """A packet that isn't: of the camera's connections, or of the laptop, which is no Thing."""
        port = 50000 + number % CONNECTIONS
        if number % 3 == 0:
            return "unmanaged", tcp_frame(AT[LAPTOP], WEB, (port, 443), days.ACK, (LAPTOP, ROUTER))
        if number % 3 == 1:
            return "passed", tcp_frame(AT[CAMERA], CLOUD, (port, 443), days.ACK, (CAMERA, ROUTER))
        return "passed", tcp_frame(CLOUD, AT[CAMERA], (443, port), days.ACK, (ROUTER, CAMERA))

    def write_day(self, share):
        """Writes the day, of which so many packets of a hundred are dropped. How many there are of each kind."""
        made, wanted = days.Day(), dict.fromkeys(KINDS, 0)
        made.packets = []
        made.named(START, CAMERA, "cloud.example.net", CLOUD)
        for port in range(CONNECTIONS):
            made.begin(START, CAMERA, CLOUD, 50000 + port, 443)
        wanted["passed"] += len(made.packets)
        blocks = []
        for block in range(BLOCKS):
            rows = [("dropped", self.dropped(block * EACH + at)) if at * 100 < share * EACH else self.other(block * EACH + at) for at in range(EACH)]
            blocks.append(([kind for kind, _ in rows], b"".join(MARK + struct.pack("<III", 0, len(frame), len(frame)) + frame for _, frame in rows)))
        for hour in range(24):
            with open(self.path(time.strftime("captures/br0-%Y%m%dT%H%M%SZ.pcap", time.gmtime(START + hour * HOUR))), "wb") as file:
                file.write(program.capture(made.packets if hour == 0 else []))
                for second in range(HOUR):
                    kinds, octets = blocks[(hour * HOUR + second) % BLOCKS]
                    file.write(octets.replace(MARK, struct.pack("<I", START + hour * HOUR + second)))
                    for kind in ("passed", "dropped", "unmanaged"):
                        wanted[kind] += kinds.count(kind)
        return wanted

    def each(self, share, seconds):
        wanted = self.write_day(share)
        process = os.spawnve(os.P_NOWAIT, "contrib/mud-day", ["mud-day", "--in", self.folder, DATE], self.environment)
        _, status, used = os.wait4(process, 0)
        self.note(f"{share} of 100 dropped, status", 0, os.waitstatus_to_exitcode(status))
        own = sum(seconds_in(word) for line in read("times", self.folder).decode().splitlines() for word in line.split())
        taken, memory = used.ru_utime + used.ru_stime - own, used.ru_maxrss / 1024
        print(f"# {share} of 100 dropped: {sum(wanted.values()):,} packets, {taken:.0f} s of the processor beside the program's {own:.0f}, {memory:.0f} MB")
        self.note("kinds", wanted, self.told()["totals"])
        self.holds(f"at most {seconds} s", taken <= seconds * EACH / WHOLE, f"{taken:.0f} s")
        self.holds(f"at most {MEGABYTES} MB", memory <= MEGABYTES, f"{memory:.0f} MB")

    def test_busy(self):
        """Two of a hundred packets are dropped."""
        self.each(2, SECONDS)

    def test_refused(self):
        """Most packets are dropped, each of which has an object."""
        self.each(82, 2 * SECONDS)


def seconds_in(word):
    """The seconds of a word as '1m2.345s'."""
    minutes, _, rest = word.partition("m")
    return int(minutes) * 60 + float(rest.rstrip("s"))
