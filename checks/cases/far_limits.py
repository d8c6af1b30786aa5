"""Reaches the two limits that take long: the 1,000,000th request of a connection, which ends it, and the 100,000,001st packet
of a capture, which is refused. It takes some minutes, and 300 MB of memory."""
import subprocess

from checks import program
from checks.case import ProgramCase
from checks.program import run

REQUEST = b"GET /due HTTP/1.1\r\nMud-Moment: 5\r\n\r\n"
CLOSE = b'Connection: close\r\n\r\n{"due":[]}'


class FarLimits(ProgramCase):
    def test_requests(self):
        ended = run("replay", ":memory:", input=REQUEST * 999_999)
        self.note("999,999 requests, status", 0, ended.status)
        self.note("999,999 requests, answers", 999_999, ended.out.count(b"HTTP/1.1 200 OK"))
        self.note("999,999 requests, the last one's end", 0, ended.out[-200:].count(b"\nConnection: close"))
        ended = run("replay", ":memory:", input=REQUEST * 1_000_001)
        self.note("1,000,001 requests, status", 3, ended.status)
        self.note("1,000,001 requests, answers", 1_000_000, ended.out.count(b"HTTP/1.1 200 OK"))
        self.note("1,000,001 requests, the last answer's end", 1, ended.out.count(b"\nConnection: close"))
        self.note("1,000,001 requests, the last octets", CLOSE, ended.out[-len(CLOSE):])

    def last_line(self, count):
        """The status and the last line of a run on a capture of so many packets without octets."""
        with subprocess.Popen([program.PROGRAM, "frames"], stdin=subprocess.PIPE, stdout=subprocess.PIPE) as frames:
            tail = subprocess.Popen(["tail", "-n", "1"], stdin=frames.stdout, stdout=subprocess.PIPE)
            frames.stdin.write(program.capture([]))
            for _ in range(count // 100_000):
                frames.stdin.write(bytes(1_600_000))
            frames.stdin.write(bytes(16 * (count % 100_000)))
            frames.stdin.close()
            line = tail.communicate()[0].decode()
        return frames.returncode, line

    def test_packets(self):
        self.note("100,000,000 packets", (0, "100000000 0 unreadable ethernet\n"), self.last_line(100_000_000))
        self.note("100,000,001 packets", (3, "fault Many\n"), self.last_line(100_000_001))
