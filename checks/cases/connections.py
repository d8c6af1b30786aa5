"""Looks whether the connections of packets that are long ago take no memory, however many they were.

A run that is given the least memory with which it judges 200 calls, in whole megabytes, and two more, judges 60,000
calls a minute apart, and has too little for as many at once.
"""
import resource
import struct

from checks import program, session
from checks.case import ProgramCase

MANY = 60000


def calls(count, apart):
    """A capture in which 192.0.2.10 calls port 443 of 198.51.100.7, each time from a port of its own and so many
    seconds later."""
    head = bytes.fromhex("0200000000fe0200000000010800" "4500002800010000400600" "00c000020ac6336407")
    tail = bytes.fromhex("01bb" "0000000100000000" "5002ffff00000000")
    return program.capture((1001 + n * apart, head + struct.pack(">H", 1024 + n) + tail) for n in range(count))


class Connections(ProgramCase):
    def judge(self, megabytes, capture):
        """A run by at most so much memory: its status, and how many calls pass."""
        limit = 1024 * 1024 * megabytes
        ended = program.run("judge", self.path("store"), input=capture,
                            preexec_fn=lambda: resource.setrlimit(resource.RLIMIT_AS, (limit, limit)))
        return ended.status, ended.out.count(b" pass from=accept:1\n")

    def test_memory(self):
        made = session.run_of_steps("announce", "import", "approve").octets
        made += program.request("POST", "/leases", '{"address":"192.0.2.10","mac":"02:00:00:00:00:01","seconds":4294967295}')
        made += program.request("POST", "/names", '{"address":"198.51.100.7","name":"test.example.com","ttl":2147483647}')
        ended = program.run("replay", self.path("store"), input=made)
        self.note("what makes the store, answers", [200] * 5, [answer.status for answer in program.answers(ended.out)])
        few = self.put("few", calls(200, 60))
        limit = next((limit for limit in range(1, 1025) if self.judge(limit, few)[0] == 0), 1025)
        self.note("200 calls, those that pass", (0, 200), self.judge(limit, few))
        status, passing = self.judge(limit + 2, self.put("many", calls(MANY, 60)))
        self.note(f"{MANY} calls a minute apart, status", 0, status)
        self.note(f"{MANY} calls a minute apart, those that pass", MANY, passing)
        self.note(f"{MANY} calls at once, status", 5, self.judge(limit + 2, self.put("many", calls(MANY, 0)))[0])
