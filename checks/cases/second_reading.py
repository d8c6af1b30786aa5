"""Compares the console with a second reading of what it should answer, request by request, of sessions made by chance.

SEED and COUNT name another seed than 1 and 2 and another number of requests than 10,000.
"""
import os

from checks import second_reading
from checks.case import ProgramCase
from checks.program import run

COUNT = int(os.environ.get("COUNT", 10_000))


class SecondReading(ProgramCase):
    def compare(self, seed, sessions, store):
        """Each answer counts one, up to the first that differs. Sessions go one after the other over one store: at the
        beginning of each, what rulings read is made anew, connections are forgotten, and the moment is the last change's."""
        maker, clock, passed = second_reading.Maker(int(os.environ.get("SEED", seed))), 1000, 0
        for _ in range(sessions):
            pairs, clock = maker.session(COUNT // sessions, clock)
            ended = run("replay", store, input=b"".join(request for request, _ in pairs))
            at = 0
            for request, answer in pairs:
                passed += 1
                got = ended.out[at:at + len(answer)]
                self.holds(f"request {passed}", got == answer,
                           f"{request!r}\nwanted {answer!r}\ngot    {ended.out[at:at + len(answer) + 200]!r}")
                if got != answer:
                    return
                at += len(answer)
            self.assertEqual((ended.status, ended.out[at:]), (0, b""), f"behind request {passed}")

    def test_in_memory(self):
        """One session over a store in memory."""
        self.compare(1, 1, ":memory:")

    def test_in_file(self):
        """200 sessions over one file."""
        self.compare(2, 200, self.path("store.db"))
