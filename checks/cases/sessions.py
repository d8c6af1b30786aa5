"""Replays each session of examples/replay by the built program and compares whole answers, octet for octet, and the status."""
import bisect
import os

from checks import program, session, texts
from checks.case import ProgramCase, cases_of

NAMES = [os.path.basename(path).removesuffix(".session") for path in texts.files("examples/replay/*.session")]


def fault(rule):
    """The answer to octets that are no request."""
    return session.answer(400, f'{{"rule":"{rule}"}}', closes=True)


def of_first_part(run, size):
    """What is wanted where the input ends behind so many octets: the whole requests are answered, and what is left
    is a fault: of the head, or, behind a head, of the body."""
    before = bisect.bisect_right([end for _, end, _ in run.places], size)
    _, begin, answered = run.places[before - 1] if before else (0, 0, 0)
    wanted = run.wanted[:answered]
    if size == begin or before == len(run.places):
        return 0, wanted
    return 3, wanted + fault("cut" if size >= run.places[before][0] else "head")


@cases_of(NAMES)
class Sessions(ProgramCase):
    def each(self, name):
        for number, run in enumerate(session.runs_of(f"examples/replay/{name}.session"), 1):
            self.ends(f"run {number}", run.status, run.wanted, program.run("replay", ":memory:", input=run.octets))
            for place in range(1, len(run.octets)) if run.in_pieces else ():
                ended = program.run_by_reads((run.octets[:place], run.octets[place:]), "replay", ":memory:")
                self.ends(f"run {number}, cut behind octet {place}", run.status, run.wanted, ended)
            for size in range(len(run.octets)) if run.in_parts else ():
                ended = program.run("replay", ":memory:", input=run.octets[:size])
                self.ends(f"run {number}, ended behind octet {size}", *of_first_part(run, size), ended)
