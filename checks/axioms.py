"""What the toolchain supposes of calls of C: the `axioms` lines of a check of the program ('checks/print axioms')."""
import itertools
import re

from checks import texts

# A line of the report, and one of a function that the crate declares, which the verdict can rest on.
REPORT = re.compile(r"axioms (\w+): (?:(\d+) reached|none reached) of the (\d+) declared")
REACHED = re.compile(r"\s*(\w+)::(\S+) reached")


def reached(path):
    """The calls that a check reached, each with its crate, and how many each crate declares."""
    lines = texts.lines(path)
    declared = {found[1]: int(found[3]) for found in map(REPORT.match, lines) if found}
    return [found.groups() for found in map(REACHED.match, lines) if found], declared


def said(paths):
    """By the logs of 'rattle check --list-axioms': of each the calls on which its verdict rests, by crate."""
    parts = []
    for path in paths:
        calls, declared = reached(path)
        parts.append(f"== {path}: {len(calls)} calls of C")
        for crate, of_crate in itertools.groupby(sorted(calls), lambda call: call[0]):
            names = [name for _, name in of_crate]
            parts.append(f"{crate} ({len(names)} of {declared[crate]}): {' '.join(names)}")
        parts += [f"{crate}: none of {count}" for crate, count in sorted(declared.items()) if crate not in {crate for crate, _ in calls}]
    return "\n".join(parts)
