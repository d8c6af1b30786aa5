"""Finds the cases of checks by their names, runs them, and counts."""
import argparse
import importlib
import multiprocessing
import os
import sys
import traceback
import unittest

from checks.case import ProgramCase
from checks.program import PROGRAM

HERE = os.path.dirname(os.path.abspath(__file__))
GROUPS = ("gate", "checks", "minutes", "apart")


def listed():
    """The checks of checks/list, each with its group."""
    with open(os.path.join(HERE, "list"), encoding="utf-8") as table:
        return dict(line.split() for line in table if not line.startswith("#"))


def classes_of(check):
    """The classes of cases of a check, as they stand in its module."""
    module = importlib.import_module("checks.cases." + check.replace("-", "_"))
    found = [value for value in vars(module).values() if isinstance(value, type) and issubclass(value, unittest.TestCase)]
    return [one for one in found if one.__module__ == module.__name__ and names_of(one)]


def names_of(one):
    """The names of the cases of a class, in their order there."""
    return [name[5:] for name in vars(one) if name.startswith("test_")]


def chosen(words):
    """What the words name, as units: each a check, a class and a case of it, or all its cases where they are made
    ready together; None where a word is no name."""
    groups, found = listed(), []
    for word in words:
        check, _, case = word.partition(".")
        checks = [name for name, group in groups.items() if word in (name, group) or check == name]
        units = []
        for name, one in [(name, one) for name in checks for one in classes_of(name)]:
            cases = [it for it in names_of(one) if case in ("", it)]
            units += [(name, one, part) for part in ([cases] if "setUpClass" in vars(one) else [[it] for it in cases]) if part]
        if not units and word not in GROUPS:
            print(f"checks/run: no check, case or group is named '{word}' (checks/run --list)", file=sys.stderr)
            return None
        found += [unit for unit in units if unit not in found]
    return found


class Counts(unittest.TestResult):
    """How many comparisons passed, what failed and what was left out."""

    def __init__(self, check):
        super().__init__()
        self.check, self.passed, self.faults, self.left = check, 0, [], []

    def startTest(self, test):
        super().startTest(test)
        self.parts = 0

    def addSuccess(self, test):
        self.passed += self.parts == 0

    def addSubTest(self, test, part, error):
        self.parts += 1
        if error is None:
            self.passed += 1
        else:
            self.add_fault(part, error)

    def add_fault(self, test, error):
        said = str(error[1]) if issubclass(error[0], AssertionError) else "".join(traceback.format_exception(*error))
        self.faults.append(f"{self.name_of(test)}: {said}")

    addFailure = addError = add_fault

    def addSkip(self, test, reason):
        self.parts += 1
        self.left.append(f"{self.name_of(test)}: left out, as {reason}")

    def name_of(self, test):
        case = getattr(test, "test_case", test)
        name = self.check + "." + getattr(case, "_testMethodName", case.id()).replace("test_", "", 1)
        return name + (": " + str(test._message) if case is not test else "")


def run_unit(unit):
    """Runs the cases of a unit; what is said, and how many passed, failed and were left out."""
    check, one, names = unit
    counts = Counts(check)
    unittest.TestSuite(one("test_" + name) for name in names).run(counts)
    return counts.faults + counts.left, counts.passed, len(counts.faults), len(counts.left)


def results_of(units, processes):
    """The results as they come: first side by side, and then of what has to be alone."""
    together = [unit for unit in units if processes > 1 and not unit[1].alone]
    if together:
        with multiprocessing.get_context("fork").Pool(processes) as several:
            yield from several.imap_unordered(run_unit, together, chunksize=1)
    yield from map(run_unit, [unit for unit in units if unit not in together])


def main(words, usage):
    parser = argparse.ArgumentParser(usage=usage)
    parser.add_argument("names", nargs="*")
    parser.add_argument("-j", type=int, default=1)
    parser.add_argument("--list", action="store_true")
    options = parser.parse_args(words)
    units = chosen(options.names or ["gate", "checks"])
    if units is None:
        return 2
    if options.list:
        groups = listed()
        print("".join(f"{groups[check]:8} {check}.{name}\n" for check, _, names in units for name in names), end="")
        return 0
    if any(issubclass(one, ProgramCase) for _, one, _ in units) and not os.access(PROGRAM, os.X_OK):
        print(f"checks/run: {PROGRAM} isn't built: run 'rt ci' or './mud' first", file=sys.stderr)
        return 2
    passed = failed = left_out = 0
    for said, right, wrong, left in results_of(units, options.j):
        passed, failed, left_out = passed + right, failed + wrong, left_out + left
        for line in said:
            print(line, flush=True)
    print((f"{left_out} left out\n" if left_out else "") + f"{passed} passed, {failed} failed")
    return int(failed > 0 or passed == 0)
