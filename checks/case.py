"""What cases are made of: comparisons that count one each, and a folder and the program for those that run it."""
import difflib
import os
import re
import shutil
import tempfile
import unittest

from checks.texts import HERE

# what standard error may be told of a run that ends with 0 or 3
TOLD = re.compile("mud: (?:.*: there was no store here, and an empty one was made|.* has no Things, so every packet is let through as unmanaged"
                  "|no name could be learnt: no address is bound to urn:ietf:params:mud:dns|the (?:capture|input|packet|section) .*)")


def differ(wanted, got):
    """What a comparison says that failed: of texts with several lines those that differ."""
    if isinstance(wanted, bytes) and isinstance(got, bytes):
        wanted, got = (octets.decode("utf-8", "backslashreplace") for octets in (wanted, got))
    if isinstance(wanted, str) and isinstance(got, str) and "\n" in wanted.rstrip("\n") + got.rstrip("\n"):
        lines = list(difflib.unified_diff(wanted.splitlines(), got.splitlines(), n=4, lineterm=""))[2:22]
        return "wanted (-) and got (+):\n" + "\n".join(line[:300] for line in lines)
    return f"wanted {repr(wanted)[:600]}, got {repr(got)[:600]}"


def there_is(tool):
    """Whether a command is there."""
    return shutil.which(tool) is not None


def needs(*tools):
    """A case, or a class of them, that is left out where one of these commands isn't there."""
    missing = [tool for tool in tools if not there_is(tool)]
    return unittest.skipIf(missing, "there is no " + " and no ".join(missing))


def cases_of(names):
    """Makes of a method `each(self, name)` of a class a case for each of these names."""

    def made(one):
        for name in names:
            setattr(one, "test_" + name, lambda self, name=name: self.each(name))
        return one

    return made


class Case(unittest.TestCase):
    """Cases of a check. Each method test_NAME is one; where none of its comparisons is counted, it counts one."""

    alone = False

    def note(self, what, wanted, got):
        """A comparison, which counts one."""
        with self.subTest(what):
            if wanted != got:
                raise AssertionError(differ(wanted, got))

    def holds(self, what, truth, said="it doesn't hold"):
        """A truth, which counts one."""
        with self.subTest(what):
            if not truth:
                raise AssertionError(said)

    def left_out(self, what, reason):
        """Says of a part of a case that it is left out."""
        with self.subTest(what):
            self.skipTest(reason)


class ProgramCase(Case):
    """Cases that run the built program from the repository's top, each with a folder for its files."""

    def setUp(self):
        os.chdir(HERE)
        self.folder = tempfile.mkdtemp()
        self.addCleanup(shutil.rmtree, self.folder, ignore_errors=True)

    def path(self, name):
        """The path of a file in the case's folder."""
        return os.path.join(self.folder, name)

    def put(self, name, octets):
        """A file of the case's folder with these octets; its path."""
        with open(self.path(name), "wb") as file:
            file.write(octets)
        return self.path(name)

    def ends(self, what, status, wanted, ended):
        """A run has ended with this status, has written just this, and of what it told standard error behind 0 or 3 each
        line is one that docs/REFERENCE.md lists: one comparison."""
        wanted = wanted.encode() if isinstance(wanted, str) else wanted
        with self.subTest(what):
            if wanted != ended.out:
                raise AssertionError(f"status {ended.status} (wanted is {status}); " + differ(wanted, ended.out))
            if status != ended.status:
                raise AssertionError(f"wanted status {status}, got {ended.status}")
            others = [line for line in (ended.errors or b"").decode().splitlines() if not TOLD.fullmatch(line)]
            if status in (0, 3) and others:
                raise AssertionError(f"standard error is told {others}")
