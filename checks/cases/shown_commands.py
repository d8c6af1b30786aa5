"""Runs what README.md, docs/GUIDE.md, docs/REFERENCE.md and the manual page show.

The commands of each page are one script, which a shell reads as if it were pasted whole, with nothing added, and
what it writes is compared with what stands on the page. A command is an indented line that begins with '$ ' and goes
on while its line ends with a backslash; the indented lines behind it are what it writes, where '..' stands for any
text. Of the manual page these are the lines of its EXAMPLES that aren't filled, as 'man' shows them. Each script runs
in a folder of its own with 'examples' and 'mud' in it; where the port 8080 is taken, another is put for it.
"""
import os
import re
import subprocess

from checks import program, texts
from checks.case import ProgramCase, needs


def commands_of(rows):
    """The commands of a page: each its lines, and the lines that it writes."""
    found, inside, goes_on, blank = [], False, False, 0
    for row in rows:
        if row.startswith("    $ "):
            found.append(([row[6:]], []))
            inside, goes_on, blank = True, row.endswith("\\"), 0
        elif goes_on:
            found[-1][0].append(row[4:])
            goes_on = row.endswith("\\")
        elif inside and row.startswith("    "):
            found[-1][1].extend([""] * blank + [row[4:]])
            blank = 0
        elif inside and not row:
            blank += 1
        else:
            inside = False
    return found


def rows_of_manual(rows):
    """The EXAMPLES of a manual page, with the lines that aren't filled indented and as they are shown."""
    in_examples = shown = False
    for row in rows:
        if row.startswith(".SH "):
            in_examples = row.split()[1] == "EXAMPLES"
        elif in_examples and row in (".nf", ".fi"):
            shown = row == ".nf"
        elif in_examples and shown:
            row = re.sub(r"\\f[BIR]", "", row).replace("\\(aq", "'").replace("\\-", "-").replace("\\e", "\\")
            yield "    " + row.removeprefix("\\&")
        elif in_examples:
            yield "text"


def fits(wanted, got):
    """Whether a line is what stands on the page, where '..' stands for any text."""
    return re.fullmatch(".*".join(map(re.escape, wanted.split(".."))), got, re.S) is not None


class ShownCommands(ProgramCase):
    alone = True

    def tour(self, rows):
        """The commands of a page: each counts one, up to the first that writes something else."""
        commands = commands_of(rows)
        os.makedirs(self.path("run/bin"))
        os.symlink(os.path.join(texts.HERE, "examples"), self.path("run/examples"))
        for name in ("run/mud", "run/bin/mud"):
            os.symlink(program.PROGRAM, self.path(name))
        script = "".join(line + "\n" for lines, _ in commands for line in lines)
        if program.listens(8080):
            script = script.replace("8080", str(program.free_port()))
        environment = {**os.environ, "LC_ALL": "C", "PATH": self.path("run/bin") + ":" + os.environ["PATH"]}
        ran = subprocess.run(["timeout", "60", "bash"], input=script.encode(), cwd=self.path("run"), env=environment,
                             stdout=subprocess.PIPE, stderr=subprocess.STDOUT, check=False)
        got = iter(ran.stdout.decode("utf-8", "backslashreplace").replace("\r\n", "\n").splitlines())
        for lines, wanted in commands:
            for line in wanted:
                came = next(got, "(nothing)")
                if not fits(line, came):
                    self.holds(lines[0], False, f"wanted (-) and got (+):\n-{line}\n+{came}")
                    return
            self.holds(lines[0], True)
        self.note("what came behind the last command", [], list(got))

    @needs("curl")
    def test_readme(self):
        self.tour(texts.lines("README.md"))

    @needs("curl", "sqlite3")
    def test_guide(self):
        self.tour(texts.lines("docs/GUIDE.md"))

    def test_reference(self):
        self.tour(texts.lines("docs/REFERENCE.md"))

    @needs("curl")
    def test_manual_page(self):
        self.tour(rows_of_manual(texts.lines("man/mud.1")))
