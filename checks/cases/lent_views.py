"""Looks whether a view of the rows that a desk lends can't be kept past a command, and that steps are counted by callers.

A crate of its own, over a copy of those that it stands on, has one function that looks at a view and then makes a
command: it has to be proved. The same function with the look behind the command has to be refused for its borrow.
What `rt ci` has proved on this machine is taken over; else it is proved first, which takes its time.
"""
import os
import re
import shutil
import subprocess
import tempfile

from checks import texts
from checks.case import Case, needs

BELOW = {"kept_view": "acl_rows desk_model mud_base mud_desk mud_world base_rows".split()}
READERS = ("acl_rows", "acl_buckets", "acl_changes", "acl_compile", "packet_judge")
IN_FRONT = "    let is_thing = view.is_some();\n    let _reply = desk.command(command, now, steps);\n    is_thing"
BEHIND = "    let _reply = desk.command(command, now, steps);\n    view.is_some()"


def copy_crates(names, folder):
    """Copies crates without what was built and without their edits."""
    os.mkdir(os.path.join(folder, "crates"))
    for name in names:
        shutil.copytree(os.path.join(texts.HERE, "crates", name), os.path.join(folder, "crates", name),
                        ignore=shutil.ignore_patterns("out", "must-fail"))
    shutil.copy(os.path.join(texts.HERE, "HANDLES"), folder)


class LentViews(Case):
    def test_counters(self):
        """No counter of steps is made in the crates that read rows for a verdict or a plan."""
        for crate in READERS:
            found = [path for path in texts.files(f"crates/{crate}/src/**/*.rt") if re.search(r"\b(Steps|Blank)::", texts.read(path))]
            self.note(f"counters of steps that {crate} makes", [], found)

    @needs("rt")
    def test_views(self):
        folder = tempfile.mkdtemp()
        self.addCleanup(shutil.rmtree, folder)
        names = texts.below("kept_view", BELOW.items())
        copy_crates(names[1:], folder)
        with open(f"{folder}/crates.txt", "w", encoding="utf-8") as rows:
            rows.write(texts.rows_of(names, BELOW.items()))
        for part in ("src", "specs"):
            os.makedirs(f"{folder}/crates/kept_view/{part}")
        with open(f"{folder}/crates/kept_view/specs/Lib.antt", "w", encoding="utf-8"):
            pass
        status, said = self.proved(folder, IN_FRONT)
        self.holds("a view used in front of the command", status == 0 and re.search("^rt: kept_view (proved|is kept)", said, re.M), said[-2000:])
        status, said = self.proved(folder, BEHIND)
        self.holds("a view used behind the command", status != 0 and "borrow-e0502" in said, said[-2000:])

    def proved(self, folder, body):
        """The status of rt on the function with this body, and what it says."""
        with open(f"{folder}/crates/kept_view/src/lib.rt", "w", encoding="utf-8") as source:
            source.write(texts.read("checks/kept_view.rt.in").replace("%s\n", body + "\n"))
        subprocess.run(["rt", "fmt"], cwd=f"{folder}/crates/kept_view", stdout=subprocess.DEVNULL, check=True)
        ran = subprocess.run(["rt", "ci"], cwd=folder, stdin=subprocess.DEVNULL, stdout=subprocess.PIPE, stderr=subprocess.STDOUT, check=False)
        return ran.returncode, ran.stdout.decode("utf-8", "replace")
