"""Builds the program in a folder of another name, and compares its octets with those of the one that is built here.

It takes over what './build' has kept on this machine, and else proves everything first.
"""
import os
import shutil
import subprocess

from checks import program, texts
from checks.case import ProgramCase, needs
from checks.cases.lent_views import copy_crates


class TwoBuilds(ProgramCase):
    alone = True

    @needs("rt")
    def test_program(self):
        other = self.path("a-folder-of-another-name")
        os.makedirs(other + "/checks")
        copy_crates(texts.below("mud"), other)
        for name in texts.files("build", "crates.txt", "checks/print", "checks/*.py"):
            shutil.copy(name, f"{other}/{name}")
        ended = subprocess.run([other + "/build"], stdin=subprocess.DEVNULL, stderr=subprocess.PIPE, check=False)
        self.note("its status", (0, "build: done"), (ended.returncode, ended.stderr.decode().splitlines()[-1]))
        self.holds("the programs have the same octets", program.read("out/mud", other) == program.read(program.PROGRAM))
