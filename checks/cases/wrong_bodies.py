"""Has the prover refuse the wrong bodies in plants/, of each crate: some ten seconds to a minute each.

They are put into a copy of this repository in place of its must-fail edits. It begins with what 'rt check' kept on
this machine, and proves first what nothing kept.
"""
import os
import shutil
import subprocess
import tempfile

from checks import texts
from checks.case import Case, cases_of, needs
from checks.cases.lent_views import copy_crates


@needs("rt")
@cases_of(sorted({path.split("/")[1] for path in texts.files("plants/*/*.edit")}))
class WrongBodies(Case):
    alone = True

    @classmethod
    def setUpClass(cls):
        cls.folder = tempfile.mkdtemp()
        cls.addClassCleanup(shutil.rmtree, cls.folder)
        copy_crates(texts.crates(), cls.folder)
        shutil.copy(os.path.join(texts.HERE, "crates.txt"), cls.folder)

    def each(self, crate):
        shutil.copytree(os.path.join(texts.HERE, "plants", crate), f"{self.folder}/crates/{crate}/must-fail")
        ran = subprocess.run(["rt", "must-fail", crate], cwd=self.folder, stdout=subprocess.PIPE, stderr=subprocess.STDOUT, check=False)
        said = ran.stdout.decode("utf-8", "replace")
        for path in texts.files(f"plants/{crate}/*.edit"):
            name = os.path.basename(path)
            self.holds(name, f"must-fail {crate}/{name}: refused, as it must be" in said, f"not refused, or not tried\n{said[-1000:]}")
