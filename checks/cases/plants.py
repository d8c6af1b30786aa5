"""Looks whether each plant and each must-fail edit can be applied: its file is there, has each old text once, and is changed."""
import os
import re

from checks import texts
from checks.case import Case


def fault_of(edit):
    """What is wrong with an edit; nothing where it can be applied."""
    if not re.fullmatch(r"[A-Za-z0-9_-][A-Za-z0-9_.-]*\.edit", edit.name):
        return "its name is not of letters, digits, _, - and . with .edit at its end"
    if edit.crate not in texts.crates():
        return f"crates.txt has no {edit.crate}"
    if edit.kind == "plants" and os.path.exists(os.path.join(texts.HERE, f"crates/{edit.crate}/must-fail/{edit.name}")):
        return f"crates/{edit.crate}/must-fail has an edit of this name"
    try:
        edit.applied()
    except ValueError as fault:
        return str(fault)
    return None


class Plants(Case):
    def compare(self, pattern):
        for path in texts.files(pattern):
            fault = fault_of(texts.Edit(path))
            self.holds(path, fault is None, f"{path}: {fault}")

    def test_must_fail(self):
        self.compare("crates/*/must-fail/*")

    def test_plants(self):
        self.compare("plants/*/*")
