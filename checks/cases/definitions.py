"""Compares the pages on definitions with the definitions of specs/, and the numbers of docs/CLAIMS.md with what is counted.

Each name in back quotes that stands behind a term, as in **Term** (`name`, `other`; crate/File, Another), has to be
a definition of one of these files, or a type of the named source file.
"""
import os
import re

from checks import printed, texts
from checks.case import Case


def page_names(page):
    """The names that stand behind the terms of a page, each with the files that are named with it."""
    for number, line in enumerate(texts.lines(page), 1):
        for group in re.findall(r"\*\*[^*]+\*\* \(((?:[^()]|\([^()]*\))*)\)", line):
            for part in re.split(r"\. (?=`)", group):
                names, _, places = part.partition("; ")
                names = re.findall(r"`([^`]+)`", names)
                if names and places:
                    yield number, names, places


def is_there(path):
    return os.path.exists(os.path.join(texts.HERE, path))


def files_named(places):
    """The files of specs/ and src/ that a text names: crate/File, Another; crate, src/file.rt."""
    found, folder, crate = [], None, None
    for word in map(str.strip, re.split(r"[,;] ", places)):
        if re.fullmatch(r"[a-z_0-9]+/[A-Z]\w*(/[A-Z]\w*)*", word):
            crate, _, rest = word.partition("/")
            folder = f"crates/{crate}/specs/" + (os.path.dirname(rest) + "/" if "/" in rest else "")
            found.append(f"crates/{crate}/specs/{rest}.antt")
        elif folder and re.fullmatch(r"[A-Z]\w*(/[A-Z]\w*)*", word) and is_there(f"{folder}{word}.antt"):
            found.append(f"{folder}{word}.antt")
        elif re.fullmatch(r"src/[\w/]+\.rt", word) and crate:
            found.append(f"crates/{crate}/{word}")
        elif re.fullmatch(r"[a-z_0-9]+", word) and is_there(f"crates/{word}"):
            crate = word
    return found


def is_in(name, file, specs):
    """Whether a file has a definition, a member of a record or a case of a type of this name, or a type of the code."""
    if not is_there(file):
        return False
    if file.endswith(".rt"):
        return re.search(rf"\b(?:enum|struct|trait|fn|const) {re.escape(name)}\b", texts.read(file)) is not None
    definitions = specs.of_file(file)
    return name in definitions or any(re.search(rf"^\s+(?:pub )?{re.escape(name)} :", line)
                                      for rows in definitions.values() for line in rows)


class Definitions(Case):
    def compare(self, page):
        specs = texts.Specs()
        for number, names, places in page_names(page):
            named = files_named(places)
            for file in named:
                if not is_there(file):
                    self.holds(file, False, f"{page}:{number}: there is no {file}")
            for name in names:
                good = not named or any(is_in(name, file, specs) for file in named)
                self.holds(name, good, f"{page}:{number}: {name} isn't defined in {', '.join(named)}")

    def test_definitions(self):
        self.compare("docs/DEFINITIONS.md")

    def test_cost(self):
        self.compare("docs/COST.md")

    def test_numbers(self):
        """docs/CLAIMS.md says no smaller numbers than are counted."""
        specs = texts.Specs()
        found, _ = printed.believed(specs)
        counted = [*printed.sizes(specs, found), len({module for module, _ in found})]
        claim = re.search(r"at most ([\d,]+) definitions with ([\d,]+) parts behind a `where`, ([\d,]+) lines and ([\d,]+) tokens"
                          r" without comments, in ([\d,]+) files", texts.read("docs/CLAIMS.md"))
        good = claim and all(int(number.replace(",", "")) >= count for number, count in zip(claim.groups(), counted))
        self.holds("numbers", good, f"docs/CLAIMS.md: its numbers of what is trusted aren't at least {counted}")
