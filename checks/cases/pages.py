"""Compares the pages with what they speak of: commands, statuses, crates, clauses, members, scripts and the logic."""
import os
import re
import subprocess

from checks import runner, texts
from checks.case import Case

REFERENCE = "docs/REFERENCE.md"
USAGE = "crates/run_words/src/usage.rt"
CALL = re.compile(r"[a-z_0-9]+::([A-Z][A-Za-z0-9]*::)?[a-z_0-9]+( [a-z_0-9]+)?")
MEMBER = re.compile(r"[A-Z][A-Za-z]+\.[a-z_]+")
FILE = re.compile(r"(?:^|(?<=[^A-Za-z0-9_/]))((?:docs/[A-Z]+\.md)|(?:checks|bench|fuzz|man)/[A-Za-z0-9.-]+|"
                  r"(?:contrib|packaging)/[A-Za-z0-9.@-]+)")


def named_on_pages(form):
    """What pages name in back quotes in a form, once for each page."""
    pages = texts.files(*texts.PAGES)
    return sorted({(page, text) for page in pages for _, text in texts.quoted(page) if form.fullmatch(text)})


class Pages(Case):
    def test_manual_page(self):
        made = subprocess.run([os.path.join(texts.HERE, "man/make")], stdout=subprocess.PIPE, check=True).stdout
        self.note("man/mud.1 is what man/make makes (man/make > man/mud.1)", made.decode(), texts.read("man/mud.1"))

    def test_logic(self):
        """README.md and docs/CLAIMS.md name the logic that .ci/run takes."""
        logic = re.search("^logic=(.*)$", texts.read(".ci/run"), re.M)[1]
        for page in ("README.md", "docs/CLAIMS.md"):
            self.note(f"the logic on {page}", {logic}, set(re.findall(r"\b[0-9a-f]{16}\b", texts.read(page))))

    def test_commands(self):
        """The commands of the usage text stand in the list of docs/REFERENCE.md."""
        rows = texts.read(USAGE).partition("\n  COMMAND ")[2].partition("\n\n")[0].split("\n")[1:]
        for row in rows:
            command = re.sub("  .*$", "", row[2:])
            listed = re.search(rf"^    mud {re.escape(command)}( < [A-Z]+)?$", texts.read(REFERENCE), re.M)
            self.holds(f"mud {command}", listed, f"{REFERENCE}: no command 'mud {command}'")

    def test_statuses(self):
        """The statuses of the usage text are rows of the table of docs/REFERENCE.md, in its words."""
        section = re.search(r"^## Statuses\n(.*?)(?=^## |\Z)", texts.read(REFERENCE), re.M | re.S)[1]
        for number, words in re.findall(r"^  ([0-9])  (.*)$", texts.read(USAGE), re.M):
            row = f"| {number} | {words}"
            self.holds(row, re.search("^" + re.escape(row), section, re.M), f"{REFERENCE}: the statuses have no row '{row}'")

    def test_crates(self):
        """docs/ARCHITECTURE.md names each crate of crates.txt, and no other."""
        page = texts.read("docs/ARCHITECTURE.md")
        for crate in texts.crates():
            self.holds(crate, f"**{crate}**" in page, f"docs/ARCHITECTURE.md: the crate {crate} isn't there")
        for crate in sorted(set(re.findall(r"\*\*([a-z0-9_]*)\*\*", page))):
            self.holds(crate, crate in texts.crates(), f"docs/ARCHITECTURE.md: there is no crate {crate}")

    def test_clauses(self):
        """`crate::call clause` is a clause of that call; where no clause is named, the call has one without a name."""
        there = {(clause.crate, clause.call, clause.name) for crate in texts.crates() for clause in texts.clauses(crate)}
        for page, cited in named_on_pages(CALL):
            call, _, clause = cited.partition(" ")
            crate, _, call = call.partition("::")
            self.holds(cited, (crate, call, clause or "·") in there, f"{page}: there is no clause '{cited}'")

    def test_members(self):
        """`Record.member` is one of that record of specs/."""
        there = texts.record_members()
        for page, member in named_on_pages(MEMBER):
            self.holds(member, member in there, f"{page}: there is no record with the member '{member}'")

    def test_files(self):
        """Each page, script and check that a page or a script names is there: checks/NAME is a file or a check."""
        checks = runner.listed()
        for page in texts.files(*texts.PAGES) + ["Makefile", ".ci/run", "build", "mud"]:
            text = texts.read(page)
            for name in sorted({found.rstrip(".") for found in FILE.findall(text)} - {"fuzz/found"}):
                there = os.path.exists(os.path.join(texts.HERE, name)) or name.removeprefix("checks/") in checks
                self.holds(name, there, f"{page}: there is no {name}")
            for check in sorted(set(re.findall(r"\bchecks/run ([a-z][a-z-]*)", text))):
                self.holds(check, check in {*checks, *checks.values()}, f"{page}: there is no check '{check}'")
