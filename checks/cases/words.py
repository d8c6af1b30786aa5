"""Looks for names that went, by checks/words.list, in the code and the edits of crates/ and plants/, in docs/ and README.md;
and for two public types of one name, of which no more may come than checks/types.list has.

In code, comments included, a name is a whole run of letters, digits and '_'. In a page it counts between back
quotes, and elsewhere where it can be no plain word: with a '_' in it, or a capital behind its first letter.
"""
import collections
import re

from checks import texts
from checks.case import Case

CODE = [f"{folder}/**/*.{end}" for folder in ("crates", "plants") for end in ("rt", "antt", "edit")]
NAME = re.compile(r"[A-Za-z0-9_]+")


def names_that_went():
    """For each crate, or '*', and name that went the one that stands in its place."""
    found = {}
    for line in texts.lines("checks/words.list"):
        crates, _, pairs = line.rpartition(": ")
        for pair in pairs.split() if not line.startswith("#") else ():
            went, now = pair.split("=")
            found.update({(crate, went): now for crate in crates.split() or ["*"]})
    return found


def names_on(page):
    """The names of a page that count, each with its line."""
    for number, line in enumerate(texts.lines(page), 1):
        for place, part in enumerate(line.split("`")):
            for name in NAME.findall(part):
                if place % 2 or re.search(r"_|.[A-Z]", name):
                    yield number, name


def found_names(wanted):
    """Where names stand: for each crate or '*' and name the places."""
    found = collections.defaultdict(list)
    for path in texts.files(*CODE):
        text = texts.read(path)
        there = wanted.intersection(NAME.findall(text))
        for number, line in enumerate(text.split("\n") if there else [], 1):
            for name in there.intersection(NAME.findall(line)):
                found[path.split("/")[1], name].append(f"{path}:{number}")
                found["*", name].append(f"{path}:{number}")
    for page in texts.files("README.md", "docs/*.md"):
        for number, name in names_on(page):
            found["*", name].append(f"{page}:{number}")
    return found


def types_of_one_name():
    """The names that public types of several crates have, each with these crates. Tests aren't looked at."""
    found = collections.defaultdict(set)
    for crate in texts.crates():
        for path in texts.sources(crate) if not crate.startswith("test_") else ():
            for name in re.findall(r"^pub (?:struct|enum|trait) (\w+)", texts.read(path), re.M):
                found[name].add(crate)
    return {name: crates for name, crates in found.items() if len(crates) > 1}


class Words(Case):
    def test_words(self):
        went = names_that_went()
        found = found_names({name for _, name in went})
        for (crate, name), now in went.items():
            places = [place for place in found[crate, name] if crate != "*" or (place.split("/")[1], name) not in went]
            self.holds(name, not places, "".join(f"\n{place}: {name} is now {now}" for place in places))

    def test_types(self):
        """One word stands for one thing: a type gets a name that no other has, and a pair that went leaves the list."""
        known = {name: set(crates.split()) for name, _, crates in
                 (line.partition(": ") for line in texts.lines("checks/types.list") if not line.startswith("#"))}
        found = types_of_one_name()
        for name in sorted(known.keys() | found.keys()):
            self.note(f"the crates with a public type {name}", sorted(known.get(name, ())), sorted(found.get(name, ())))
