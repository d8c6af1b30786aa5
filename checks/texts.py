"""The repository's texts: its crates, pages and edits, the clauses of its sources and the definitions of specs/.

Sources and specs are read by the forms in which `rt fmt` lays them out. Paths are those below the top.
"""
import collections
import functools
import glob
import os
import re

HERE = os.path.dirname(os.path.dirname(os.path.abspath(__file__)))
PAGES = ["README.md", "CHANGELOG.md", "docs/*.md", "bench/*.md", "fuzz/*.md", "contrib/*.md"]


def files(*patterns):
    """The paths that these patterns name, in the order of the patterns; '**' stands for any folders but out/."""
    found = []
    for pattern in patterns:
        paths = sorted(glob.glob(pattern, root_dir=HERE, recursive=True))
        found += [path for path in paths if "/out/" not in path and os.path.isfile(os.path.join(HERE, path))]
    return found


@functools.lru_cache(None)
def read(path):
    """The text of a file; of octets that aren't UTF-8 each is one letter of its own."""
    with open(os.path.join(HERE, path), encoding="utf-8", errors="surrogateescape") as file:
        return file.read()


def lines(path):
    return read(path).split("\n")[:-1] if read(path).endswith("\n") else read(path).split("\n")


# ---- Crates

@functools.lru_cache(None)
def crates():
    """The crates of crates.txt, each with those that it stands on."""
    rows = [line.partition(":") for line in lines("crates.txt") if re.match("[a-z]", line)]
    return {name: words.split() for name, _, words in rows}


def below(top, more=()):
    """A crate and those that it stands on, in any depth, itself first; 'more' are further rows of crates.txt."""
    stands_on = {**crates(), **dict(more)}
    found = [top]
    for name in found:
        found += [other for other in stands_on[name] if other in stands_on and other not in found]
    return found


def rows_of(names, more=()):
    """The rows of crates.txt of these crates."""
    stands_on = {**crates(), **dict(more)}
    return "".join(f"{name}: {' '.join(stands_on[name])}".rstrip() + "\n" for name in names)


# ---- Pages

def quoted(page):
    """What stands in back quotes on a page: the number of the line, and the text."""
    for number, line in enumerate(lines(page), 1):
        for text in line.split("`")[1::2]:
            yield number, text


# ---- Sources

Clause = collections.namedtuple("Clause", "crate file call name said text")


def sources(crate):
    """The source files of a crate that aren't tests: a module under #[cfg(test)] is a file, and perhaps a folder."""
    found = files(f"crates/{crate}/src/**/*.rt")
    tests = [f"{re.sub(r'(/lib|/main)?[.]rt$', '', path)}/{name}{end}" for path in found for end in (".rt", "/")
             for name in re.findall(r"^#\[cfg\(test\)\]\n(?:pub(?:\([a-z]+\))? )?mod (\w+);", read(path), re.M)]
    return [path for path in found if not path.startswith(tuple(tests))]


def behind_generics(text):
    """The text without the generic parameters at its front."""
    depth = 0
    for at, sign in enumerate(text if text.startswith("<") else ""):
        depth += (sign == "<") - (sign == ">")
        if depth == 0:
            return text[at + 1:]
    return text


def type_name(text):
    """The name of a type, without references, path and generic parameters."""
    text = re.sub(r"^&(mut )?", "", text.lstrip(" "))
    return re.sub(r"^.*::", "", re.sub(r"[ <{].*$", "", text))


def owner_of(head):
    """Of the head of an impl or a trait its type, and whether each of its methods is public."""
    if re.match("(pub )?trait ", head):
        return type_name(re.sub("^(pub )?trait ", "", head)).partition(":")[0], head.startswith("pub ")
    head = behind_generics(head[len("impl"):])
    _, of_type, behind = head.partition(" for ")
    return type_name(behind if of_type else head), bool(of_type)


# what stands under #[cfg(test)]: a module to its end, or one line
UNDER_TESTS = re.compile(r"^#\[cfg\(test\)\](?:.*\n)(?:(?:pub(?:\([a-z]+\))? )?mod .*\{\n(?:[^}].*\n|\n)*|.*\n?)", re.M)
# the head of an impl or a trait; an end at the margin; a function without a contract, or with the lines up to its body
ITEM = re.compile(r"^(?P<head>(?:impl|(?:pub )?trait )(?:.*\n)*?.*?\{\}?)$|^\}"
                  r"|^(?P<indent>(?:    )?)(?P<mark>pub(?:\([a-z]+\))? )?(?:const )?fn (?P<name>\w*)"
                  r"(?:.*(?:\{\}?|;)$|.*\n(?P<lines>(?:.*\n)*?(?:.*[})];$|(?=(?P=indent)(?:\{\}?|\).*\{)$))))", re.M)


def contract_clauses(lines):
    """The clauses of a contract: each its name, the comment beside it and its text. One without a name is '·'."""
    found, said, clause = [], [], None
    for bare in map(str.strip, lines):
        word = re.match(r"//|requires|ensures\*?", bare)
        if word and word[0] != "//" and not word[0].startswith("ensures"):
            said, clause = [], None
        elif bare.startswith("//"):
            said, clause = ([] if clause else said) + [re.sub("^/+ *", "", bare)], None
        elif word:
            text = re.sub(r"^ensures\*? *", "", bare)
            name = re.sub(r" *\{.*$", "", text)
            said, clause = ([] if clause else said), (name or "·", [text[len(name):]])
            found.append((clause, said))
        elif clause:
            clause[1].append(bare)
    for (name, text), words in found:
        yield name, " ".join(words), re.sub(r" *\};?$", "", re.sub(r" *\{ *", "", " ".join(text), count=1), count=1)


def clauses_of(path):
    """The clauses of a source file. A call is a 'pub fn', a method of a 'pub trait', or a method of a trait's impl that has
    clauses of its own; a method is written 'Type::name'."""
    _, crate, _, file = path.split("/", 3)
    owner, is_public = "", False
    for item in ITEM.finditer(UNDER_TESTS.sub("", read(path))):
        if item["name"] is None:
            owner, is_public = owner_of(re.sub(r"\s*\n\s*", " ", item["head"])) if item["head"] else ("", False)
        elif item["lines"] is not None and (item["mark"] == "pub " or (item["indent"] and is_public)):
            call = (f"{owner}::" if item["indent"] and owner else "") + item["name"]
            yield from (Clause(crate, file, call, *clause) for clause in contract_clauses(item["lines"].splitlines()))


@functools.lru_cache(None)
def clauses(crate):
    """The clauses of the public calls of a crate."""
    return [clause for path in sources(crate) for clause in clauses_of(path)]


# ---- Definitions

HEAD = re.compile(r"^(?:abbrev |unfoldable |irreducible )*(?:pub )?(?:abbrev |unfoldable |irreducible )*"
                  r"(?:pub )?(?:record |data |inductive )?([A-Za-z_][\w'\-]*)(?=[\s({:])")
NO_HEAD = re.compile(r"^(?:use|pub use|pub mod|mod|where|open)\b")
WORDS = {"pub", "abbrev", "unfoldable", "irreducible", "record", "data", "use", "mod", "inductive"}
TOKEN = re.compile(r"(?:(\w+)\.)?([A-Za-z_][\w'\-]*)")
IMPORTS = r"(?:pub )?use ([\w\-]+(?:\.[\w\-]+)*)(?:\.\{([^}]*)\})?(?: as (\w+))?"
GHOST_IMPORTS = r"\s*ghost use ([\w\-]+(?:\.[\w\-]+)*)(?:\.\{([^}]*)\})?(?: as (\w+))?;"


def imports_of(text, pattern):
    """The names that a file imports, each with its file and its name there, and the names of files."""
    names, modules = {}, {}
    for path, listed, alias in re.findall("^" + pattern, text, re.M):
        if listed:
            for name in filter(None, (part.strip() for part in listed.split(","))):
                there, _, here = name.partition(" as ")
                names[here.strip() or there] = (path, there)
        elif alias:
            modules[alias] = path
    return names, modules


def definitions_of(text):
    """The definitions of a file of specs/: their names, each with its lines. A part that stands behind a
    'where' belongs to its definition; the bracket that ends a record stands at the margin. What stands in a
    module, or in one within it, is read as if it stood at the margin; a comment ends no module."""
    rows, modules = [], []
    for line in text.split("\n"):
        bare = line.lstrip()
        indent = len(line) - len(bare)
        while bare and not bare.startswith("--") and modules and indent <= modules[-1]:
            modules.pop()
        if bare.startswith("module "):
            modules.append(indent)
            line = "--"
        rows.append(line[min(indent, 2 * len(modules)):])
    found, name = {}, None
    for line in filter(str.strip, rows):
        if line.startswith((" ", "}", ")")) and name:
            found[name].append(line)
            continue
        head = HEAD.match(line)
        name = head[1] if head and not NO_HEAD.match(line) and head[1] not in WORDS else None
        if name:
            found.setdefault(name, []).append(line)
    return found


def parts_of(rows):
    """The names of the parts of a definition that stand behind its 'where', or behind that of a part."""
    found, depths = [], []
    for row in rows:
        indent = len(row) - len(row.lstrip())
        while depths and indent <= depths[-1]:
            depths.pop()
        part = re.match(r" *(?:abbrev |unfoldable )?([\w'\-]+) :", row)
        if depths and indent == depths[-1] + 2 and part:
            found.append(part[1])
        if row.strip() == "where":
            depths.append(indent)
    return found


def size_of(rows):
    """How many lines and how many tokens these lines have without their comments: a token is a word, a number or a sign."""
    bare = list(filter(str.strip, (re.sub("--.*", "", row) for row in rows)))
    return len(bare), sum(len(re.findall(r"[\w'\-]+|[^\w\s]", row)) for row in bare)


def named_in(text, names, modules, own=None):
    """What a text names: a file and a name there."""
    for prefix, name in TOKEN.findall(re.sub(r"--[^\n]*", "", text)):
        if prefix in modules:
            yield modules[prefix], name
        elif name in names:
            yield names[name]
        elif own and name in own[1]:
            yield own[0], name
        if prefix and prefix in names:
            yield names[prefix]
        elif prefix and own and prefix in own[1]:
            yield own[0], prefix


class Specs:
    """The definitions of all files of specs/, and what they rest on.

    A definition rests on another where its text names it, as its file's imports say."""

    def __init__(self):
        self.path, self.definitions, self.imports = {}, {}, {}
        for path in files("crates/*/specs/**/*.antt"):
            module = "Rattle." + path[len("crates/"):-len(".antt")].replace("/", ".")
            self.path[module], self.definitions[module] = path, definitions_of(read(path))
            self.imports[module] = imports_of(read(path), IMPORTS)

    def of_file(self, path):
        """The definitions of the file at a path."""
        return self.definitions.get("Rattle." + path[len("crates/"):-len(".antt")].replace("/", "."), {})

    def named_by(self, path, call):
        """What the contract of a call names."""
        text = read(path)
        start = text.index("pub fn " + call)
        return set(named_in(text[start:text.index("\n{", start)], *imports_of(text, GHOST_IMPORTS)))

    def named_by_trait(self, path):
        """What the clauses of the trait of a source file name: they say what its members mean."""
        text = re.sub("//.*", "", read(path))
        start = text.index("\npub trait ")
        return set(named_in(text[start:text.index("\n}", start)], *imports_of(text, GHOST_IMPORTS)))

    def keep_case(self, word, words):
        """Leaves of each definition that has a case for all of these words its head and the case of one of them."""
        for definitions in self.definitions.values():
            for name, rows in definitions.items():
                cases = [re.match(rf"{re.escape(name)} \(?(\w+)", row) for row in rows]
                if set(words) <= {case[1] for case in cases if case}:
                    definitions[name], is_kept = [], True
                    for row, case in zip(rows, cases):
                        is_kept = case[1] == word if case else is_kept
                        definitions[name] += [row] if is_kept else []

    def rests_on(self, roots):
        """The definitions that these rest on, and the types of the code among them."""
        seen, to_see, types = set(), list(roots), set()
        while to_see:
            module, name = to_see.pop()
            if (module, name) in seen:
                continue
            if name not in self.definitions.get(module, {}):
                if ".specs.declared." in module:
                    types.add(module)
                continue
            seen.add((module, name))
            own = (module, self.definitions[module])
            to_see += named_in("\n".join(self.definitions[module][name]), *self.imports[module], own)
        return seen, types


def record_members():
    """The members of the records of specs/, each as Record.member: the lines under a head that stand further in."""
    record = re.compile(r"^( *)(?!.*--.*record)(?:.* )?record ([A-Za-z]+).*\n((?:\1 +.*\n|\s*\n)*)", re.M)
    found = set()
    for path in files("crates/*/specs/**/*.antt"):
        for _, name, rows in record.findall(read(path)):
            found.update(f"{name}.{member}" for member in re.findall(r"^ +(?:pub )?([a-z_]+) :", rows, re.M))
    return found


# ---- Edits

class Edit:
    """An edit of a crate's code, which the prover has to refuse: pairs of an old and a new text in files."""

    def __init__(self, path):
        self.path, (self.kind, self.crate) = path, re.match(r"(?:crates/)?([^/]*)/([^/]*)", path).groups()
        if path.startswith("crates/"):
            self.kind, self.crate = "must-fail", path.split("/")[1]
        self.name = os.path.basename(path)

    def applied(self):
        """The texts of the files that it changes, by their paths; a ValueError says why it can't be applied."""
        was, now, path, old = {}, {}, None, None
        for line in lines(self.path):
            if line.startswith("file: "):
                path = f"crates/{self.crate}/{line[6:]}"
                if not re.match("(src|specs|proofs)/", line[6:]) or re.search(r"(^|/)\.\.?(/|$)", line[6:]):
                    raise ValueError(f"'{line[6:]}' is no file below src/, specs/ or proofs/")
                if not os.path.isfile(os.path.join(HERE, path)) or not read(path):
                    raise ValueError(f"there is no file {line[6:]}")
                was[path] = read(path)
                now.setdefault(path, was[path])
            elif line.startswith("old: "):
                old = line[5:]
            elif line.startswith("new:"):
                if path is None or not old:
                    raise ValueError("a new text stands before any file or old text")
                if now[path].count(old) != 1:
                    raise ValueError(f"{path} has this old text {now[path].count(old)} times, and not once: {old}")
                now[path] = now[path].replace(old, line[4:].removeprefix(" "))
                old = None
            elif line:
                raise ValueError(f"this line is none of file, old and new: {line}")
        if not was:
            raise ValueError("it has no old and new text")
        if now == was:
            raise ValueError("it changes nothing")
        return now
