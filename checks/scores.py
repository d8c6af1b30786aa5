"""Scores crates by the wrong bodies that the toolchain makes itself, and keeps what came of them ('make score', 'checks/print score')."""
import glob
import hashlib
import os
import re
import shutil
import subprocess
import sys

from checks import texts

# What came of the bodies of a crate, and each body that is still proved, with its reason.
TABLE, SURVIVORS = "plants/score.tsv", "plants/survivors.tsv"
KINDS = "proves same refused elsewhere not-judged not-source not-run".split()
COLUMNS = ["crate", "text", "kit", "max", "minutes", "only", "planted-in", "untested", "no-ensures", *KINDS]
BODY_COLUMNS = ["crate", "at", "body", "reason"]

# Why a wrong body may stay proved; `contract` asks for a change of the contract, and `open` for a reader.
REASONS = {
    "memory": "want of memory needs no cause",
    "same": "it means the same",
    "time": "it costs time alone",
    "contract": "a contract to mend",
    "open": "not read yet",
}


def text_of(crate):
    """A digest of a crate's sources and definitions."""
    digest = hashlib.sha256()
    for path in sorted(glob.glob(f"{texts.HERE}/crates/{crate}/s*/**/*.*t*", recursive=True)):
        with open(path, "rb") as file:
            digest.update(path.removeprefix(texts.HERE).encode() + b"\0" + file.read())
    return digest.hexdigest()[:12]


def rows_of(path, columns):
    """The rows of a table, each by its columns."""
    if not os.path.exists(os.path.join(texts.HERE, path)):
        return []
    _, *rows = [line.split("\t") for line in texts.lines(path)]
    return [dict(zip(columns, row, strict=True)) for row in rows]


def keep(path, columns, rows):
    """Writes a table."""
    lines = ["\t".join(columns), *("\t".join(row[name] for name in columns) for row in rows)]
    with open(os.path.join(texts.HERE, path), "w", encoding="utf-8") as file:
        file.write("".join(line + "\n" for line in lines))


def read_plants(said):
    """The counts in what 'rt plant' says, and the bodies that are still proved, each with its place."""
    counts = dict(re.findall(r"(\S+)=(\S+)", next(line for line in said.splitlines() if line.startswith("plants crate="))))
    bodies = re.findall(r"(?m)^(?:proves|untested|no-ensures) +(\S+:\d+ [^\s(:]+(?:::[^\s(:]+)*)(.*)$", said)
    return counts, [(at, body.lstrip(": ").replace("\t", " ")) for at, body in bodies]


def score(crate, most="400", minutes="10", only=""):
    """Has the toolchain try its wrong bodies on one crate, and keeps the row and the bodies that are still proved."""
    words = ["rt", "plant", "--max", most, "--minutes", minutes, *(["--only", only] if only else []), "--jobs", "1"]
    run = subprocess.run(words, cwd=f"{texts.HERE}/crates/{crate}", stdout=subprocess.PIPE, text=True, check=False)
    if run.returncode:
        sys.exit(f"score: rt plant ended with {run.returncode} in {crate}")
    counts, bodies = read_plants(run.stdout)
    kit = subprocess.run(["rt", "version"], stdout=subprocess.PIPE, text=True, check=True).stdout.split()[-1]
    row = {"crate": crate, "text": text_of(crate), "kit": kit, "max": most, "minutes": minutes, "only": only or "-"}
    row |= {name: counts.get(name, "0") for name in COLUMNS if name not in row}
    rows = [old for old in rows_of(TABLE, COLUMNS) if (old["crate"], old["only"]) != (crate, row["only"])]
    keep(TABLE, COLUMNS, sorted([*rows, row], key=lambda of: (of["crate"], of["only"])))
    known = {(old["crate"], old["body"]): old["reason"] for old in rows_of(SURVIVORS, BODY_COLUMNS)}
    others = [old for old in rows_of(SURVIVORS, BODY_COLUMNS) if old["crate"] != crate]
    found = [{"crate": crate, "at": at, "body": body, "reason": known.get((crate, body), "open")} for at, body in bodies]
    keep(SURVIVORS, BODY_COLUMNS, sorted([*others, *found], key=lambda of: (of["crate"], of["at"], of["body"])))
    return f"{crate}: " + " ".join(f"{name}={row[name]}" for name in KINDS)


def said():
    """What was tried and what came of it, of all crates; which rows are of an older text; and how many bodies each reason has."""
    rows, bodies = rows_of(TABLE, COLUMNS), rows_of(SURVIVORS, BODY_COLUMNS)
    sums = {name: sum(int(row[name]) for row in rows) for name in KINDS}
    judged = sums["proves"] + sums["same"] + sums["refused"]
    older = sorted({row["crate"] for row in rows if row["text"] != text_of(row["crate"])})
    parts = [f"{len(rows)} rows; {judged} bodies judged, {sums['refused']} of them refused; " + ", ".join(f"{name} {sums[name]}" for name in KINDS)]
    parts += [f"{reason}: {sum(body['reason'] == reason for body in bodies)} ({text})" for reason, text in REASONS.items()]
    parts += [f"of an older text: {' '.join(older)}"] if older else []
    return "\n".join(parts)


def main(crates):
    """Scores these crates, or all; `MAX`, `MINUTES` and `ONLY` of the environment say how far."""
    shutil.which("rt") or sys.exit("score: needs the toolchain")
    for crate in crates or sorted(texts.crates()):
        print(score(crate, os.environ.get("MAX", "400"), os.environ.get("MINUTES", "10"), os.environ.get("ONLY", "")), flush=True)
    print(said())
