"""A maker's usage file: which URL it is for, when it was made and where its signature is, as the manager reads it, and
what came of the signature's check, which stands beside its octets in the folder of files."""
import collections
import contextlib
import json
import os
import subprocess

import console
import kept_files
import signature

SECONDS = 30

File = collections.namedtuple("File", "url update signature")


class Refused(Exception):
    """Why the manager wouldn't take a file, in its words."""


def read(octets, program):
    """What the file says, by 'mud check', which reads it as the manager does."""
    try:
        ended = subprocess.run([program, "check"], input=octets, capture_output=True, timeout=SECONDS, check=False)
    except (OSError, subprocess.TimeoutExpired) as failure:
        raise console.Fault(f"'{program} check' can't be run: {failure}") from failure
    lines = ended.stdout.decode("utf-8", "replace").splitlines()
    if ended.returncode == 3 and lines:
        raise Refused(lines[-1])
    said = dict(line.split(" ", 1) for line in lines[:3] if " " in line)
    if ended.returncode != 0 or not {"file", "update"} <= said.keys():
        raise console.Fault(f"'{program} check' ended with {ended.returncode}")
    return File(said["file"], int(said["update"]), place_of_signature(octets))


def place_of_signature(octets):
    """The file's mud-signature, or None. A file that has a member twice is none that everybody reads alike."""

    def members(pairs):
        if len({name for name, _ in pairs}) != len(pairs):
            raise Refused("a member stands in it twice")
        return dict(pairs)

    try:
        mud = json.loads(octets, object_pairs_hook=members)["ietf-mud:mud"]
        place = mud.get("mud-signature")
    except (ValueError, KeyError, AttributeError, RecursionError):
        raise Refused("it can't be read as JSON") from None
    if place is not None and not isinstance(place, str):
        raise Refused("its mud-signature is no text")
    return place


def path_of_outcome(sha256):
    """Where the outcome of the check of a file's signature is."""
    return os.path.join(kept_files.folder(), sha256 + ".outcome")


def note(sha256, url, outcome, now):
    """Keeps beside a file's octets what came of the check of its signature."""
    said = {"url": url, "checked": now, **outcome._asdict()}
    kept_files.write_whole(path_of_outcome(sha256), (json.dumps(said) + "\n").encode(), 0o644)


def drop(sha256):
    """Takes a file's octets away, and what came of the check of its signature."""
    for path in (kept_files.path_of(sha256), path_of_outcome(sha256)):
        with contextlib.suppress(OSError):
            os.unlink(path)


def words_of(outcome):
    """An outcome in words."""
    parts = [signature.MEANINGS[outcome.word] + (f" ({outcome.why})" if outcome.why else "")]
    if outcome.signer:
        parts.append(f"signed by {outcome.signer}, whose issuer is {outcome.issuer}, until {outcome.ends}")
    return "; ".join(parts)
