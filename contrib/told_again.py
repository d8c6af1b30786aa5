"""What a served store keeps, and the requests that tell it to another one, for the programs beside this file.

All is told at the moment 0, where seconds are the expiry itself, so that leases and names that have ended are
kept too; then each usage file at the moment of its own fetching. The stamp alone can't be told: that of the
store that is made is the moment of its last request that changes something.
"""
import collections
import json
import os
import re
import sqlite3
import subprocess
import tempfile
import time

import console
import kept_files
from console import Fault

NAMES = ("things", "files", "classes", "locals", "names")
MEMORY = "/run"
# the seconds that mean for ever, and the most that a lease and a name take beside that
FOR_EVER = 4294967295
LEASE = 4294967294
TTL = 2147483647
# a connection has one request fewer, and then five listings
MOST = 999_990

Request = collections.namedtuple("Request", "moment method path body")


def url_to_tell(url):
    """A URL as it is told: one of 256 octets without the '/' of its empty path."""
    return re.sub(r"^(https://[^/?]+)/", r"\1", url) if len(url) > 255 else url


def announcement(mac, url):
    """The DHCP message in which the Thing announces the URL."""
    return console.announcement(mac, url_to_tell(url).encode())


def steps_to(expiry, most):
    """The moments and seconds by which an expiry is told: the first at 0, each further one before the last ends."""
    reached = min(expiry, most)
    yield 0, reached
    while reached < expiry:
        moment = min(reached - 1, expiry - most)
        reached = moment + most
        yield moment, most


class Telling:
    """The requests that tell the listings, and the listings that they lead to."""

    def __init__(self, listings, without_missing=False, now=None, kept=kept_files.octets_of):
        self.listings = dict(listings)
        # what gives the octets of a digest, or None
        self.kept = kept
        self.now = int(time.time()) if now is None else now
        self.requests = []
        # the digests whose octets aren't there, each with its URL and which of its files it is
        self.missing = []
        # those that are told at the clock's moment, as their own is ahead of it
        self.ahead = []
        self.tell_things()
        self.tell_binds()
        self.listings["files"] = [row for row in map(self.tell_files, listings["files"]) if row]
        if self.missing and not without_missing:
            raise Fault("\n".join(self.complaints()))
        if len(self.requests) > MOST:
            raise Fault(f"{len(self.requests)} requests are more than a connection may have")
        self.requests.sort(key=lambda request: request.moment)

    def remarks(self):
        """A line for each thing that the store will keep otherwise."""
        yield from self.complaints()
        for url, which, moment in self.ahead:
            yield f"the {which} file of {url} was fetched at {moment}, which is ahead of the clock: it is told at {self.now}"

    def complaints(self):
        """A line for each file that isn't there."""
        for url, which, sha256 in self.missing:
            yield f"the {which} file of {url} isn't in {kept_files.folder()}: {sha256}. 'put --keep FILE' puts it there"

    def add(self, moment, method, path, body):
        octets = body if isinstance(body, bytes) else json.dumps(body).encode()
        self.requests.append(Request(moment, method, path, octets))

    def tell_things(self):
        """Each Thing with the URL that waits, its hold and its leases."""
        for thing in self.listings["things"]:
            mac = thing["mac"]
            self.add(0, "POST", "/hear/dhcp", announcement(mac, thing["url"]))
            if thing["pending"]:
                self.add(0, "POST", "/hear/dhcp", announcement(mac, thing["pending"]))
            if thing["held"]:
                self.add(0, "POST", "/holds", {"mac": mac})
            for lease in thing["leases"]:
                until = lease["until"]
                steps = [(0, FOR_EVER)] if until is None else steps_to(until, LEASE)
                for moment, seconds in steps:
                    self.add(moment, "POST", "/leases", {"mac": mac, "address": lease["address"], "seconds": seconds})

    def tell_binds(self):
        """The classes, the local networks, and the names with each of their addresses."""
        for row in self.listings["classes"]:
            kind = "class" if "class" in row else "my-controller-of"
            text = row[kind] if kind == "class" else url_to_tell(row[kind])
            for address in row["addresses"]:
                self.add(0, "POST", "/classes", {kind: text, "address": address})
        if self.listings["locals"]:
            self.add(0, "PUT", "/locals", {"prefixes": self.listings["locals"]})
        for row in self.listings["names"]:
            for at in row["addresses"]:
                if at["until"] is None:
                    raise Fault(f"the name {row['name']} has {at['address']} for ever, which can't be told")
                for moment, ttl in steps_to(at["until"], TTL):
                    self.add(moment, "POST", "/names", {"name": row["name"], "address": at["address"], "ttl": ttl})

    def octets_of(self, row, which):
        """The octets of a file of this URL, where it is held and they are there; and the moment at which it is told."""
        held = row["approved" if which == "approved" else "candidate"]
        if not held:
            return None, 0
        octets = self.kept(held["sha256"])
        if octets is None:
            self.missing.append((row["url"], which, held["sha256"]))
            return None, 0
        if held["fetched"] > self.now:
            self.ahead.append((row["url"], which, held["fetched"]))
        return octets, min(held["fetched"], self.now)

    def tell_files(self, row):
        """The files of a URL: the approved one and its verdict, the one that waits, and the approved one once more
        where it was fetched later. What the URL has then, or None."""
        approved, first = self.octets_of(row, "approved")
        candidate, second = self.octets_of(row, "waiting")
        if approved is not None:
            moment = first if candidate is None else min(first, second)
            verdict = {"url": url_to_tell(row["url"]), "sha256": row["approved"]["sha256"], "verdict": row["approved"]["verdict"]}
            self.add(moment, "POST", "/files", approved)
            self.add(moment, "POST", "/verdicts", verdict)
        if candidate is not None:
            self.add(second, "POST", "/files", candidate)
            if approved is not None and first > second:
                self.add(first, "POST", "/files", approved)
        kept = {
            "approved": None if approved is None else row["approved"] | {"fetched": first},
            "candidate": None if candidate is None else row["candidate"] | {"fetched": second},
            "url": row["url"],
        }
        return kept if kept["approved"] or kept["candidate"] else None

    def octets(self):
        """The requests as 'mud replay' reads them."""
        parts = []
        for moment, method, path, body in self.requests:
            parts.append(b"%b %b HTTP/1.1\r\nMud-Moment: %d\r\nContent-Length: %d\r\n\r\n" % (method.encode(), path.encode(), moment, len(body)))
            parts.append(body)
        return b"".join(parts)


def requests_in(octets):
    """The path and the body of each request that 'Telling.octets' wrote."""
    at = 0
    while at < len(octets):
        end = octets.index(b"\r\n\r\n", at) + 4
        head = octets[at:end]
        size = int(re.search(rb"\r\nContent-Length: (\d+)\r\n", head)[1])
        yield head.split(b" ")[1].decode(), octets[end : end + size]
        at = end + size


def answers_in(octets):
    """The status and the body of each answer."""
    at = 0
    while at < len(octets):
        end = octets.index(b"\r\n\r\n", at) + 4
        head = octets[at:end]
        size = int(re.search(rb"\r\nContent-Length: (\d+)\r\n", head)[1])
        yield int(head[9:12]), octets[end : end + size]
        at = end + size


def replayed(program, store, octets, count):
    """What as many answers are as there were requests, of a run of 'mud replay'; each has to be 200."""
    try:
        run = subprocess.run([program, "replay", store], input=octets, capture_output=True, check=False)
    except OSError as failure:
        raise Fault(f"{program} can't be run: {failure.strerror}") from failure
    answers = list(answers_in(run.stdout))
    for number, (status, body) in enumerate(answers):
        if status != 200:
            raise Fault(f"the request {number + 1} of {count} was refused: {status} {body.decode()}")
    if run.returncode or len(answers) != count:
        raise Fault(f"'mud replay' ended with {run.returncode} behind {len(answers)} of {count} requests: {run.stderr.decode().strip()}")
    return [body for _, body in answers]


def make_store(telling, store):
    """Makes the store of the requests, as one file, and compares what it lists with what was told."""
    program = os.environ.get("MUD") or "mud"
    last = telling.requests[-1].moment if telling.requests else 0
    asked = b"".join(b"GET /%b HTTP/1.1\r\nMud-Moment: %d\r\n\r\n" % (name.encode(), last) for name in NAMES)
    answers = replayed(program, store, telling.octets() + asked, len(telling.requests) + len(NAMES))
    for name, body in zip(NAMES, answers[-len(NAMES) :]):
        if json.loads(body)[name] != telling.listings[name]:
            raise Fault(f"the store that was made lists other {name}")
    as_one_file(store)


def as_one_file(store):
    """Takes what stands in the store's log into its file, and the log away."""
    connection = sqlite3.connect(store, timeout=0, isolation_level=None)
    try:
        connection.execute("PRAGMA journal_mode=DELETE")
    finally:
        connection.close()


def memory_folder(folder, prefix):
    """A folder in the folder of memory, which goes in the end."""
    try:
        return tempfile.TemporaryDirectory(prefix=prefix, dir=folder)
    except OSError as failure:
        raise Fault(f"nothing can be written in {folder} ({failure.strerror}): --in names another folder") from failure


def replace_store(made, store):
    """Puts the store that was made where it belongs, whole or not at all. What stands there stays until then, and
    where a program has it open it stays."""
    holder = None
    try:
        if os.path.exists(store):
            # its log would be read over the new one: it is taken into the old file, which is kept from others
            holder = sqlite3.connect(store, timeout=0, isolation_level=None)
            holder.execute("PRAGMA journal_mode=DELETE")
            holder.execute("BEGIN EXCLUSIVE")
        elif os.path.exists(store + "-wal"):
            raise Fault(f"{store}-wal is there without its store: take it away")
        with open(made, "rb") as file:
            kept_files.write_whole(store, file)
    except sqlite3.OperationalError as failure:
        raise Fault(f"another program uses {store}, which stays as it was ({failure})") from failure
    except sqlite3.DatabaseError as failure:
        raise Fault(f"{store} is no store, and stays as it was ({failure})") from failure
    except OSError as failure:
        raise Fault(f"{store} can't be written: {failure.strerror}") from failure
    finally:
        if holder:
            holder.close()
