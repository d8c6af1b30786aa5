"""What is told to the stores by which a day is judged, for 'mud-day', which stands beside this.

A copy of the store, as 'copy' reads it, is kept at the day's beginning as requests. Over it is told at the first second
of the run what was heard: the messages in which URLs were announced, leases and names, these two until the day's end.
Where an address goes from one Thing to another there are several states, each a store of its own.
"""
import collections
import gzip
import io
import ipaddress
import json
import os
import re
import subprocess

import console
import kept_files
import told_again
from console import Fault
from told_again import Request

DNS_CLASS = "urn:ietf:params:mud:dns"
# more states than these aren't told apart
STATES = 8
# what was told and refused, in words
Told = collections.namedtuple("Told", "listings answers refused")
# from this second on an address has these holders; what went there, in words
State = collections.namedtuple("State", "second holders words")


def program():
    return os.environ.get("MUD") or "mud"


# ---- A copy, as requests

def keep_copy(path, made, without_missing, wait):
    """Keeps what the served store keeps as requests, having compared what a store of them lists."""
    telling = told_again.Telling(console.Console(wait).listings(told_again.NAMES), without_missing)
    kept_files.write_whole(path, packed(telling.octets(), made), 0o640)
    return list(telling.remarks())


def packed(octets, second=0):
    """The octets, compressed, with a second in their head."""
    whole = io.BytesIO()
    with gzip.GzipFile(fileobj=whole, mode="wb", mtime=second, filename="") as file:
        file.write(octets)
    return whole.getvalue()


class Copy:
    """A copy: its requests, when it was made, the octets of its files by their digest, and what it lists."""

    def __init__(self, path):
        try:
            with gzip.open(path) as file:
                self.octets = file.read()
                self.made = file.mtime
            requests = list(told_again.requests_in(self.octets))
        except (OSError, EOFError, ValueError, TypeError) as failure:
            raise Fault(f"the copy {path} can't be read: {failure}") from failure
        self.files = {kept_files.digest(body): body for route, body in requests if route == "/files"}
        moments = re.findall(rb"\r\nMud-Moment: (\d+)\r\n", self.octets)
        self.moment, self.count = int(moments[-1]) if moments else 0, len(requests)

    def look(self):
        """Reads what a store of the copy lists."""
        asked = b"".join(b"GET /%b HTTP/1.1\r\nMud-Moment: %d\r\n\r\n" % (name.encode(), self.moment) for name in told_again.NAMES)
        answers = told_again.replayed(program(), ":memory:", self.octets + asked, self.count + len(told_again.NAMES))
        self.listings = {name: json.loads(body)[name] for name, body in zip(told_again.NAMES, answers[self.count:])}
        bound = [row["addresses"] for row in self.listings["classes"] if row.get("class") == DNS_CLASS]
        self.servers = {ipaddress.ip_address(one) for part in bound for one in part}

    def due(self, moment):
        """The URLs whose file is past its hours at a moment."""
        moment = max(moment, self.moment)
        asked = b"GET /due HTTP/1.1\r\nMud-Moment: %d\r\n\r\n" % moment
        return json.loads(told_again.replayed(program(), ":memory:", self.octets + asked, self.count + 1)[-1])["due"]


# ---- What is told over it

class Telling:
    """The requests of a day's stores."""

    def __init__(self, copy, found, first):
        self.copy, self.found, self.first = copy, found, first
        self.base = told_again.Telling(copy.listings, True, first, copy.files.get)
        # nothing is told later than that, as each packet is judged as of the last change at the least
        self.base.requests = [one._replace(moment=min(one.moment, first)) for one in self.base.requests]
        self.known = {row["mac"] for row in copy.listings["things"]}
        # from this second on the copy doesn't know what was heard: where none was made at the day's beginning, from an earlier one
        self.since = min(copy.made, found.start)
        self.announced, self.announcements, self.leases = {}, [], []
        self.hear()
        self.things = self.known | set(self.announced)
        self.states = list(self.states_of())
        self.names = sorted({(name, address) for mac, name, address in found.answers if mac in self.things})

    def asked(self):
        return [Request(self.first, "POST", one.path, one.body) for one in self.found.messages]

    def hear(self):
        """Has the manager read the messages: which announce what is new in the day, and which lease an address."""
        answers = self.told(self.base.requests + self.asked())[-len(self.found.messages):] if self.found.messages else []
        for one, (status, body) in zip(self.found.messages, answers):
            answer = json.loads(body) if status == 200 else {}
            if answer.get("heard") == "lease":
                self.leases.append((one, answer["address"], answer["mac"]))
            # what was announced before the copy was made is in it
            elif answer.get("heard") == "url" and answer["result"] != "same" and one.second >= self.since:
                self.announcements.append(one)
                if answer["mac"] not in self.known:
                    self.announced.setdefault(answer["mac"], one)

    def told(self, requests, store=":memory:"):
        """The answers to requests, each its status and body; one may be refused."""
        telling = b"".join(octets_of(one) for one in requests)
        try:
            run = subprocess.run([program(), "replay", store], input=telling, capture_output=True, check=False)
        except OSError as failure:
            raise Fault(f"{program()} can't be run: {failure.strerror}") from failure
        answers = list(told_again.answers_in(run.stdout))
        if len(answers) != len(requests):
            raise Fault(f"'mud replay' ended with {run.returncode} behind {len(answers)} of {len(requests)} requests: {run.stderr.decode().strip()}")
        return answers

    def states_of(self):
        """The states of leases, the first from the run's beginning on."""
        earlier = [row for row in self.leases if row[0].second < self.found.start]
        holders = {address: mac for _, address, mac in earlier}
        for row in self.copy.listings["things"]:
            for lease in row["leases"]:
                if lease["until"] is None or lease["until"] > self.found.start:
                    holders[lease["address"]] = row["mac"]
        holders.update((address, mac) for one, address, mac in earlier if one.second >= self.since)
        changes, now = {}, dict(holders)
        for one, address, mac in self.leases:
            if self.found.start <= one.second < self.found.end:
                before = now.setdefault(address, mac)
                holders.setdefault(address, mac)
                if before != mac and {before, mac} & self.things:
                    changes.setdefault(one.second, []).append((address, before, mac))
                now[address] = mac
        yield State(0, dict(holders), [])
        rows = sorted(changes.items())
        for at, (second, moved) in enumerate(rows):
            holders.update((address, mac) for address, _, mac in moved)
            words = [f"{address} goes from {before} to {mac}" for address, before, mac in moved]
            if at == STATES - 2 and len(rows) > STATES - 1:
                holders.update((address, mac) for _, later in rows[at:] for address, _, mac in later)
                words = [f"leases move {len(rows)} times in the day: from here on the last ones count"]
                yield State(second, dict(holders), words)
                return
            yield State(second, dict(holders), words)

    def requests(self, state, for_ever=False):
        """The requests of a state's store; in one for 'export' leases and names of the day don't end."""
        added = [Request(self.first, "POST", one.path, one.body) for one in self.announcements]
        seconds = told_again.FOR_EVER if for_ever else self.found.end - self.first
        for address, mac in sorted(state.holders.items()):
            if mac in self.things:
                added.append(lease_request(self.first, mac, address, seconds))
            elif any(lease["address"] == address for row in self.copy.listings["things"] for lease in row["leases"]):
                added.append(Request(self.first, "DELETE", "/leases", json.dumps({"address": address}).encode()))
        ttl = told_again.TTL if for_ever else seconds
        for name, address in self.all_names() if for_ever else self.names:
            added.append(Request(self.first, "POST", "/names", json.dumps({"name": name, "address": address, "ttl": ttl}).encode()))
        return self.base.requests + added

    def all_names(self):
        """The names of the day, and those of the copy that hadn't ended."""
        kept = {(row["name"], one["address"]) for row in self.copy.listings["names"] for one in row["addresses"] if one["until"] > self.found.start}
        return sorted(kept | set(self.names))

    def make(self, requests, store):
        """Makes a store of the requests: what it lists, and what of the day was refused."""
        asked = [Request(requests[-1].moment if requests else self.first, "GET", "/" + name, b"") for name in told_again.NAMES]
        answers = self.told(requests + asked, store)
        told_again.as_one_file(store)
        refused = []
        for at, (status, body) in enumerate(answers[:len(requests)]):
            if status != 200 and at < len(self.base.requests):
                raise Fault(f"the request {at + 1} of the copy was refused: {status} {body.decode()}")
            if status != 200:
                refused.append(refusal(requests[at], status, body))
        listings = {name: json.loads(body)[name] for name, (_, body) in zip(told_again.NAMES, answers[len(requests):])}
        return Told(listings, answers, refused)


def lease_request(moment, mac, address, seconds):
    return Request(moment, "POST", "/leases", json.dumps({"mac": mac, "address": address, "seconds": seconds}).encode())


def octets_of(one):
    """A request as 'mud replay' reads it."""
    length = b"" if one.method == "GET" else b"Content-Length: %d\r\n" % len(one.body)
    return b"%b %b HTTP/1.1\r\nMud-Moment: %d\r\n%b\r\n" % (one.method.encode(), one.path.encode(), one.moment, length) + one.body


def refusal(one, status, body):
    """What was refused, in words."""
    what = one.body.decode() if one.path in ("/leases", "/names") else "a message"
    return f"{one.path} {what}: {console.words_of(status, body.decode())}"
