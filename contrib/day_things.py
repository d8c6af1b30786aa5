"""What a day's counts say of each Thing, as one object for 'mud-report', for 'mud-day', which stands beside this.

The entries of an approved file are said in the words of 'explain', and so is the entry that would let through what was
denied. Nothing of it is judged here: each number is counted from the manager's lines.
"""
import collections
import importlib.machinery
import importlib.util
import os
import re
import time

import day_captures
import kept_files
from day_lines import KINDS, OTHERS, TALKS


def beside(name):
    """A program without an ending that stands beside this, as a module."""
    path = os.path.join(os.path.dirname(os.path.realpath(__file__)), name)
    loader = importlib.machinery.SourceFileLoader(name, path)
    module = importlib.util.module_from_spec(importlib.util.spec_from_loader(name, loader))
    loader.exec_module(module)
    return module


# in its sentences, a network that is one address
ONE_ADDRESS = re.compile("an address in (?:([0-9.]+)/32|([0-9a-f:.]+)/128)(?![0-9])")
EXPLAIN = beside("explain")
CHANGES = beside("changes")


class Files:
    """The approved files of Things' URLs, as 'explain' has them where their octets are at hand."""

    def __init__(self, program, listing, octets_of):
        self.rows = {row["url"]: row for row in listing}
        self.said = {}
        for url, row in self.rows.items():
            octets = row["approved"] and (octets_of(row["approved"]["sha256"]) or kept_files.octets_of(row["approved"]["sha256"]))
            try:
                if octets:
                    self.said[url] = EXPLAIN.explained(program, octets)
            except (EXPLAIN.Failed, EXPLAIN.Refused):
                pass

    def approved(self, url):
        return self.rows.get(url, {}).get("approved")

    def entries(self, url):
        """The entries of the URL's file: side, number, names and words."""
        said = self.said.get(url)
        return [{"side": side, "number": entry["number"], "acl": entry["acl"], "name": entry["name"], "words": entry["words"],
                 "action": entry["action"], "decides": bool(entry["decides"]), "remarks": [one["words"] for one in entry["remarks"]]}
                for side in ("from", "to") for entry in (said[side] if said else [])]

    def entry_of(self, url, side, ruling):
        """Which entry decided, with its names where the file is at hand."""
        word, _, number = ruling.partition(":")
        if not number.isdigit():
            return {}
        found = {"entry": int(number)}
        said = self.said.get(url)
        if said:
            entry = said[side][int(number) - 1]
            found.update(acl=entry["acl"], ace=entry["name"])
        return found


# ---- The entry that would let it pass

def ports_of(side, whose, port):
    """The test of ports, in a packet that the Thing sends or receives."""
    is_destination = (whose == "peer") == (side == "from")
    return {"destination-port" if is_destination else "source-port": {"operator": "eq", "port": int(port)}}


def begun_by(side, whose):
    """Who begins a connection to that port."""
    return "from-device" if whose == "peer" else "to-device"


def entry_for(key, names):
    """The entry by which a packet of this kind would pass, as a file has it, and the IP version of its list."""
    _, side, _, peer, protocol, layer, whose, port = key
    if protocol == "-":
        return None, 4
    version, end = 6 if ":" in peer else 4, "destination" if side == "from" else "source"
    length = 128 if version == 6 else 32
    name = "ietf-acldns:dst-dnsname" if side == "from" else "ietf-acldns:src-dnsname"
    ip = {name: names[0]} if names else {f"{end}-ipv{version}-network": f"{peer}/{length}"}
    matches = {f"ipv{version}": {**ip, "protocol": int(protocol)}}
    if layer in ("tcp", "udp"):
        matches[layer] = ports_of(side, whose, port)
        if layer == "tcp":
            matches[layer]["ietf-mud:direction-initiated"] = begun_by(side, whose)
    elif layer == "icmp":
        kind, code = port.split(".")
        matches["icmp"] = {"type": int(kind), "code": int(code)}
    return {"name": "lets-it-pass", "matches": matches, "actions": {"forwarding": "accept"}}, version


def words_of(ace, version, side, url):
    """The entry in a sentence."""
    acl = {"type": f"ipv{version}-acl-type", "name": "made"}
    return ONE_ADDRESS.sub(r"the address \1\2", EXPLAIN.sentence(EXPLAIN.entry_of(ace, acl, side, 1, ""), side, url))


def remedy(key, url, names):
    """What would let it pass, in words, with the entry where one would."""
    ruling = key[2]
    if ruling == "drop:held":
        return {"words": "The operator holds the Thing: to release it would."}
    if ruling == "drop:no-file":
        return {"words": "No file of its URL is approved: to approve one that allows it would."}
    if key[3] == OTHERS:
        return {"words": "These are of too many kinds to be told apart."}
    ace, version = entry_for(key, names)
    if ace is None:
        return {"words": "No entry speaks of such a packet."}
    found = {"ace": ace, "side": key[1], "version": version, "words": words_of(ace, version, key[1], url)}
    if ruling != "drop:no-match":
        found["before"] = f"{key[1]} {ruling.partition(':')[2]}"
    return found


# ---- The object

class Told:
    """What is told of a day. 'told' is what the store lists, 'day' the counts."""

    def __init__(self, day, listings, files, changes):
        self.day, self.listings, self.files, self.changes = day, listings, files, changes
        self.names = collections.defaultdict(list)
        for row in listings["names"]:
            for one in row["addresses"]:
                self.names[one["address"]].append(row["name"])
        # of each Thing what was denied, what of it was begun before, and the rulings
        self.of_denied, self.of_before = by_thing(day.denied.items()), by_thing(day.before.items())
        self.of_rulings = by_thing(sorted(day.rulings.items()))

    def hours(self, count):
        """The numbers of each kind, hour by hour."""
        start = self.day.found.start
        # where the clocks are changed an hour may come twice
        form = "%H:%M" if self.day.found.end - start == day_captures.DAY else "%H:%M %Z"
        return [{"second": second, "time": time.strftime(form, time.localtime(second)), **{kind: self.day.hours[at, kind] for kind in KINDS}}
                for at, second in enumerate(range(start, start + count * 3600, 3600))]

    def rulings(self, mac):
        """How often each ruling was given, by side."""
        return [{"side": side, "ruling": ruling, "packets": packets} for (_, side, ruling), packets in self.of_rulings[mac]]

    def denied(self, url, rows):
        """What was denied of a Thing, the most first."""
        found = []
        for key, row in rows:
            names = self.names.get(key[3], [])
            found.append({"side": key[1], "ruling": key[2], "peer": key[3], "names": names, "protocol": key[4], "layer": key[5],
                          "whose": key[6], "port": key[7], "packets": row.packets, "first": row.first, "last": row.last,
                          "remedy": remedy(key, url, names)})
        return sorted(found, key=lambda one: (-one["packets"], one["first"], one["peer"], one["port"]))

    def thing(self, row):
        """A Thing."""
        mac, url = row["mac"], row["url"]
        rulings, approved = self.rulings(mac), self.files.approved(url)
        given = {(one["side"], one["ruling"].partition(":")[2]): one["packets"] for one in rulings if one["ruling"][-1].isdigit()}
        entries = [{**entry, "packets": given.get((entry["side"], str(entry["number"])), 0)} for entry in self.files.entries(url)]
        kinds = {kind: self.day.kinds[mac, kind] for kind in TALKS if self.day.kinds[mac, kind]}
        file = approved and {**approved, **self.changes.verdict(url, approved["sha256"]), "at-hand": url in self.files.said}
        return {**row, "file": file, "waiting": self.files.rows.get(url, {}).get("candidate"), "kinds": kinds, "rulings": rulings, "entries": entries,
                "unknown": self.day.not_known[mac], "denied": self.denied(url, self.of_denied[mac]), "begun": self.denied(url, self.of_before[mac]),
                "needs": [need["words"] for need in self.files.said[url]["needs"]] if url in self.files.said else [],
                "changes": self.changes.of_thing(row, self.files.said.get(url))}

    def talking(self):
        """Who talks to whom."""
        return [{"mac": mac, "peer": peer, "names": self.names.get(peer, []), **row} for (mac, peer), row in sorted(self.day.talks.items())]

    def senders(self):
        """The senders that are no Things, the most first."""
        rows = [{"mac": mac if mac == OTHERS else mac.hex(":"), "first": row.first, "last": row.last, "packets": row.packets, "addresses": row.addresses}
                for mac, row in self.day.senders.items()]
        return sorted(rows, key=lambda row: (-row["packets"], row["mac"]))


def by_thing(rows):
    """Rows by the Thing with which their keys begin."""
    found = collections.defaultdict(list)
    for key, row in rows:
        found[key[0]].append((key, row))
    return found


# ---- Who changed what

class Changes:
    """The log of changes: that of the day, and who gave which verdict."""

    def __init__(self, found, faults, date):
        self.faults = faults
        self.day = [one for one in found if one.day == date]
        self.verdicts = [one for one in found if one.does == "POST /verdicts" and one.status == "200" and one.day <= date]

    def verdict(self, url, sha256):
        """Who approved a file, and when."""
        for one in reversed(self.verdicts):
            if one.said.get("sha256") == sha256 and one.url() == url and one.said.get("verdict") != "failed":
                return {"by": CHANGES.shown(one.user or "(nobody)"), "at": f"{one.day} {one.time}"}
        return {"by": None, "at": None}

    @staticmethod
    def row(one):
        return {"time": one.time, "user": CHANGES.shown(one.user or "(nobody)"), "words": one.words(), "mac": one.mac(), "url": one.url()}

    def rows(self):
        return [self.row(one) for one in self.day]

    def of_thing(self, thing, said):
        """The day's changes that touch a Thing: by its hardware address, its URL, or a class that its file asks for."""
        classes = {need["value"] for need in said["needs"] if need["kind"] == "controller"} if said else set()
        urls = {thing["url"], thing["pending"]} - {None}
        return [self.row(one) for one in self.day
                if str(one.mac()).lower() == thing["mac"] or one.url() in urls or one.said.get("class") in classes]


def waits(listings, due, files):
    """What waits for the operator, in words."""
    for row in listings["files"]:
        if row["candidate"]:
            yield f"A file of {row['url']} waits for a verdict, SHA-256 {row['candidate']['sha256']}."
    for row in listings["things"]:
        if row["pending"]:
            yield f"{row['mac']} announces another URL, {row['pending']}, than its own, {row['url']}."
        if not files.approved(row["url"]):
            yield f"{row['mac']} has no approved file of its URL, {row['url']}."
        if row["held"]:
            yield f"{row['mac']} is held."
    yield from (f"The file of {url} is past its hours." for url in due)

