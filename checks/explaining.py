"""contrib/explain as a module, and usage files that are made for it."""
import hashlib
import importlib.machinery
import importlib.util
import json
import os
import random

from checks.program import PROGRAM
from checks.texts import HERE

SCRIPT = os.path.join(HERE, "contrib/explain")
MODULE = "ietf-access-control-list:"


def loaded():
    """contrib/explain, which has no ending of a module."""
    loader = importlib.machinery.SourceFileLoader("explain", SCRIPT)
    module = importlib.util.module_from_spec(importlib.util.spec_from_loader("explain", loader))
    loader.exec_module(module)
    return module


EXPLAIN = loaded()


def explained(octets):
    """What 'explain --json' says of a file, as it is read back."""
    try:
        return json.loads(json.dumps(EXPLAIN.explained(PROGRAM, octets)))
    except EXPLAIN.Refused as refused:
        return json.loads(json.dumps(refused.args[0]))


def ace(name, matches, forwarding="accept"):
    """An entry as it is written in a file."""
    return {"name": name, "matches": matches, "actions": {"forwarding": forwarding}}


def usage_file(lists, url="https://lighting.example.com/lightbulb2000", **more):
    """A usage file as an object; each list is its side, its IP version and its entries."""
    acls = [{"name": f"{side}{version}", "type": f"ipv{version}-acl-type", "aces": {"ace": aces}} for side, version, aces in lists]
    policies = {f"{side}-device-policy": {"access-lists": {"access-list": [
        {"name": f"{side}{version}"} for it, version, _ in lists if it == side]}} for side in ("from", "to")}
    mud = {"mud-version": 1, "mud-url": url, "last-update": "2019-01-28T11:20:51Z", "is-supported": True, **policies, **more}
    return {"ietf-mud:mud": mud, MODULE + "acls": {"acl": acls}}


def octets_of(value):
    return json.dumps(value).encode()


def digest(octets):
    """By what a verdict names a file."""
    return hashlib.sha256(octets).hexdigest()


class Maker:
    """Entries by chance, which have every kind of selector and test, of the names and numbers that are given."""

    def __init__(self, seed, hosts, models, names, classes, networks, ports):
        self.random = random.Random(seed)
        self.hosts, self.models, self.names, self.classes, self.networks, self.ports = hosts, models, names, classes, networks, ports

    def maybe(self, share):
        return self.random.random() < share

    def peer_tests(self):
        """What `ietf-mud:mud` asks."""
        values = {"manufacturer": self.random.choice(self.hosts), "model": self.random.choice(self.models),
                  "controller": self.random.choice(self.classes)}
        kinds = [*values, "same-manufacturer", "local-networks", "my-controller"]
        chosen = self.random.sample(kinds, self.random.choice([1, 1, 1, 1, 2]))
        return {kind: values.get(kind, self.random.choice([[None], None])) for kind in chosen}

    def ip_tests(self, side, version):
        """What the container of the IP version asks."""
        pick, tests = self.random.choice, {}
        peer, own, name = ("destination", "source", "dst") if side == "from" else ("source", "destination", "src")
        networks = [network for network in self.networks if (":" in network) == (version == 6)]
        for share, member, values in (
                (0.15, "protocol", [6, 17, 1, 58, 2]), (0.25, f"{peer}-ipv{version}-network", networks),
                (0.2, f"{own}-ipv{version}-network", networks), (0.3, f"ietf-acldns:{name}-dnsname", self.names),
                (0.06, "dscp", [0, 46]), (0.06, "ecn", [0, 1]), (0.06, "ttl", [63, 64]), (0.06, "length", [20, 28, 40])):
            if self.maybe(share):
                tests[member] = pick(values)
        return tests

    def port_test(self):
        pick = self.random.choice
        if self.maybe(0.3):
            low, high = sorted([pick(self.ports), pick(self.ports)])
            return {"lower-port": low, "upper-port": high}
        return {"port": pick(self.ports), **({} if self.maybe(0.4) else {"operator": pick(["eq", "neq", "lte", "gte"])})}

    def layer_tests(self):
        """At most one transport header, with what is asked of it."""
        kind, pick = self.random.choice([None, None, "tcp", "tcp", "udp", "icmp"]), self.random.choice
        if kind is None:
            return {}
        if kind == "icmp":
            return {kind: {member: pick(values) for member, values in (("type", [8, 128]), ("code", [0])) if self.maybe(0.5)}}
        tests = {member: self.port_test() for member in ("source-port", "destination-port") if self.maybe(0.4)}
        if kind == "tcp" and self.maybe(0.6):
            tests["ietf-mud:direction-initiated"] = pick(["from-device", "from-device", "to-device"])
        if kind == "tcp" and self.maybe(0.15):
            tests["flags"] = pick(["syn", "ack", "ack syn", ""])
        return {kind: tests}

    def entry(self, name, side, version):
        matches = {"ietf-mud:mud": self.peer_tests() if self.maybe(0.5) else {}, f"ipv{version}": self.ip_tests(side, version)}
        matches = {**{member: tests for member, tests in matches.items() if tests}, **self.layer_tests()}
        return ace(name, matches, self.random.choice(["accept", "accept", "accept", "drop", "reject", MODULE + "accept"]))

    def file(self, url):
        lists = [(side, version, [self.entry(f"e{at}", side, version) for at in range(self.random.choice([0, 1, 2, 3]))])
                 for side in ("from", "to") for version in (4, 6)]
        return usage_file(lists, url)
