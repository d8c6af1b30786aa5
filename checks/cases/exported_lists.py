"""Compares what `mud export` writes of Things with what the manager says of packets.

Stores are made with usage files that have every kind of selector and test, the lists of each Thing are exported, and
the console is asked by `/why` for the rulings on 10,000 packets in all. The text of the lists is read here as
RFC 8519 has it, and shares nothing with the program: for each end of a packet that is a Thing, the first item that
matches has to name the ruling's entry, and none may match where the ruling names none. The text has to be compact
JSON with its members in order. Then one store is written out: its first list is that of the documents, a second
before an end and at it. The moments are those of the year 2100, so that the last change counts and not the
machine's clock. SEED names another seed than 1.
"""
import ipaddress
import json
import os
import struct

from checks import second_reading
from checks.case import ProgramCase
from checks.program import answers, read, request, run

SEED = int(os.environ.get("SEED", 1))
PACKETS, STORES = 10_000, 3
START = 4102444800
BULB = "https://lighting.example.com/lightbulb2000"
SHA256 = "fde1333bdb4a776cc061761cd6a3b72458b458493e4ada81dc79bc7956eb2096"
FLAGS = {"cwr": 128, "ece": 64, "urg": 32, "ack": 16, "psh": 8, "rst": 4, "syn": 2, "fin": 1}
TYPES = {"4": "ipv4-acl-type", "6": "ipv6-acl-type"}
# the first list of the bulb, by the specification of the command
FIRST = ('{"aces":{"ace":[%s{"actions":{"forwarding":"accept"},"matches":{"ipv4":{"destination-ipv4-network":"192.0.2.10/32"}},'
         '"name":"e2-1"},{"actions":{"forwarding":"accept"},"matches":{"ipv4":{"destination-ipv4-network":"192.0.2.53/32"},'
         '"udp":{"destination-port":{"operator":"eq","port":53}}},"name":"dns-1"}]},"name":"from-v4","type":"ipv4-acl-type"}')
ENDING = ('{"actions":{"forwarding":"accept"},"matches":{"ipv4":{"destination-ipv4-network":"198.51.100.7/32","protocol":6},'
          '"tcp":{"destination-port":{"operator":"eq","port":443},"ietf-mud:direction-initiated":"from-device"}},"name":"e1-1"},')


class Maker(second_reading.Maker):
    """Its files test the other members of the IP header and the flags of TCP, too."""

    def entry(self, number, side, family):
        meant, written = super().entry(number, side, family)
        pick, matches = self.random.choice, written["matches"]
        if self.maybe(0.2):
            matches.setdefault(f"ipv{family}", {}).update(pick([{"ttl": 64}, {"ttl": 63}, {"dscp": 0}, {"ecn": 1}, {"length": 40}]))
        if "tcp" in matches and self.maybe(0.3):
            matches["tcp"]["flags"] = pick(["syn", "ack", "syn ack", "fin  psh", ""])
        return meant, written


def header_of(frame):
    """The numbers of the IP header that lists speak of."""
    at = 12
    while frame[at:at + 2] == b"\x81\x00":
        at += 4
    packet = frame[at + 2:]
    if packet[0] >> 4 == 4:
        return {"dscp": packet[1] >> 2, "ecn": packet[1] & 3, "length": struct.unpack_from(">H", packet, 2)[0], "ttl": packet[8]}
    octet = struct.unpack_from(">H", packet)[0] >> 4 & 255
    return {"dscp": octet >> 2, "ecn": octet & 3, "length": struct.unpack_from(">H", packet, 4)[0], "ttl": packet[7]}


def port_passes(test, port):
    """A port against a port or a range of the text."""
    if "operator" in test:
        return {"eq": port == test["port"], "neq": port != test["port"], "lte": port <= test["port"],
                "gte": port >= test["port"]}[test["operator"]]
    return test["lower-port"] <= port <= test["upper-port"]


def layer_passes(name, tests, fields, side):
    """The tests of a transport header; of a connection a packet knows only whether it opens it."""
    layer = fields["transport"]
    if not layer or layer[0] != name:
        return False
    if name == "icmp":
        return tests.get("type", layer[1]) == layer[1] and tests.get("code", layer[2]) == layer[2]
    for member, port in (("source-port", layer[1]), ("destination-port", layer[2])):
        if member in tests and not port_passes(tests[member], port):
            return False
    if "flags" in tests and sum(FLAGS[word] for word in tests["flags"].split()) != layer[3]:
        return False
    if "ietf-mud:direction-initiated" in tests:
        sender = "from-device" if side == "from" else "to-device"
        return second_reading.opens(layer) and tests["ietf-mud:direction-initiated"] == sender
    return True


def item_passes(item, version, fields, header, side):
    """An item of a list against a packet."""
    matches = dict(item["matches"])
    tests = matches.pop("ipv" + version, {})
    for member, value in tests.items():
        if member.endswith("-network"):
            end = fields["src"] if member.startswith("source") else fields["dst"]
            if end not in ipaddress.ip_network(value):
                return False
        elif (fields["protocol"] if member == "protocol" else header[member]) != value:
            return False
    return all(layer_passes(name, tests, fields, side) for name, tests in matches.items())


def ruling_by(lists, fields, header, side):
    """The rule of the first item that matches, as a ruling names it; None where none does."""
    version = str(fields["src"].version)
    for item in lists[f"{side}-v{version}"]:
        if item_passes(item, version, fields, header, side):
            rule = item["name"].split("-")[0]
            return f"default-{rule}" if rule in ("dns", "ntp") else item["actions"]["forwarding"] + ":" + rule[1:]
    return None


class ExportedLists(ProgramCase):
    def replay(self, store, requests):
        """The bodies of the answers to requests, each a moment, method, target and body."""
        octets = b"".join(request(method, target, body if isinstance(body, bytes) else json.dumps(body), moment)
                          for moment, method, target, body in requests)
        ended = run("replay", store, input=octets)
        self.note("replay, status", 0, ended.status)
        return [json.loads(answer.body) for answer in answers(ended.out)]

    def lists(self, store, mac):
        """The lists of a Thing by their names, whose text is as it should be."""
        ended = run("export", store, mac)
        self.note("export, status", 0, ended.status)
        written = json.loads(ended.out)
        text = json.dumps(written, separators=(",", ":"), sort_keys=True, ensure_ascii=False) + "\n"
        self.note("export, compact and in order", text.encode(), ended.out)
        lists = written["ietf-access-control-list:acls"]["acl"]
        self.note("export, lists", ["from-v4", "from-v6", "to-v4", "to-v6"], [acl["name"] for acl in lists])
        for acl in lists:
            self.note("export, type", TYPES[acl["name"][-1]], acl["type"])
            names = [item["name"] for item in acl["aces"]["ace"]]
            self.note("export, names once each", len(names), len(set(names)))
            places = {}
            for name in names:
                places.setdefault(name.split("-")[0], []).append(int(name.split("-")[1]))
            self.note("export, places", True, all(row == list(range(1, len(row) + 1)) for row in places.values()))
        return {acl["name"]: acl["aces"]["ace"] for acl in lists}

    def one_store(self, seed):
        """A store by chance, its lists, and packets."""
        maker, store = Maker(seed), self.path("store.db")
        pairs, clock = maker.session(600, START)
        run("replay", store, input=b"".join(octets for octets, _ in pairs))
        things = self.replay(store, [(clock, "GET", "/things", b"")])[0]["things"]
        exported = {thing["mac"]: self.lists(store, thing["mac"]) for thing in things}
        for thing in things:
            if thing["held"]:
                self.note("the lists of a held Thing", [[]] * 4, list(exported[thing["mac"]].values()))
        # the moment of the lists is that of the last change, and so is that of a new session
        frames = [maker.frame() for _ in range(PACKETS // STORES)]
        for frame, answer in zip(frames, self.replay(store, [(0, "POST", "/why", frame) for frame in frames])):
            for side in ("from", "to"):
                end = answer[side]
                if end and end["ruling"] != "drop:held":
                    got = ruling_by(exported[end["mac"]], second_reading.fields_of(frame), header_of(frame), side)
                    wanted = None if end["ruling"] in ("drop:no-match", "drop:no-file") else end["ruling"]
                    self.note(f"{side} of {frame.hex()}", wanted, got)

    def test_first_store(self):
        self.one_store(SEED)

    def test_second_store(self):
        self.one_store(SEED + 1)

    def test_third_store(self):
        self.one_store(SEED + 2)

    def test_written_out(self):
        """The bulb of the documents: a second before its name ends, and at that."""
        store, mac = self.path("store.db"), "02:00:00:00:00:01"
        self.replay(store, [
            (START, "POST", "/hear/dhcp", read("examples/dhcp/made-url-and-more.bin")),
            (START, "POST", "/leases", {"address": "192.0.2.10", "mac": mac, "seconds": 86400}),
            (START, "POST", "/files", read("examples/usage-files/made-lightbulb.json")),
            (START, "POST", "/verdicts", {"url": BULB, "sha256": SHA256, "verdict": "waived"}),
            (START, "POST", "/classes", {"address": "192.0.2.53", "class": "urn:ietf:params:mud:dns"}),
            (START, "POST", "/names", {"address": "198.51.100.7", "name": "test.example.com", "ttl": 60})])
        for later, ending in ((59, ENDING), (60, "")):
            # a change whose moment is the stamp
            self.replay(store, [(START + later, "PUT", "/locals", {"prefixes": [f"10.0.0.{later}/32"]})])
            wanted = '{"ietf-access-control-list:acls":{"acl":[' + FIRST % ending + ","
            octets = run("export", store, mac).out.decode()
            self.note(f"the first list at {later}", wanted, octets[:len(wanted)])
            self.note(f"e1-1 at {later}", 2 if ending else 0, octets.count('"e1-1"'))
        self.ends("an unknown hardware address", 3, b"fault NoThing\n", run("export", store, "02:00:00:00:00:09"))
        self.ends("no hardware address", 2, b"", run("export", store, "02:00:00:00:00"))
        self.replay(store, [(START + 60, "POST", "/holds", {"mac": mac})])
        self.note("held", [[]] * 4, list(self.lists(store, mac).values()))
