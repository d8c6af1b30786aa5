"""A second reading of what the console should answer, and sessions that are made by chance.

The manager's rules stand here once more, written in plain lists and loops from its documents and from RFC 8520, and
share nothing with the program. A Maker makes requests of a few Things, addresses, names, classes and usage files:
announcements, leases, files and verdicts, holds, listings and packets, at moments that mostly rise, each with its
answer. The same seed makes the same requests.
"""
import hashlib
import ipaddress
import json
import random
import struct
from datetime import datetime

from checks import session
from checks.program import request

FOREVER = 2**64 - 1
DNS, NTP = "urn:ietf:params:mud:dns", "urn:ietf:params:mud:ntp"


class Refused(Exception):
    """A refusal: the book, the number of the rule and its name."""


def end_text(end):
    return None if end == FOREVER else end


def host_of(url):
    return url.split("/")[2].split(":")[0]


def place(address):
    return (address.version, int(address))


# ---- Frames: what the headers say

class Unreadable(Exception):
    """Names the part of a frame that can't be read."""


def fields_of(frame):
    """The two hardware addresses, and the fields, None for link upkeep; Unreadable names the part."""
    if len(frame) < 14:
        raise Unreadable("ethernet")
    kind, at, tags = struct.unpack_from(">H", frame, 12)[0], 14, 0
    while kind in (0x8100, 0x88A8):
        if tags == 2 or len(frame) < at + 4:
            raise Unreadable("tag")
        kind, at, tags = struct.unpack_from(">H", frame, at + 2)[0], at + 4, tags + 1
    if kind == 0x0800:
        return ipv4_fields(frame[at:])
    if kind == 0x86DD:
        return ipv6_fields(frame[at:])
    return None


def ipv4_fields(packet):
    if len(packet) < 20 or packet[0] >> 4 != 4:
        raise Unreadable("ip")
    head, total = 4 * (packet[0] & 15), struct.unpack_from(">H", packet, 2)[0]
    if head < 20 or total < head or len(packet) < head:
        raise Unreadable("ip")
    source, destination = (ipaddress.IPv4Address(packet[i:i + 4]) for i in (12, 16))
    fragment = struct.unpack_from(">H", packet, 6)[0] & 0x1FFF
    fields = {"src": source, "dst": destination, "protocol": packet[9], "transport": None}
    if fragment == 0:
        fields["transport"] = transport(packet[9], packet[head:total], 1)
    layer = fields["transport"]
    if layer and layer[0] == "udp":
        ports = (layer[1], layer[2])
        if ports == (67, 68):
            return None
        if ports == (68, 67) and (int(source) == 0 or int(destination) == 2**32 - 1):
            return None
    return fields


def ipv6_fields(packet):
    if len(packet) < 40 or packet[0] >> 4 != 6:
        raise Unreadable("ip")
    source, destination = (ipaddress.IPv6Address(packet[i:i + 16]) for i in (8, 24))
    octets, protocol, at, hops = packet[:40 + struct.unpack_from(">H", packet, 4)[0]], packet[6], 40, packet[7]
    fields = {"src": source, "dst": destination, "protocol": protocol, "transport": None}
    headers = 0
    while protocol in (0, 43, 60, 44):
        if headers == 8 or len(octets) < at + 8:
            raise Unreadable("extension")
        length = 8 if protocol == 44 else 8 * (octets[at + 1] + 1)
        if len(octets) < at + length:
            raise Unreadable("extension")
        later = protocol == 44 and struct.unpack_from(">H", octets, at + 2)[0] >> 3 != 0
        protocol, at, headers = octets[at], at + length, headers + 1
        fields["protocol"] = protocol
        if later:
            return fields
    fields["transport"] = layer = transport(protocol, octets[at:], 58)
    if layer and layer[0] == "icmp" and 133 <= layer[1] <= 137 and hops == 255:
        return None
    return fields


def transport(protocol, octets, icmp):
    if protocol == 6:
        if len(octets) < 20 or octets[12] >> 4 < 5:
            raise Unreadable("transport")
        return ("tcp",) + struct.unpack_from(">HH", octets) + (octets[13],)
    if protocol == 17:
        if len(octets) < 8:
            raise Unreadable("transport")
        return ("udp",) + struct.unpack_from(">HH", octets)
    if protocol == icmp:
        if len(octets) < 4:
            raise Unreadable("transport")
        return ("icmp", octets[0], octets[1])
    return None


# ---- The manager

class Manager:
    def __init__(self):
        self.things, self.files, self.classes, self.names, self.locals = {}, {}, {}, {}, []
        self.moment, self.stamp, self.flows = 0, 0, []

    def kept(self, target):
        """The list that a request to the target may change, as one text."""
        if target in ("/files", "/verdicts", "/revokes"):
            return repr([(url, held_text(row["approved"]), held_text(row["candidate"])) for url, row in self.files.items()])
        if target == "/classes":
            return repr([(kind, sorted(row, key=place)) for kind, row in self.classes.items()])
        return repr({"/names": self.names, "/locals": self.locals, "/packets": None, "/why": None}.get(target, self.things))

    def begin(self):
        """A session begins."""
        self.moment, self.flows = self.stamp, []

    # -- Things and leases

    def announce(self, mac, url):
        thing = self.things.get(mac)
        if thing is None:
            if len(self.things) == 512:
                raise Refused("things", 1, "ThingsFull")
            self.things[mac] = {"url": url, "pending": None, "leases": {}, "held": False}
            return "new"
        if url in (thing["url"], thing["pending"]):
            return "same"
        thing["pending"] = url
        return "pending"

    def thing(self, mac):
        if mac not in self.things:
            raise Refused("things", 2, "NoThing")
        return self.things[mac]

    def move(self, mac, url):
        thing = self.thing(mac)
        if url == thing["url"]:
            return "same"
        if url != thing["pending"]:
            raise Refused("things", 3, "NoPending")
        thing["url"], thing["pending"] = url, None
        return "moved"

    def remove(self, mac):
        self.thing(mac)
        del self.things[mac]
        return "removed"

    def hold(self, mac, held):
        thing = self.thing(mac)
        if thing["held"] == held:
            return "same"
        thing["held"] = held
        return "held" if held else "released"

    def take_from_others(self, mac, address):
        for other, thing in self.things.items():
            if other != mac:
                thing["leases"].pop(address, None)

    def lease(self, mac, address, seconds, now, heard):
        until = FOREVER if seconds == 2**32 - 1 else now + seconds
        if mac not in self.things and heard:
            self.take_from_others(mac, address)
            return "stranger", None
        leases = self.thing(mac)["leases"]
        if address in leases:
            word = "same" if leases[address] == until else "renewed"
            leases[address] = until
            return word, end_text(until)
        live = {a: end for a, end in leases.items() if now < end}
        if len(live) == 4:
            raise Refused("things", 4, "LeasesFull")
        self.take_from_others(mac, address)
        live[address] = until
        self.things[mac]["leases"] = live
        return "new", end_text(until)

    def end_lease(self, address):
        if any(thing["leases"].pop(address, None) for thing in self.things.values()):
            return "ended"
        raise Refused("things", 5, "NoLease")

    # -- Usage files

    def take_file(self, made, now):
        row = self.files.get(made["url"], {"approved": None, "candidate": None})
        for held in (row["candidate"], row["approved"]):
            if held and held["file"]["octets"] == made["octets"]:
                held["fetched"] = max(held["fetched"], now)
                return "same"
        if any(held and made["update"] < held["file"]["update"] for held in row.values()):
            raise Refused("files", 2, "Older")
        if made["url"] not in self.files and len(self.files) == 128:
            raise Refused("files", 3, "CacheFull")
        row["candidate"] = {"file": made, "fetched": now}
        self.files[made["url"]] = row
        return "new"

    def verdict_on(self, url, digest, verdict):
        row = self.files.get(url, {"approved": None, "candidate": None})
        approved, candidate = row["approved"], row["candidate"]
        if approved and approved["file"]["sha256"] == digest and approved["verdict"] == verdict:
            return "same"
        if candidate is None:
            raise Refused("files", 4, "NoCandidate")
        if candidate["file"]["sha256"] != digest:
            raise Refused("files", 5, "Digest")
        if verdict == "failed":
            row["candidate"] = None
            if approved is None:
                del self.files[url]
            return "rejected"
        if verdict == "verified" and not candidate["file"]["signed"]:
            raise Refused("files", 6, "NoSignature")
        row["approved"], row["candidate"] = dict(candidate, verdict=verdict), None
        return "approved"

    def revoke(self, url):
        row = self.files.get(url)
        if row is None or row["approved"] is None:
            raise Refused("files", 7, "NotApproved")
        row["approved"] = None
        if row["candidate"] is None:
            del self.files[url]
        return "revoked"

    def due(self, now):
        urls = []
        for url in sorted(self.files):
            row = self.files[url]
            approved, candidate = row["approved"], row["candidate"]
            last = candidate if candidate and (not approved or candidate["fetched"] >= approved["fetched"]) else approved
            if last["fetched"] + 3600 * last["file"]["hours"] <= now:
                urls.append(url)
        return urls

    # -- Classes, names, local networks

    def bind(self, kind, address):
        row = self.classes.get(kind)
        if row and address in row:
            return "same"
        if row is None and len(self.classes) == 256:
            raise Refused("binds", 1, "ClassesFull")
        if row and len(row) == 64:
            raise Refused("binds", 2, "ClassFull")
        self.classes.setdefault(kind, set()).add(address)
        return "bound"

    def unbind(self, kind, address):
        if address not in self.classes.get(kind, ()):
            raise Refused("binds", 3, "NotBound")
        self.classes[kind].remove(address)
        if not self.classes[kind]:
            del self.classes[kind]
        return "unbound"

    def set_locals(self, prefixes):
        wanted = sorted(set(prefixes), key=lambda p: (place(p.network_address), p.prefixlen))
        if len(wanted) > 64:
            raise Refused("binds", 4, "LocalsFull")
        if wanted == self.locals:
            return "same"
        self.locals = wanted
        return "set"

    def observe(self, name, address, ttl, now):
        rows, until = self.names.get(name, {}), now + ttl
        live = {a: end for a, end in rows.items() if now < end}
        if address in live:
            if live[address] < until:
                rows[address] = until
                return "renewed", end_text(until)
            return "same", end_text(live[address])
        if len(live) == 64:
            raise Refused("binds", 6, "NameFull")
        live[address] = until
        self.names[name] = live
        return "new", end_text(until)

    # -- Packets

    def has_lease(self, address, now, which):
        return any(which(thing["url"]) and now < thing["leases"].get(address, 0) for thing in self.things.values())

    def meets(self, url, selector, address, now):
        kind, value = selector
        if kind == "controller":
            return address in self.classes.get(("class", value), ())
        if kind == "my-controller":
            return address in self.classes.get(("my-controller-of", url), ())
        if kind == "manufacturer":
            return self.has_lease(address, now, lambda other: host_of(other) == value)
        if kind == "same-manufacturer":
            return self.has_lease(address, now, lambda other: host_of(other) == host_of(url))
        if kind == "model":
            return self.has_lease(address, now, lambda other: other == value)
        if kind == "name":
            return now < self.names.get(value, {}).get(address, 0)
        if kind == "local-networks":
            return any(address in prefix for prefix in self.locals if prefix.version == address.version)
        return address.version == value.version and address in value

    def beginner(self, fields, now):
        """The end that began the connection, by the list of all forwarded packets."""
        layer = fields["transport"]
        ends = [(fields["src"], layer[1]), (fields["dst"], layer[2])]
        if opens(layer):
            return ends[0]
        same = [(f, m) for f, m in self.flows if sorted_ends(f) == sorted_ends(fields)]
        for i in reversed(range(len(same))):
            if opens(same[i][0]["transport"]):
                moments = [m for _, m in same[i:]] + [now]
                if any(f["transport"][3] & 4 for f, _ in same[i + 1:]):
                    return None
                if any(b - a > 7440 for a, b in zip(moments, moments[1:])):
                    return None
                return (same[i][0]["src"], same[i][0]["transport"][1])
        return None

    def begun(self, fields, side, now):
        layer = fields["transport"]
        if layer is None or layer[0] != "tcp":
            return None
        first = self.beginner(fields, now)
        if first is None:
            return None
        own = (fields["src"], layer[1]) if side == "from" else (fields["dst"], layer[2])
        return "from-device" if first == own else "to-device"

    def matches(self, url, side, entry, fields, now):
        peer, own = (fields["dst"], fields["src"]) if side == "from" else (fields["src"], fields["dst"])
        if entry["family"] not in (peer.version, "both"):
            return False
        if not all(self.meets(url, selector, peer, now) for selector in entry["selectors"]):
            return False
        if entry["own"] and own not in entry["own"]:
            return False
        if entry["protocol"] is not None and entry["protocol"] != fields["protocol"]:
            return False
        kind, layer = entry["layer"], fields["transport"]
        if kind is None:
            return True
        if layer is None or layer[0] != kind[0]:
            return False
        if kind[0] == "icmp":
            return all(want is None or want == got for want, got in zip(kind[1:], layer[1:]))
        if not (port_passes(kind[1], layer[1]) and port_passes(kind[2], layer[2])):
            return False
        return kind[0] == "udp" or kind[3] is None or kind[3] == self.begun(fields, side, now)

    def ruling(self, mac, side, fields, now):
        """The text of a ruling, and the entry that gave it with its number."""
        thing = self.things[mac]
        if thing["held"]:
            return "drop:held", None, None
        row = self.files.get(thing["url"])
        approved = row["approved"] if row else None
        if approved:
            for number, entry in enumerate(approved["file"][side], 1):
                if self.matches(thing["url"], side, entry, fields, now):
                    return f"{entry['action']}:{number}", number, entry
        for word, uri, port in (("default-dns", DNS, 53), ("default-ntp", NTP, 123)):
            ports = (None, ("eq", port)) if side == "from" else (("eq", port), None)
            entry = {"family": "both", "selectors": [("controller", uri)], "own": None, "protocol": None,
                     "layer": ("udp",) + ports}
            if self.matches(thing["url"], side, entry, fields, now):
                return word, None, None
        return ("drop:no-match" if approved else "drop:no-file"), None, None

    def judge(self, frame, now):
        """The text of the verdict, the two rulings, and the fields of a packet that is noted."""
        if len(frame) < 14:
            return "drop unreadable ethernet", [None, None], None
        destination, source = (":".join(f"{octet:02x}" for octet in frame[i:i + 6]) for i in (0, 6))
        ends = [source if source in self.things else None,
                destination if destination in self.things and not frame[0] & 1 else None]
        if ends == [None, None]:
            return "pass unmanaged", [None, None], None
        try:
            fields = fields_of(frame)
        except Unreadable as part:
            return f"drop unreadable {part}", [None, None], None
        if fields is None:
            return "pass link", [None, None], None
        rulings = [mac and (mac,) + self.ruling(mac, side, fields, now) for mac, side in zip(ends, ("from", "to"))]
        passes = not any(r and r[1].startswith("drop") for r in rulings)
        text = ("pass" if passes else "drop") + "".join(
            f" {side}={r[1]}" for side, r in zip(("from", "to"), rulings) if r)
        noted = passes and fields["transport"] and fields["transport"][0] == "tcp"
        return text, rulings, fields if noted else None

    def why(self, frame, now):
        text, rulings, _ = self.judge(frame, now)
        sides = [r and {"ace": r[3] and r[3]["name"], "acl": r[3] and r[3]["acl"], "entry": r[2], "mac": r[0],
                        "ruling": r[1], "url": self.things[r[0]]["url"]} for r in rulings]
        return {"from": sides[0], "to": sides[1], "verdict": text}

    # -- Listings

    def listing(self, name, now):
        if name == "things":
            return [{"held": t["held"], "leases": [{"address": str(a), "until": end_text(t["leases"][a])}
                                                    for a in sorted(t["leases"], key=place)],
                     "mac": mac, "pending": t["pending"], "url": t["url"]} for mac, t in sorted(self.things.items())]
        if name == "files":
            return [{"approved": held_text(row["approved"]), "candidate": held_text(row["candidate"]), "url": url}
                    for url, row in sorted(self.files.items())]
        if name == "classes":
            return [{"addresses": [str(a) for a in sorted(row, key=place)], kind: text}
                    for (kind, text), row in sorted(self.classes.items())]
        if name == "locals":
            return [str(prefix) for prefix in self.locals]
        if name == "names":
            return [{"addresses": [{"address": str(a), "until": end_text(row[a])} for a in sorted(row, key=place)],
                     "name": text} for text, row in sorted(self.names.items())]
        return self.due(now)


def opens(layer):
    return layer[3] & 2 != 0 and layer[3] & 0x14 == 0


def sorted_ends(fields):
    layer = fields["transport"]
    return sorted([place(fields["src"]) + (layer[1],), place(fields["dst"]) + (layer[2],)])


def port_passes(test, port):
    if test is None:
        return True
    if test[0] == "within":
        return test[1] <= port <= test[2]
    return {"eq": port == test[1], "neq": port != test[1], "lte": port <= test[1], "gte": port >= test[1]}[test[0]]


def held_text(held):
    if held is None:
        return None
    text = {"fetched": held["fetched"], "hours": held["file"]["hours"], "sha256": held["file"]["sha256"],
            "update": held["file"]["update"]}
    if "verdict" in held:
        text["verdict"] = held["verdict"]
    return text


# ---- The session that is made

MACS = [f"02:00:00:00:00:{i:02x}" for i in range(1, 8)]
FAR = ["02:00:00:00:00:fe", "01:00:5e:00:00:01"]
URLS = [f"https://{host}.example.com/{model}" for host in ("lighting", "heating") for model in ("a", "b", "c")]
ADDRESSES = [ipaddress.ip_address(a) for a in
             ["192.0.2.%d" % i for i in range(10, 18)] + ["198.51.100.7", "198.51.100.8", "192.0.2.53"]
             + ["2001:db8::%x" % i for i in range(1, 6)]]
NAMES = ["test.example.com", "time.example.com", "x.example.net"]
CLASSES = [DNS, NTP, "urn:example:hub"]
PREFIXES = [ipaddress.ip_network(p) for p in
            ["192.0.2.0/24", "192.0.2.8/29", "198.51.100.0/24", "0.0.0.0/0", "2001:db8::/32", "2001:db8::4/126"]]
PORTS = [53, 80, 123, 443, 50000, 50001]
KINDS = ["url", "url", "lease heard", "lease", "lease", "lease ended", "move", "remove", "hold", "release", "file", "file", "file", "verdict", "verdict",
         "verdict", "revoke", "bind", "bind", "unbind", "locals", "name", "name", "name", "list", *["packets"] * 7, "why", "why"]
# how often what is seldom asked of a Thing is asked of the last one
RARE = {"remove": 0.8, "hold": 0.6}
SELECTORS = ["manufacturer", "same-manufacturer", "model", "local-networks", "controller", "my-controller"]


class Maker:
    """Makes requests, with what the manager should answer to each."""

    def __init__(self, seed):
        self.random = random.Random(seed)
        self.manager = Manager()
        self.made = [self.usage_file(url) for url in URLS for _ in range(4)]

    def maybe(self, share):
        return self.random.random() < share

    def port_test(self):
        pick = self.random.choice
        kind = pick([None, None, None, "eq", "neq", "lte", "gte", "within"])
        if kind is None:
            return None, None
        if kind == "within":
            low, high = sorted([pick(PORTS), pick(PORTS)])
            return (kind, low, high), {"lower-port": low, "upper-port": high}
        port = pick(PORTS)
        return (kind, port), {"operator": kind, "port": port} if kind != "eq" or self.maybe(0.5) else {"port": port}

    def entry(self, number, side, family):
        """An entry as it is meant, and as it is written in a file."""
        pick, selectors, mud, layer = self.random.choice, [], {}, None
        if self.maybe(0.6):
            for kind in self.random.sample(SELECTORS, pick([1, 1, 1, 2])):
                mud[kind] = {"manufacturer": host_of(pick(URLS)), "model": pick(URLS), "controller": pick(CLASSES)}.get(kind, [None])
            selectors = [(kind, mud[kind]) for kind in SELECTORS if kind in mud]
        peer, own = ("destination", "source") if side == "from" else ("source", "destination")
        ip, protocol, own_prefix = {}, None, None
        if self.maybe(0.15):
            protocol = ip["protocol"] = pick([6, 17, 1, 58])
        if self.maybe(0.25):
            prefix = pick([p for p in PREFIXES if p.version == family])
            ip[f"{peer}-ipv{family}-network"] = str(prefix)
            selectors.append(("network", prefix))
        if self.maybe(0.25):
            own_prefix = pick([p for p in PREFIXES if p.version == family])
            ip[f"{own}-ipv{family}-network"] = str(own_prefix)
        if self.maybe(0.35):
            name = pick(NAMES)
            ip[f"ietf-acldns:{'dst' if side == 'from' else 'src'}-dnsname"] = name
            selectors.append(("name", name))
        matches = {name: tests for name, tests in (("ietf-mud:mud", mud), (f"ipv{family}", ip)) if tests}
        kind = pick([None, None, "tcp", "tcp", "udp", "icmp"])
        if kind in ("tcp", "udp"):
            (source, source_text), (destination, destination_text) = self.port_test(), self.port_test()
            layer = (kind, source, destination)
            matches[kind] = {key: text for key, text in (("source-port", source_text), ("destination-port", destination_text)) if text}
            if kind == "tcp":
                begun = pick([None, "from-device", "from-device", "to-device"])
                layer += (begun,)
                if begun:
                    matches[kind]["ietf-mud:direction-initiated"] = begun
        if kind == "icmp":
            layer = ("icmp", pick([None, 8, 128]), pick([None, 0]))
            matches[kind] = {key: value for key, value in (("type", layer[1]), ("code", layer[2])) if value is not None}
        action = pick(["accept", "accept", "accept", "drop", "reject"])
        meant = {"name": f"e{number}", "acl": f"{side}{family}", "family": family, "selectors": selectors, "own": own_prefix,
                 "protocol": protocol, "layer": layer, "action": "accept" if action == "accept" else "drop"}
        return meant, {"name": meant["name"], "matches": matches, "actions": {"forwarding": action}}

    def usage_file(self, url):
        made = {"url": url, "from": [], "to": [], "signed": self.maybe(0.4), "hours": self.random.choice([1, 2, 48])}
        lists, policies = [], {}
        for side in ("from", "to"):
            for family in (4, 6):
                rows = [self.entry(i, side, family) for i in range(self.random.choice([0, 2, 3, 4]))]
                made[side] += [meant for meant, _ in rows]
                lists.append({"name": f"{side}{family}", "type": f"ipv{family}-acl-type",
                              "aces": {"ace": [written for _, written in rows]}})
            policies[f"{side}-device-policy"] = {"access-lists": {"access-list": [
                {"name": f"{side}{family}"} for family in (4, 6)]}}
        update = f"2019-01-28T10:20:{self.random.randrange(60):02d}Z"
        mud = {"mud-version": 1, "mud-url": url, "last-update": update, "cache-validity": made["hours"],
               "is-supported": True, "systeminfo": f"made {self.random.randrange(10**6)}", **policies}
        if made["signed"]:
            mud["mud-signature"] = url + ".p7s"
        made["octets"] = json.dumps({"ietf-mud:mud": mud, "ietf-access-control-list:acls": {"acl": lists}}).encode()
        made["sha256"] = hashlib.sha256(made["octets"]).hexdigest()
        made["update"] = int(datetime.fromisoformat(update.replace("Z", "+00:00")).timestamp())
        return made

    # -- Octets

    def frame(self):
        pick = self.random.choice
        known = [(mac, a) for mac, t in self.manager.things.items() for a in t["leases"]]
        first = pick(known) if known and self.maybe(0.85) else (pick(MACS), pick(ADDRESSES))
        others, version = [(m, a) for m, a in known if a.version == first[1].version], first[1].version
        second = pick(others) if others and self.maybe(0.3) else (pick(FAR), pick([a for a in ADDRESSES if a.version == version]))
        if self.maybe(0.4):
            first, second = second, first
        kind = pick(["tcp", "tcp", "tcp", "udp", "icmp", "other"])
        if kind == "tcp":
            protocol, layer = 6, struct.pack(">HHIIBBHHH", pick(PORTS), pick(PORTS), 1, 0, 0x50, pick([2, 2, 16, 18, 4, 17]), 65535, 0, 0)
        elif kind == "udp":
            protocol, layer = 17, struct.pack(">HHHH", pick(PORTS + [67, 68]), pick(PORTS + [67, 68]), 8, 0)
        elif kind == "icmp":
            protocol, layer = (1 if version == 4 else 58), bytes([pick([8, 128, 133]), pick([0, 1]), 0, 0])
        else:
            protocol, layer = pick([2, 50]), bytes(8)
        if version == 4:
            kind, head = b"\x08\x00", struct.pack(">BBHHHBBH", 0x45, 0, 20 + len(layer), 1, pick([0] * 9 + [1]), 64, protocol, 0)
        else:
            if self.maybe(0.2):
                layer, protocol = bytes([protocol, 0]) + bytes(6) + layer, pick([0, 43, 60, 44])
            kind, head = b"\x86\xdd", struct.pack(">IHBB", 6 << 28, len(layer), protocol, pick([64, 255]))
        tag = b"\x81\x00\x00\x64" if self.maybe(0.1) else b""
        hard = bytes.fromhex((second[0] + first[0]).replace(":", ""))
        frame = hard + tag + kind + head + first[1].packed + second[1].packed + layer
        return frame[:self.random.randrange(len(frame))] if self.maybe(0.05) else frame

    # -- Requests

    def request(self, now):
        """Method, target, body, and what is answered: the status, the body, and whether the moment rises."""
        pick, desk = self.random.choice, self.manager
        kind = pick(KINDS)
        mac, url, address, seconds = pick(MACS), pick(URLS), pick(ADDRESSES), pick([1, 5, 60, 600, 86400, 2**32 - 1])
        if kind in RARE and self.maybe(RARE[kind]):
            mac = MACS[-1]
        plain = {"lease ended": ("DELETE", "/leases", {"address": str(address)}, lambda: desk.end_lease(address)),
                 "move": ("POST", "/things", {"mac": mac, "url": url}, lambda: desk.move(mac, url)),
                 "remove": ("DELETE", "/things", {"mac": mac}, lambda: desk.remove(mac)),
                 "hold": ("POST", "/holds", {"mac": mac}, lambda: desk.hold(mac, True)),
                 "release": ("DELETE", "/holds", {"mac": mac}, lambda: desk.hold(mac, False))}
        if kind in plain:
            method, target, body, work = plain[kind]
            return method, target, body, lambda: {"result": work()}
        if kind in ("url", "lease heard", "lease"):
            return self.thing_request(kind, mac, url, address, seconds, now)
        if kind in ("file", "verdict", "revoke"):
            return self.file_request(kind, url, now)
        if kind in ("bind", "unbind", "locals", "name"):
            return self.binding_request(kind, url, address, now)
        if kind == "list":
            name = pick(["things", "files", "classes", "locals", "names", "due"])
            return "GET", "/" + name, b"", lambda: {name: desk.listing(name, now)}
        frame = self.frame()
        return "POST", "/" + kind, frame, (lambda: desk.why(frame, now)) if kind == "why" else (lambda: self.packet(frame, now))

    def thing_request(self, kind, mac, url, address, seconds, now):
        pick, desk = self.random.choice, self.manager
        if kind == "url":
            text = url.encode() + pick([b"", b" x", b"\0"])
            body = session.dhcp_message("01", mac, b"\x35\x01\x03\xa1" + bytes([len(text)]) + text)
            return "POST", "/hear/dhcp", body, lambda: {"heard": "url", "mac": mac, "result": desk.announce(mac, url), "url": url}
        if kind == "lease":
            return "POST", "/leases", {"mac": mac, "address": str(address), "seconds": seconds}, lambda: dict(
                zip(("result", "until"), desk.lease(mac, address, seconds, now, False)))
        while address.version == 6:
            address = pick(ADDRESSES)
        return "POST", "/hear/dhcp", session.acknowledgement(mac, address, seconds), lambda: dict(
            zip(("result", "until"), desk.lease(mac, address, seconds, now, True)), address=str(address), heard="lease", mac=mac)

    def file_request(self, kind, url, now):
        pick, desk = self.random.choice, self.manager
        if kind == "file":
            made = pick(self.made)
            return "POST", "/files", made["octets"], lambda: {"result": desk.take_file(made, now), "url": made["url"]}
        if kind == "revoke":
            return self.request(now) if self.maybe(0.7) else ("POST", "/revokes", {"url": url}, lambda: {"result": desk.revoke(url)})
        row = desk.files.get(url)
        made = row["candidate"]["file"] if row and row["candidate"] and self.maybe(0.9) else pick(self.made)
        verdict = pick(["verified", "waived", "waived", "waived", "failed"])
        return "POST", "/verdicts", {"url": made["url"], "sha256": made["sha256"], "verdict": verdict}, lambda: {
            "result": desk.verdict_on(made["url"], made["sha256"], verdict)}

    def binding_request(self, kind, url, address, now):
        pick, desk = self.random.choice, self.manager
        if kind == "locals":
            prefixes = self.random.sample(PREFIXES, self.random.randrange(4))
            return "PUT", "/locals", {"prefixes": [str(p) for p in prefixes]}, lambda: {"result": desk.set_locals(prefixes)}
        if kind == "name":
            name, ttl = pick(NAMES), pick([1, 30, 600, 86400])
            return "POST", "/names", {"name": name, "address": str(address), "ttl": ttl}, lambda: dict(
                zip(("result", "until"), desk.observe(name, address, ttl, now)))
        which = ("class", pick(CLASSES)) if self.maybe(0.6) else ("my-controller-of", url)
        work = desk.bind if kind == "bind" else desk.unbind
        return ("POST" if kind == "bind" else "DELETE"), "/classes", {which[0]: which[1], "address": str(address)}, lambda: {"result": work(which, address)}

    def packet(self, frame, now):
        text, _, noted = self.manager.judge(frame, now)
        if noted:
            self.manager.flows.append((noted, now))
        return {"verdict": text}

    def answer(self, target, work, now):
        """The octets of the answer to a request that is carried out now."""
        desk, before = self.manager, self.manager.kept(target)
        try:
            status, said = 200, work()
            if target != "/why":
                desk.moment = now
            if desk.kept(target) != before:
                desk.stamp = now
        except Refused as refusal:
            book, number, rule = refusal.args
            status, said = 409, {"book": book, "refused": number, "rule": rule}
        return session.answer(status, json.dumps(said, separators=(",", ":"), sort_keys=True))

    def session(self, count, clock):
        """The requests of a session, each with its answer, and the moment at its end."""
        self.manager.begin()
        pairs = []
        for _ in range(count):
            clock += self.random.choice([0, 0, 1, 1, 2, 5, 10, 60]) if not self.maybe(0.003) else 7000
            given = clock - self.random.randrange(20) if self.maybe(0.05) else clock
            now = max(given, self.manager.moment)
            method, target, body, work = self.request(now)
            octets = request(method, target, body if isinstance(body, bytes) else json.dumps(body), given)
            pairs.append((octets, self.answer(target, work, now)))
        return pairs, clock
