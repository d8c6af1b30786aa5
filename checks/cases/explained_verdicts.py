"""Compares what contrib/explain says of made files in --json with what the manager decides on frames."""
import ipaddress
import random
import struct

from checks import explaining, program
from checks.case import ProgramCase, cases_of

FILES, STORES, FRAMES = 2000, 16, 12
HOSTS = [f"{word}.example.com" for word in ("lighting", "heating", "metering")]
NAMES = ["test.example.com", "time.example.com", "x.example.net"]
CLASSES = ["urn:ietf:params:mud:dns", "urn:ietf:params:mud:ntp", "urn:example:hub"]
NETWORKS = ["192.0.2.0/24", "192.0.2.8/29", "198.51.100.0/24", "0.0.0.0/0", "2001:db8::/32", "2001:db8::4/126"]
PORTS = [53, 80, 123, 443, 50000, 50001]
FAR = [ipaddress.ip_address(text) for text in ("198.51.100.7", "198.51.100.8", "192.0.2.253", "192.0.2.9", "2001:db8::5", "2001:db8::ff", "fd00::1")]
FAR_MAC = "02:00:00:ff:00:01"
FLAGS = {"cwr": 128, "ece": 64, "urg": 32, "ack": 16, "psh": 8, "rst": 4, "syn": 2, "fin": 1}
BEGIN, DAY = 1000, 86400


class World:
    """What a store holds: Things with their files and addresses, and what is bound."""

    def __init__(self, seed, count):
        self.random = random.Random(seed)
        pick, sample = self.random.choice, self.random.sample
        urls = [f"https://{pick(HOSTS)}/{number}" for number in range(count)]
        models = [url.replace("https", "HTTPS").replace(".com", ".COM:443") for url in urls[:3]]
        maker = explaining.Maker(seed, HOSTS + ["Lighting.example.com."], models, NAMES + ["TIME.example.com."], CLASSES, NETWORKS, PORTS)
        self.files = [explaining.octets_of(maker.file(url)) for url in urls]
        self.things = {f"02:00:00:00:{at // 256:02x}:{at % 256:02x}": url for at, url in enumerate(urls)}
        self.leases = {}
        for at, mac in enumerate(self.things):
            self.leases[mac] = [ipaddress.ip_address(f"192.0.2.{at + 1}"), ipaddress.ip_address(f"2001:db8::{at + 1:x}")]
        addresses = FAR + [address for leases in self.leases.values() for address in leases[:2]][:12]
        self.names = {name: sample(addresses, 3) for name in NAMES[:2]}
        self.classes = {("class", uri): sample(addresses, 3) for uri in CLASSES}
        self.classes.update({("my-controller-of", url): sample(addresses, 2) for url in urls[::2]})
        self.locals = sample([network for network in NETWORKS if network != "0.0.0.0/0"], 2)

    def requests(self):
        """What is posted so that a store holds it."""
        for mac, url in self.things.items():
            yield "POST", "/hear/dhcp", announcement(mac, url)
            for address in self.leases[mac]:
                yield "POST", "/leases", {"mac": mac, "address": str(address), "seconds": DAY}
        for octets, url in zip(self.files, self.things.values()):
            yield "POST", "/files", octets
            yield "POST", "/verdicts", {"url": url, "sha256": explaining.digest(octets), "verdict": "waived"}
        for (kind, text), addresses in self.classes.items():
            for address in addresses:
                yield "POST", "/classes", {kind: text, "address": str(address)}
        for name, addresses in self.names.items():
            for address in addresses:
                yield "POST", "/names", {"name": name, "address": str(address), "ttl": DAY}
        yield "PUT", "/locals", {"prefixes": self.locals}

    def packet(self, mac, reader):
        """A packet of a Thing, by chance: its ends, and what its headers say. Most are made for an entry of its file."""
        pick, url = self.random.choice, self.things[mac]
        side = pick(["from", "to"])
        entries = reader.files[url][side]
        entry = pick(entries) if entries and self.random.random() < 0.7 else {}
        layer = entry.get("layer") or {}
        version = entry.get("family", pick([4, 6]))
        own = next(address for address in self.leases[mac] if address.version == version)
        peers = [(other, address) for other, leases in list(self.leases.items())[:6] for address in leases] + [(FAR_MAC, it) for it in FAR]
        peers = [peer for peer in peers if peer[1].version == version]
        met = [peer for peer in peers if all(reader.is_met(selector, peer[1], url) for selector in entry.get("peer", []))]
        ends = [(mac, own), pick(met or peers)]
        kind = layer.get("kind") or pick(["tcp", "tcp", "tcp", "udp", "icmp", "other"])
        packet = {"ends": ends if side == "from" else ends[::-1], "version": version, "layer": kind, "dscp": pick([0, 0, 46]), "ecn": pick([0, 0, 1]),
                  "ttl": pick([63, 64, 64]), "source": pick(PORTS), "destination": pick(PORTS), "flags": pick([2, 2, 16, 18, 4]),
                  "type": pick([8, 128, 0]), "code": pick([0, 0, 1])}
        packet.update({member: entry[member] for member in ("dscp", "ecn", "ttl") if entry.get(member) is not None})
        packet.update({member: layer[member] for member in ("type", "code") if layer.get(member) is not None})
        for member in ("source", "destination"):
            packet[member] = pick([port for port in PORTS if port_passes(layer.get(member), port)] or PORTS)
        if layer.get("flags"):
            packet["flags"] = sum(FLAGS[flag] for flag in layer["flags"])
        packet["protocol"] = {"tcp": 6, "udp": 17, "icmp": 1 if version == 4 else 58, "other": pick([2, 50])}[kind]
        return packet

    def packets(self, mac, reader):
        """Packets of a Thing, each with an answer; some answers end the connection."""
        for _ in range(FRAMES // 2):
            packet = self.packet(mac, reader)
            yield packet
            flags = self.random.choice([18, 18, 16, 4]) if packet["layer"] == "tcp" else 0
            yield {**packet, "ends": packet["ends"][::-1], "source": packet["destination"], "destination": packet["source"], "flags": flags}


def announcement(mac, url):
    """A DHCP message that announces a URL."""
    head = bytes([1, 1, 6, 0]) + bytes(24) + bytes.fromhex(mac.replace(":", "")) + bytes(202) + bytes.fromhex("63825363")
    return head + b"\xa1" + bytes([len(url)]) + url.encode() + b"\xff"


def frame_of(packet):
    """The octets of a packet, which says how long it is."""
    if packet["layer"] == "tcp":
        body = struct.pack(">HHIIBBHHH", packet["source"], packet["destination"], 1, 0, 0x50, packet["flags"], 65535, 0, 0)
    elif packet["layer"] == "udp":
        body = struct.pack(">HHHH", packet["source"], packet["destination"], 8, 0)
    else:
        body = bytes([packet["type"], packet["code"], 0, 0, 0, 0, 0, 0])
    (source, first), (destination, second) = packet["ends"]
    traffic = packet["dscp"] << 2 | packet["ecn"]
    if packet["version"] == 4:
        packet["length"], kind = 20 + len(body), b"\x08\x00"
        head = struct.pack(">BBHHHBBH", 0x45, traffic, packet["length"], 1, 0, packet["ttl"], packet["protocol"], 0)
    else:
        packet["length"], kind = len(body), b"\x86\xdd"
        head = struct.pack(">IHBB", 6 << 28 | traffic << 20, packet["length"], packet["protocol"], packet["ttl"])
    return bytes.fromhex((destination + source).replace(":", "")) + kind + head + first.packed + second.packed + body


# ---- A small reader of --json

class Reader:
    """Decides on packets by what 'explain --json' says of the files and by what a store holds."""

    def __init__(self, world, files):
        self.world, self.files, self.begun = world, files, {}

    def is_met(self, peer, address, url):
        """Whether an address meets a selector."""
        kind, value, world = peer["kind"], peer.get("value"), self.world
        if kind in ("controller", "my-controller"):
            return address in world.classes.get(("class", value) if kind == "controller" else ("my-controller-of", url), ())
        if kind == "name":
            return address in world.names.get(value, ())
        if kind in ("network", "local-networks"):
            return any(address in ipaddress.ip_network(network) for network in ([value] if value else world.locals))
        host = url.split("/")[2] if kind == "same-manufacturer" else value
        return any(address in world.leases[mac] and (other if kind == "model" else other.split("/")[2]) == host
                   for mac, other in world.things.items())

    def layer_passes(self, layer, packet, side):
        if layer["kind"] != packet["layer"]:
            return False
        if layer["kind"] == "icmp":
            return all(layer[member] in (None, packet[member]) for member in ("type", "code"))
        if not all(port_passes(layer[member], packet[member]) for member in ("source", "destination")):
            return False
        if layer.get("flags") is not None and sum(FLAGS[flag] for flag in layer["flags"]) != packet["flags"]:
            return False
        beginner = self.begun.get(connection(packet)) if not opens(packet) else endpoints(packet)[0]
        own = endpoints(packet)[0 if side == "from" else 1]
        return not layer.get("begun") or (beginner is not None and layer["begun"] == ("from-device" if beginner == own else "to-device"))

    def entry_passes(self, entry, packet, side, url):
        own, peer = [address for _, address in packet["ends"]][::1 if side == "from" else -1]
        if entry["family"] not in (packet["version"], "both") or (entry["own"] and own not in ipaddress.ip_network(entry["own"])):
            return False
        if any(entry[member] not in (None, packet[member]) for member in ("protocol", "dscp", "ecn", "length", "ttl")):
            return False
        return (not entry["layer"] or self.layer_passes(entry["layer"], packet, side)) and all(
            self.is_met(selector, peer, url) for selector in entry["peer"])

    def ruling(self, url, side, packet):
        file = self.files[url]
        for entry in file[side] + file["defaults"][side]:
            if self.entry_passes(entry, packet, side, url):
                return f"{entry['action']}:{entry['number']}" if "number" in entry else "default-" + entry["default"]
        return "drop:no-match"

    def verdict(self, packet):
        """The verdict on a packet, which counts for its connection where it passes."""
        rulings = [(side, self.ruling(self.world.things[mac], side, packet))
                   for side, (mac, _) in zip(("from", "to"), packet["ends"]) if mac in self.world.things]
        passes = not any(ruling.startswith("drop") for _, ruling in rulings)
        if passes and packet["layer"] == "tcp":
            if opens(packet):
                self.begun[connection(packet)] = endpoints(packet)[0]
            elif packet["flags"] & 4:
                self.begun.pop(connection(packet), None)
        return ("pass " if passes else "drop ") + " ".join(f"{side}={ruling}" for side, ruling in rulings)


def opens(packet):
    return packet["flags"] & 0x16 == 2


def endpoints(packet):
    return [(str(address), packet[port]) for (_, address), port in zip(packet["ends"], ("source", "destination"))]


def connection(packet):
    return tuple(sorted(endpoints(packet)))


def port_passes(test, port):
    if test is None:
        return True
    if test["operator"] == "range":
        return test["lower"] <= port <= test["upper"]
    return {"eq": port == test["port"], "neq": port != test["port"], "lte": port <= test["port"], "gte": port >= test["port"]}[test["operator"]]


@cases_of([str(seed) for seed in range(STORES)])
class ExplainedVerdicts(ProgramCase):
    """A case for each store of made files."""

    def each(self, seed):
        world, store = World(int(seed), FILES // STORES), self.path("store.db")
        requests = b"".join(program.request(method, target, body if isinstance(body, bytes) else explaining.octets_of(body), BEGIN)
                            for method, target, body in world.requests())
        kept = program.run("replay", store, input=requests)
        self.note("what the store is told", {200}, {answer.status for answer in program.answers(kept.out)})
        reader = Reader(world, {url: explaining.explained(octets) for url, octets in zip(world.things.values(), world.files)})
        packets = [packet for mac in world.things for packet in world.packets(mac, reader)]
        frames = [frame_of(packet) for packet in packets]
        judged = program.run("judge", store, input=program.capture([(BEGIN + 1, frame) for frame in frames]))
        self.note("judge, status", 0, judged.status)
        seen = set()
        for packet, frame, line in zip(packets, frames, judged.out.decode().splitlines()):
            wanted = line.split(" ", 2)[2]
            self.note(frame.hex(), wanted, reader.verdict(packet))
            seen.update(ruling.split("=")[1].rstrip("0123456789") for ruling in wanted.split()[1:])
        self.holds("rulings of each kind", {"accept:", "drop:", "drop:no-match"} <= seen, f"there are {seen}")
