"""Looks whether the rules that contrib/nft-rules loads stop and let through what the manager says.

On a network that is made for it, of a gateway with a bridge, a Thing and a server, frames are sent one by one: each
arrives exactly where the verdict on it is 'pass', what goes through the bridge and, with --gateway, what its own machine
takes and sends. It needs root, the right to make network namespaces, ip and nft. Where the kernel hasn't the module
nf_conntrack_bridge, what asks who began a connection is left out, as the rules do without it.
"""
import contextlib
import ctypes
import json
import os
import select
import socket
import struct
import subprocess
import sys
import time
import unittest

from checks import program
from checks.case import ProgramCase, needs
from checks.session import announcement

sys.dont_write_bytecode = True
sys.path.append(os.path.join(program.HERE, "contrib"))
import console  # noqa: E402 (they stand in contrib/)
import kept_files  # noqa: E402
import nft_tables  # noqa: E402

THING, OTHER = "02:00:00:00:00:01", "02:00:00:00:00:02"
CLOUD, GATEWAY = "02:00:00:00:00:fe", "02:00:00:00:00:fd"
ADDRESS = {THING: "192.168.77.10", OTHER: "192.168.77.11", CLOUD: "192.168.77.20", GATEWAY: "192.168.77.1"}
ADDRESS6 = {THING: "2001:db8::10", CLOUD: "2001:db8::20"}
URL = {THING: "https://lighting.example.com/bulb", OTHER: "https://lighting.example.com/switch"}
DNS = "urn:ietf:params:mud:dns"
PROBE = "table bridge mud_probe {\n  chain asks {\n    ct direction original accept\n  }\n}\n"
# how long a frame may take, in seconds, and how often a look is repeated in place of an hour of timers
ARRIVES = 0.15
LOOKS = 60
# the seconds of a name and of a lease whose expiry is awaited: the rules have to be loaded before
SHORT = 20


def entry(name, matches, forwarding="accept"):
    return {"name": name, "matches": matches, "actions": {"forwarding": forwarding}}


def usage_file(url, begun=None, dropped=False):
    """A file that lets the Thing speak with port 443 of cloud.example.com and with its maker's Things, drops port 445
    and allows all other TCP ports below 100 of the local networks. Where 'begun' is given it has to have begun so."""
    ask = {"ietf-mud:direction-initiated": begun} if begun else {}
    port = {"operator": "eq", "port": 443}
    sent = [entry("cloud", {"ipv4": {"ietf-acldns:dst-dnsname": "Cloud.example.com.", "protocol": 6}, "tcp": {"destination-port": port, **ask}}),
            entry("makers", {"ietf-mud:mud": {"same-manufacturer": [None]}, "udp": {}}),
            entry("shares", {"ietf-mud:mud": {"local-networks": [None]}, "tcp": {"destination-port": {"operator": "eq", "port": 44}, **(ask if dropped else {})}}, "drop"),
            entry("locals", {"ietf-mud:mud": {"local-networks": [None]}, "tcp": {"destination-port": {"lower-port": 1, "upper-port": 99}}})]
    taken = [entry("cloud", {"ipv4": {"ietf-acldns:src-dnsname": "cloud.example.com", "protocol": 6}, "tcp": {"source-port": port, **ask}}),
             entry("makers", {"ietf-mud:mud": {"same-manufacturer": [None]}, "udp": {}}),
             entry("locals", {"ietf-mud:mud": {"local-networks": [None]}, "tcp": {"source-port": {"lower-port": 1, "upper-port": 99}}})]
    sent6 = [entry("cloud", {"ipv6": {"ietf-acldns:dst-dnsname": "cloud.example.com"}, "tcp": {"destination-port": {"operator": "eq", "port": 8443}}})]
    lists = [{"name": name, "type": f"ipv{version}-acl-type", "aces": {"ace": aces}}
             for name, version, aces in (("fr6", 6, sent6), ("fr", 4, sent), ("to", 4, taken))]
    policy = {side: {"access-lists": {"access-list": [{"name": name} for name in names]}}
              for side, names in (("from-device-policy", ("fr6", "fr")), ("to-device-policy", ("to",)))}
    head = {"mud-version": 1, "mud-url": url, "last-update": "2024-01-01T00:00:00Z", "is-supported": True, **policy}
    return json.dumps({"ietf-mud:mud": head, "ietf-access-control-list:acls": {"acl": lists}}).encode()


def checksum(octets):
    total = sum(struct.unpack(f">{len(octets) // 2}H", octets))
    while total >> 16:
        total = (total & 0xFFFF) + (total >> 16)
    return total ^ 0xFFFF


def frame(source, target, protocol, payload, to=None):
    """An IPv4 frame of this payload from one station to another, or to another address at it."""
    ends = socket.inet_aton(ADDRESS[source]) + socket.inet_aton(to or ADDRESS[target])
    head = struct.pack(">BBHHHBBH", 0x45, 0, 20 + len(payload), 7, 0, 64, protocol, 0) + ends
    head = head[:10] + struct.pack(">H", checksum(head)) + head[12:]
    return bytes.fromhex((target + source).replace(":", "")) + b"\x08\x00" + head + payload


def tcp(source, target, ports, flags=2, to=None, numbers=(1000, 0)):
    """A segment with these sequence numbers and with its checksum, by which the kernel follows connections."""
    head = struct.pack(">HHIIBBHHH", *ports, *numbers, 0x50, flags, 65535, 0, 0)
    ends = socket.inet_aton(ADDRESS[source]) + socket.inet_aton(to or ADDRESS[target])
    summed = struct.pack(">H", checksum(ends + struct.pack(">HH", 6, len(head)) + head))
    return frame(source, target, 6, head[:16] + summed + head[18:], to)


def udp(source, target, ports, to=None):
    return frame(source, target, 17, struct.pack(">HHHH", *ports, 12, 0) + b"data", to)


def tcp6(source, target, ports):
    """A SYN by IPv6."""
    ends = socket.inet_pton(socket.AF_INET6, ADDRESS6[source]) + socket.inet_pton(socket.AF_INET6, ADDRESS6[target])
    head = struct.pack(">IHBB", 0x60000000, 20, 6, 64) + ends
    return bytes.fromhex((target + source).replace(":", "")) + b"\x86\xdd" + head + struct.pack(">HHIIBBHHH", *ports, 1, 0, 0x50, 2, 65535, 0, 0)


def ping(source, target):
    return frame(source, target, 1, b"\x08\0\0\0\0\1\0\1")


def frames():
    """Frames between each two stations, with what each is called."""
    for one, two in ((THING, CLOUD), (THING, GATEWAY), (THING, OTHER), (OTHER, GATEWAY)):
        for source, target in ((one, two), (two, one)):
            name = f"{source[-2:]} to {target[-2:]}"
            for ports in ((50000, 443), (443, 50000), (50000, 44), (50000, 80), (80, 50000), (50000, 8080)):
                yield f"{name}, TCP {ports}", tcp(source, target, ports)
            for ports in ((40000, 53), (53, 40000), (40000, 5000)):
                yield f"{name}, UDP {ports}", udp(source, target, ports)
            yield name + ", ping", ping(source, target)
    for ports in ((50000, 8443), (50000, 443)):
        yield f"IPv6, {ports}", tcp6(THING, CLOUD, ports)
        yield f"IPv6, back, {ports}", tcp6(CLOUD, THING, ports[::-1])
    yield "through the gateway, allowed", tcp(THING, GATEWAY, (50000, 443), to=ADDRESS[CLOUD])
    yield "through the gateway, denied", tcp(THING, GATEWAY, (50000, 443), to="198.51.100.7")
    yield "to a group", udp(THING, CLOUD, (5353, 5353), "224.0.0.251")
    yield "DHCP", udp(THING, GATEWAY, (68, 67), "255.255.255.255")
    yield "ARP", bytes.fromhex((CLOUD + THING).replace(":", "")) + b"\x08\x06" + bytes(46)


class Network:
    """A gateway with a bridge, two Things and a server, each in a network namespace. This thread goes to the gateway's."""

    def __init__(self):
        self.libc = ctypes.CDLL(None, use_errno=True)
        self.spaces = {it: f"mud-{name}-{os.getpid()}" for it, name in ((GATEWAY, "gw"), (THING, "thing"), (OTHER, "other"), (CLOUD, "cloud"))}
        self.own = os.open("/proc/thread-self/ns/net", os.O_RDONLY)
        self.sockets = {}

    def ip(self, *words):
        subprocess.run(["ip", *words], check=True, capture_output=True)

    def enter(self, space):
        number = os.open("/run/netns/" + space, os.O_RDONLY)
        self.libc.setns(number, 0)
        os.close(number)

    def __enter__(self):
        for space in self.spaces.values():
            self.ip("netns", "add", space)
        gateway = self.spaces[GATEWAY]
        self.ip("-n", gateway, "link", "set", "lo", "up")
        self.ip("-n", gateway, "link", "add", "br0", "address", GATEWAY, "type", "bridge")
        for number, station in enumerate((THING, OTHER, CLOUD)):
            self.ip("-n", gateway, "link", "add", f"port{number}", "type", "veth", "peer", "name", "eth0", "netns", self.spaces[station])
            self.ip("-n", gateway, "link", "set", f"port{number}", "master", "br0", "up")
            self.ip("-n", self.spaces[station], "link", "set", "eth0", "address", station, "up")
        self.ip("-n", gateway, "link", "set", "br0", "up")
        for station, space in self.spaces.items():
            self.enter(space)
            self.sockets[station] = socket.socket(socket.AF_PACKET, socket.SOCK_RAW, socket.htons(3))
            self.sockets[station].bind(("br0" if station == GATEWAY else "eth0", 0))
        self.enter(gateway)
        return self

    def __exit__(self, *_):
        self.libc.setns(self.own, 0)
        os.close(self.own)
        for one in self.sockets.values():
            one.close()
        for space in self.spaces.values():
            subprocess.run(["ip", "netns", "del", space], capture_output=True, check=False)

    def arrives(self, octets):
        """Whether a frame that its source sends comes to its target."""
        target, source = octets[:6].hex(":"), octets[6:12].hex(":")
        taker = self.sockets[target]
        while select.select([taker], [], [], 0)[0]:
            taker.recv(2048)
        self.sockets[source].send(octets)
        end = time.monotonic() + ARRIVES
        while select.select([taker], [], [], max(0, end - time.monotonic()))[0]:
            got, place = taker.recvfrom(2048)
            if place[2] != socket.PACKET_OUTGOING and got[:len(octets)] == octets:
                return True
        return False

    def learn(self):
        """Has the bridge learn where each station is."""
        for station in (THING, OTHER, CLOUD):
            self.sockets[station].send(bytes.fromhex("ffffffffffff" + station.replace(":", "")) + b"\x08\x06" + bytes(46))
        time.sleep(0.1)


class Networked(ProgramCase):
    """Cases on such a network, with a console there."""

    alone = True

    def setUp(self):
        super().setUp()
        self.opened = contextlib.ExitStack()
        self.addCleanup(self.opened.close)
        try:
            self.network = self.opened.enter_context(Network())
        except (OSError, subprocess.CalledProcessError) as failure:
            self.skipTest(f"no network can be made ({failure})")

    def post(self, path, body, method="POST"):
        answer = self.console.tell(method, path, body)
        self.console.close()
        return answer


@needs("ip", "nft")
@unittest.skipIf(os.geteuid() != 0, "only root makes network namespaces")
class Bridge(Networked):
    def setUp(self):
        super().setUp()
        os.environ["MUD_FILES"] = self.path("files")
        self.network.learn()
        self.has_module = subprocess.run(["nft", "-c", "-f", "-"], input=PROBE, text=True, capture_output=True, check=False).returncode == 0
        self.server = self.opened.enter_context(program.Server(1000000, self.path("store.db")))
        self.console = console.Console(place=f"http://127.0.0.1:{self.server.port}")
        self.end = int(time.time()) + 86400
        for mac in (THING, OTHER):
            self.post("/hear/dhcp", announcement(mac, URL[mac]))
            self.post("/leases", {"mac": mac, "address": ADDRESS[mac], "seconds": 86400})
        self.post("/classes", {"class": DNS, "address": ADDRESS[GATEWAY]})
        self.post("/locals", {"prefixes": ["192.168.77.0/28"]}, "PUT")
        for address in (ADDRESS[CLOUD], ADDRESS6[CLOUD]):
            self.post("/names", {"name": "cloud.example.com", "address": address, "ttl": 86400})

    def approve(self, octets):
        url = json.loads(octets)["ietf-mud:mud"]["mud-url"]
        self.post("/files", octets)
        self.post("/verdicts", {"url": url, "sha256": kept_files.keep(octets), "verdict": "waived"})

    def load(self, *words):
        """A look of the timer: its status, and what it says."""
        environ = dict(os.environ, MUD=program.PROGRAM, MUD_CONSOLE=f"http://127.0.0.1:{self.server.port}")
        ended = subprocess.run(["contrib/nft-rules", "--load", "--state", self.path("state"), *words], env=environ, capture_output=True, text=True, check=False)
        return ended.returncode, ended.stderr

    def verdict(self, octets):
        return self.post("/why", octets)["verdict"]

    def compare(self, what, chosen=lambda octets: True):
        """Each frame arrives exactly where its verdict is 'pass'."""
        for name, octets in frames():
            if chosen(octets):
                verdict = self.verdict(octets)
                self.note(f"{what}, {name}: {verdict}", verdict.startswith("pass"), self.network.arrives(octets))

    def of_gateway(self, octets):
        return GATEWAY in (octets[:6].hex(":"), octets[6:12].hex(":"))

    def test_verdicts(self):
        for mac in (THING, OTHER):
            self.approve(usage_file(URL[mac]))
        self.note("without the gateway", (0, ""), self.load())
        self.compare("without the gateway", lambda octets: not self.of_gateway(octets))
        self.note("without the gateway, what it takes", True, self.network.arrives(tcp(THING, GATEWAY, (50000, 8080))))
        self.note("with the gateway", (0, ""), self.load("--gateway"))
        self.compare("with the gateway")
        for tag in (b"\x81\0\0\0", b"\x88\xa8\0\7"):
            tagged = tcp(THING, CLOUD, (50000, 8080))
            self.note("a frame with a tag", False, self.network.arrives(tagged[:12] + tag + tagged[12:]))
        # what the bridge only looks at, as for a capture, stays to be seen
        self.network.ip("link", "set", "br0", "promisc", "on")
        denied = tcp(THING, CLOUD, (50000, 8080))
        taker = self.network.sockets[GATEWAY]
        self.note("a capture at the bridge, what is denied", False, self.network.arrives(denied))
        self.holds("a capture at the bridge shows it", any(taker.recv(2048)[:len(denied)] == denied for _ in iter(lambda: bool(select.select([taker], [], [], 0.1)[0]), False)))

    def test_holds_and_ends(self):
        for mac in (THING, OTHER):
            self.approve(usage_file(URL[mac]))
        self.post("/names", {"name": "cloud.example.com", "address": "192.168.77.21", "ttl": SHORT})
        ends = time.time() + SHORT
        short = tcp(THING, CLOUD, (50000, 443), to="192.168.77.21")
        self.note("the rules", (0, ""), self.load("--gateway"))
        self.note("a name, before its expiry", True, self.network.arrives(short))
        time.sleep(max(0, ends - time.time()) + 0.2)
        self.note("behind its expiry, and nothing is loaded anew", ("drop from=drop:no-match", False), (self.verdict(short), self.network.arrives(short)))
        self.post("/holds", {"mac": THING})
        self.note("a look behind a hold", (0, ""), self.load("--gateway"))
        self.compare("a hold")
        self.post("/holds", {"mac": THING}, "DELETE")
        self.post("/leases", {"mac": OTHER, "address": ADDRESS[OTHER], "seconds": SHORT})
        ends = time.time() + SHORT
        self.note("a look behind a release", (0, ""), self.load("--gateway"))
        self.compare("a release", lambda octets: b"data" in octets)
        time.sleep(max(0, ends - time.time()) + 0.2)
        self.compare("a lease that has ended", lambda octets: b"data" in octets)
        with open(self.path("state/loaded.json"), encoding="utf-8") as file:
            before = json.load(file)
        self.note("a look behind the expiry", (0, ""), self.load("--gateway"))
        with open(self.path("state/loaded.json"), encoding="utf-8") as file:
            self.holds("it loads anew", json.load(file)["anew"] > before["anew"])

    def rules(self):
        """What is loaded, without the counters."""
        text = subprocess.run(["nft", "-s", "list", "ruleset"], capture_output=True, text=True, check=True).stdout
        return "\n".join(line for line in text.split("\n") if "elements" not in line)

    def test_old_rules_stay(self):
        for mac in (THING, OTHER):
            self.approve(usage_file(URL[mac]))
        self.note("the rules", (0, ""), self.load())
        before = self.rules()
        os.remove(kept_files.path_of(kept_files.digest(usage_file(URL[THING]))))
        self.post("/holds", {"mac": OTHER})
        status, said = self.load()
        self.note("a Thing's file isn't there, status", 1, status)
        self.holds("it is told by Thing", f"{THING}: its rules stay" in said and URL[THING] in said and OTHER not in said, said)
        self.compare("its rules stay, and the other is held", lambda octets: not self.of_gateway(octets))
        self.note("a look behind it says nothing again", (0, ""), self.load())
        kept_files.keep(usage_file(URL[THING]))
        self.post("/holds", {"mac": OTHER}, "DELETE")
        self.note("the file is there again", (0, ""), self.load())
        self.note("the rules are as they were", before, self.rules())
        subprocess.run(["nft", "delete", "table", "bridge", nft_tables.name_of(THING)], check=True)
        self.note("a look where a table is gone", ((0, ""), before), (self.load(), self.rules()))
        self.post("/things", {"mac": OTHER}, "DELETE")
        self.note("a Thing goes, and its table", ((0, ""), False), (self.load(), nft_tables.name_of(OTHER) in self.rules()))
        self.server.process.kill()
        status, said = self.load("--wait", "1")
        self.note("no console, status", 1, status)
        self.holds("no console, words", "can't be reached: nobody listens there" in said, said)
        self.holds("no console, the rules stay", nft_tables.name_of(THING) in self.rules())

    def connections(self):
        """Packets of connections in the order of their moments: each arrives exactly where its verdict is 'pass'. What
        passes is what the manager and the kernel see."""
        opens, accepts, acknowledges = (2, (1000, 0)), (18, (5000, 1001)), (16, (1001, 5001))
        here, there = (50000, 443), (443, 50000)
        rows = [("an answer to nothing", CLOUD, THING, (443, 50001), accepts), ("the Thing in the midst of nothing", THING, CLOUD, (50001, 443), acknowledges),
                ("the server in the midst of nothing", CLOUD, THING, (443, 50001), acknowledges), ("what the server begins", CLOUD, THING, (443, 50002), opens),
                ("an answer to what was dropped", THING, CLOUD, (50002, 443), accepts), ("what the Thing begins", THING, CLOUD, here, opens),
                ("once more", THING, CLOUD, here, opens), ("its answer", CLOUD, THING, there, accepts), ("what follows", THING, CLOUD, here, acknowledges),
                ("what follows the other way", CLOUD, THING, there, (16, (5001, 1001))), ("what the server begins within it", CLOUD, THING, there, opens),
                ("another port", THING, CLOUD, (50000, 8080), opens), ("an answer of another port", CLOUD, THING, (8080, 50000), accepts),
                ("a port that is dropped, whoever began", THING, CLOUD, (50000, 44), opens), ("a port of which nobody asks", CLOUD, THING, (80, 50003), acknowledges),
                ("by the gateway, begun", THING, GATEWAY, (50005, 443), opens), ("by the gateway, in the midst of nothing", THING, GATEWAY, (50006, 443), acknowledges)]
        for name, source, target, ports, (flags, numbers) in rows:
            # what goes by the gateway has the server's address at the gateway's station
            octets = tcp(source, target, ports, flags, ADDRESS[CLOUD] if target == GATEWAY else None, numbers)
            verdict = self.post("/packets", octets)["verdict"]
            self.note(f"{name}: {verdict}", verdict.startswith("pass"), self.network.arrives(octets))

    def test_connections(self):
        """Entries that ask who began a connection, one of them to drop."""
        octets = usage_file(URL[THING], "from-device", dropped=True)
        self.approve(octets)
        status, said = self.load("--gateway")
        if self.has_module:
            self.note("with the kernel's module", (0, ""), (status, said))
            self.connections()
        else:
            self.left_out("entries by the kernel's connections", "this kernel has no module nf_conntrack_bridge")
            self.note("without the module, status", 1, status)
            self.note("without the module, words", f"nft-rules: nothing but holds is loaded: the kernel hasn't the module nf_conntrack_bridge, which the files of {URL[THING]} ask for; --without-connections goes without it\n", said)
            self.note("without the module, what is loaded", "", self.rules())
        self.note("without connections", (0, ""), self.load("--without-connections", "--gateway"))
        for name, one in frames():
            verdict, arrives = self.verdict(one), self.network.arrives(one)
            # the port 44 is dropped, whoever began; 443 of the cloud is what only the entry 2 allows, which asks
            less = verdict == "pass from=accept:2"
            self.note(f"without connections, {name}: {verdict}", verdict.startswith("pass") and not less, arrives)

    def test_full(self):
        """Of as many Things as a store may have, a look that finds nothing new takes a moment, and so does a hold."""
        self.approve(usage_file(URL[THING]))
        with self.console:
            for number in range(510):
                self.console.tell("POST", "/hear/dhcp", announcement(f"02:00:00:01:{number >> 8:02x}:{number & 255:02x}", URL[THING]))
        self.note("the rules", (0, ""), self.load())
        chains = subprocess.run(["nft", "list", "chains", "bridge"], capture_output=True, text=True, check=True).stdout
        self.note("a table of each", 512, chains.count("table bridge mud_"))
        began = os.times()
        self.note("a look", (0, ""), self.load())
        took = sum(os.times()[2:4]) - sum(began[2:4])
        self.holds("its seconds of processor", took <= 5, f"{took:.1f} s")

    def test_no_moment_without(self):
        for mac in (THING, OTHER):
            self.approve(usage_file(URL[mac]))
        self.note("the rules", (0, ""), self.load())
        denied, allowed = tcp(THING, CLOUD, (50000, 8080)), tcp(THING, CLOUD, (50000, 443))
        sender, taker = self.network.sockets[THING], self.network.sockets[CLOUD]
        arrived, sent = [0, 0], 0
        for _ in range(5):
            environ = dict(os.environ, MUD=program.PROGRAM, MUD_CONSOLE=f"http://127.0.0.1:{self.server.port}")
            look = subprocess.Popen(["contrib/nft-rules", "--load", "--anew", "--state", self.path("state")], env=environ)
            while look.poll() is None:
                sender.send(denied)
                sender.send(allowed)
                sent += 1
                while select.select([taker], [], [], 0.0005)[0]:
                    got = taker.recv(2048)[:54]
                    arrived[0] += got == denied
                    arrived[1] += got == allowed
            self.note("a load", 0, look.returncode)
        time.sleep(0.2)
        while select.select([taker], [], [], 0)[0]:
            got = taker.recv(2048)[:54]
            arrived[0] += got == denied
            arrived[1] += got == allowed
        self.note(f"while rules are replaced, of {sent} denied and {sent} allowed frames", [0, sent], arrived)

    def test_an_hour(self):
        """As many looks as an hour has, one behind the other: the console goes on, and what was begun before is known."""
        for mac in (THING, OTHER):
            self.approve(usage_file(URL[mac], "from-device"))
        begun, answer = tcp(THING, CLOUD, (50000, 443)), tcp(CLOUD, THING, (443, 50000), 18)
        self.note("a connection begins", "pass from=accept:2", self.post("/packets", begun)["verdict"])
        for look in range(LOOKS):
            if look % 6 == 0:
                self.post("/names", {"name": f"n{look}.example.com", "address": ADDRESS[CLOUD], "ttl": 86400})
            self.note(f"look {look + 1}", (0, ""), self.load("--without-connections"))
        self.note("'serve' is the one that was started", None, self.server.process.poll())
        self.note("its answer behind an hour of looks", "pass to=accept:1", self.post("/packets", answer)["verdict"])
