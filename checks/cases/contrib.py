"""Tries what contrib/ has: its texts, and what its scripts tell the console that the built program serves.

Shells can read its scripts, shellcheck has nothing to say of them, and systemd-analyze finds the units good and at
most 4 of openness. 'announce' tells a URL, 'dnsmasq-script' announcements and leases by the words and the
environment that dnsmasq gives, 'feed' what a capture has, and its live verdicts with what 'mud frames' says.
"""
import json
import os
import re
import signal
import subprocess
import time
import urllib.request

from checks import program, texts
from checks.case import ProgramCase, needs
from checks.program import PROGRAM, read, run

MESSAGE = "examples/dhcp/dhclient-dnsmasq-01-discover.bin"
DAY = "examples/captures/day-micro.pcap"
BULB = "https://lighting.example.com/lightbulb2000"
MAC = "02:00:00:00:00:0a"
LONG = "https://a.example/" + "0" * 237


class Contrib(ProgramCase):
    def status(self, what, status, *words, **more):
        """The command ends so; what it wrote."""
        ended = run(*words[1:], program=words[0], **more)
        self.note(what + ", status", status, ended.status)
        return ended


class Texts(Contrib):
    def test_shells(self):
        for path in texts.files("contrib/*"):
            head = texts.lines(path)[0]
            if head.startswith("#!") and head.endswith("sh"):
                shell = head.rpartition(" ")[2].rpartition("/")[2]
                self.status(f"{shell} -n {path}", 0, shell, "-n", path)

    @needs("shellcheck")
    def test_shellcheck(self):
        for path in texts.files("contrib/*", "packaging/*", "checks/*.sh", ".ci/run", "build", "mud", "man/make", "fuzz/*", "bench/*"):
            if re.match("#!.*sh$", texts.lines(path)[0]):
                self.note(f"shellcheck {path}", "", run(path, program="shellcheck").out.decode())

    @needs("systemd-analyze")
    def test_units(self):
        for name, script in (("mud.service", PROGRAM), ("mud-listen@.service", "contrib/listen"), ("mud-rules.service", "contrib/nft-rules"),
                             ("mud-metrics.service", "contrib/metrics"), ("mud-fetch.service", "contrib/fetch"),
                             ("mud-capture@.service", "contrib/capture"), ("mud-day.service", "contrib/mud-day")):
            unit, words = name.replace("@", "@br0"), os.path.abspath(script)
            text = re.sub("^(ExecStart=|ExecStopPost=-)[^ \n]*", rf"\1{words}", texts.read("contrib/" + name), flags=re.M)
            # what loads rules needn't be there
            path = self.put(unit, re.sub(r"^(Exec\w+=\+)/usr/sbin/nft", rf"\1{words}", text, flags=re.M).encode())
            ended = self.status(f"verify {unit}", 0, "systemd-analyze", "verify", "--man=no", path)
            self.note(f"verify {unit}, words", b"", ended.out + ended.errors)
            # the threshold is ten times the figure
            self.status(f"security {unit}", 0, "systemd-analyze", "security", "--offline=true", "--threshold=40", path)
        for name in ("mud-rules.timer", "mud-metrics.timer", "mud-fetch.timer", "mud-day.timer"):
            timer = self.put(name, read("contrib/" + name))
            self.note(f"verify {name}", (0, b""), run("verify", "--man=no", timer, program="systemd-analyze")[::2])


class WithoutConsole(Contrib):
    def test_announce(self):
        for url in (BULB, LONG):
            ended = self.status("announce -n", 0, "contrib/announce", "-n", MAC.upper(), url)
            self.note("announce -n, heard", f"url {MAC} {url}\n", run("hear", "dhcp", input=ended.out).out.decode())
        self.status("announce with no words", 2, "contrib/announce")
        self.status("announce of no address", 2, "contrib/announce", "-n", "02:00:00:00:00", BULB)
        self.status("announce of a URL of 256 octets", 2, "contrib/announce", "-n", MAC, LONG + "0")

    def test_listen(self):
        self.status("listen with no words", 2, "contrib/listen")
        ended = self.status("listen at an interface that isn't there", 2, "contrib/listen", "nowhere.9")
        self.note("listen at an interface that isn't there, what it says", b"listen: nowhere.9: no such interface\n", ended.errors)

    def test_waiting(self):
        """'feed' says once that it waits for the console, and where."""
        place = f"http://127.0.0.1:{program.free_port()}"
        with open(DAY, "rb") as day, subprocess.Popen(["contrib/feed"], stdin=day, stderr=subprocess.PIPE, env={**os.environ, "MUD_CONSOLE": place}) as feed:
            self.note("what it says", f"feed: waiting for the console at {place}: nobody listens there\n", feed.stderr.readline().decode())
            time.sleep(2)
            feed.kill()
            self.note("what it says besides", b"", feed.stderr.read())


# in place of tcpdump: it says where it captures, and captures nothing until it is told to stop
STAND_IN = """#!/bin/sh
echo "$2" >>"$0.at"
echo $$ >"$0.$2"
exec sleep 60 </dev/null
"""


@needs("ip")
class Ports(Contrib):
    """'listen' at a bridge whose ports come and go, in a network that is made for it."""

    # a name that an interface may have, and that a shell would carry out where it reads it as a word
    STRANGE = "$(>x)"
    GONE = "listen: {} is no port of br9 any more, or is down\n"

    def setUp(self):
        super().setUp()
        self.space = f"mud-ports-{os.getpid()}"
        if run("netns", "add", self.space, program="ip").status != 0:
            self.skipTest("no network namespace can be made")
        self.addCleanup(run, "netns", "del", self.space, program="ip")
        os.chmod(self.put("tcpdump", STAND_IN.encode()), 0o755)

    def ip(self, *words):
        self.assertEqual(run("-n", self.space, *words, program="ip").status, 0)

    def port(self, name):
        self.ip("link", "add", name, "type", "veth", "peer", "name", name + "-other")
        self.ip("link", "set", name, "master", "br9", "up")

    def heard(self):
        """Where captures were begun, in turn."""
        return read("tcpdump.at", self.folder).decode().split() if os.path.exists(self.path("tcpdump.at")) else []

    def test_ports(self):
        self.ip("link", "add", "br9", "type", "bridge")
        self.port("port1")
        self.port("port2")
        environment = {**os.environ, "PATH": self.folder + ":" + os.environ["PATH"]}
        words = ["ip", "netns", "exec", self.space, os.path.abspath("contrib/listen"), "br9"]
        with subprocess.Popen(words, stderr=subprocess.PIPE, env=environment, cwd=self.folder) as listen:
            program.until(lambda: len(self.heard()) == 3)
            self.note("where it hears at the start", ["br9", "port1", "port2"], sorted(self.heard()))
            self.ip("link", "del", "port1")
            self.note("what it says of a port that goes", self.GONE.format("port1"), listen.stderr.readline().decode())
            self.port(self.STRANGE)
            self.holds("it hears a port that comes", program.until(lambda: len(self.heard()) == 4))
            self.note("where it hears then", sorted(["br9", "port1", "port2", self.STRANGE]), sorted(self.heard()))
            self.ip("link", "set", "port2", "nomaster")
            self.note("what it says of a port that is taken out", self.GONE.format("port2"), listen.stderr.readline().decode())
            self.ip("link", "set", self.STRANGE, "down")
            self.note("what it says of a port that is down", self.GONE.format(self.STRANGE), listen.stderr.readline().decode())
            self.holds("what a name says isn't done", not os.path.exists(self.path("x")))
            self.ip("link", "set", self.STRANGE, "up")
            self.holds("it hears a port that is up again", program.until(lambda: len(self.heard()) == 5))
            os.kill(int(read("tcpdump." + self.STRANGE, self.folder)), signal.SIGPIPE)
            self.note("what it says where the capture at a port ends", f"listen: the capture at {self.STRANGE} has ended, and is begun again\n", listen.stderr.readline().decode())
            self.holds("it hears that port again", program.until(lambda: len(self.heard()) == 6))
            self.note("it goes on", None, listen.poll())
            os.kill(int(read("tcpdump.br9", self.folder)), signal.SIGPIPE)
            self.note("where the capture at the bridge ends, its status", 1, listen.wait(timeout=15))
            self.note("where the capture at the bridge ends, what it says", b"listen: the capture at br9 has ended", listen.stderr.read().splitlines()[-1])


def item(name, action, **matches):
    return {"actions": {"forwarding": action}, "matches": matches, "name": name}


def lists():
    """The lists of a bulb, with each test once."""
    tcp = {"destination-port": {"operator": "neq", "port": 443}, "flags": "ack syn", "ietf-mud:direction-initiated": "from-device",
           "source-port": {"lower-port": 1024, "upper-port": 65535}}
    ipv4 = {"destination-ipv4-network": "198.51.100.7/32", "dscp": 46, "protocol": 6, "ttl": 64}
    items = {"from-v4": [item("e1-1", "accept", ipv4=ipv4, tcp=tcp)],
             "from-v6": [item("e2-1", "drop", icmp={"code": 0, "type": 128}, ipv6={"length": 64})],
             "to-v4": [item("dns-1", "accept", udp={"source-port": {"operator": "eq", "port": 53}})], "to-v6": []}
    acl = [{"aces": {"ace": row}, "name": name, "type": f"ip{name[-2:]}-acl-type"} for name, row in items.items()]
    return json.dumps({"ietf-access-control-list:acls": {"acl": acl}}, separators=(",", ":"), sort_keys=True).encode()


RULES = """\
    ip daddr 198.51.100.7/32 ip dscp 46 ip ttl 64 meta l4proto tcp tcp sport 1024-65535 tcp dport != 443 tcp flags == 0x12 tcp flags & (syn | rst | ack) == syn counter accept comment "e1-1"
    ip daddr 198.51.100.7/32 ip dscp 46 ip ttl 64 meta l4proto tcp tcp sport 1024-65535 tcp dport != 443 tcp flags == 0x12 ct status confirmed ct direction original counter accept comment "e1-1"
    ip6 length 64 meta l4proto icmpv6 icmpv6 type 128 icmpv6 code 0 counter drop comment "e2-1"
    meta l4proto udp udp sport 53 counter accept comment "dns-1"
"""
ASKS = b"table bridge mud {\n  chain asks {\n    ct direction original accept\n  }\n}\n"


class Rules(Contrib):
    def test_rules(self):
        """The rules for each item of lists that are written out: two for one that asks whether the Thing began."""
        ended = self.status("nft-rules", 0, "contrib/nft-rules", MAC.upper(), input=lists())
        rules = ended.out.decode()
        self.note("the rules for each item", RULES, "".join(line for line in rules.splitlines(True) if "comment" in line))
        self.note("a drop behind each list", 4, len(re.findall("^    counter drop$", rules, re.M)))
        self.note("of this address alone", {MAC}, set(re.findall("..:..:..:..:..:..", rules)))
        self.status("nft-rules of no lists", 1, "contrib/nft-rules", MAC, input=MESSAGE)
        self.status("nft-rules of no address", 2, "contrib/nft-rules", "02:00:00:00:00", input=lists())

    @needs("nft")
    def test_nft(self):
        rules = run(MAC, program="contrib/nft-rules", input=lists()).out
        if run("-c", "-f", self.put("asks", ASKS), program="nft").status != 0:
            self.left_out("what asks for connections", "this kernel has no nf_conntrack_bridge")
            rules = re.sub(rb" ct status confirmed ct direction [a-z]*", b"", rules)
        ended = self.status("nft -c of the rules", 0, "nft", "-c", "-f", self.put("rules", rules))
        self.note("nft -c of the rules, words", b"", ended.errors)


@needs("curl")
class Told(Contrib):
    """What the scripts tell the console."""

    def setUp(self):
        super().setUp()
        server = program.Server(1000, self.path("store.db"))
        server.__enter__()
        self.addCleanup(server.kill)
        self.console = f"http://127.0.0.1:{server.port}"
        self.environment = {**os.environ, "MUD_CONSOLE": self.console}

    def asked(self, path, body=None):
        with urllib.request.urlopen(self.console + path, data=body, timeout=60) as answer:
            return json.load(answer)

    def test_announce(self):
        words = ("contrib/announce", "02:00:00:00:00:01")
        ended = self.status("announce", 0, *words, BULB, env=self.environment)
        wanted = {"heard": "url", "mac": words[1], "result": "new", "url": BULB}
        self.note("announce, answer", wanted, json.loads(ended.out))
        self.status("announce of a URL that is none", 1, *words, "http://lighting.example.com/", env=self.environment)

    def leased(self, mac):
        """The addresses of its leases, each with the seconds that are left, to the ten, or None."""
        thing = next(thing for thing in self.asked("/things")["things"] if thing["mac"] == mac)
        return [(lease["address"], lease["until"] and round((lease["until"] - time.time()) / 10) * 10) for lease in thing["leases"]]

    def dnsmasq(self, *words, **variables):
        """What dnsmasq's script writes, with these words, and variables whose names begin with DNSMASQ_."""
        more = {f"DNSMASQ_{name}": value for name, value in variables.items()}
        ended = run(*words, program="contrib/dnsmasq-script", env={**self.environment, **more})
        return ended.out + ended.errors

    def test_dnsmasq(self):
        mac = "02:00:00:00:00:0b"
        said = self.dnsmasq("add", mac, "192.0.2.77", "lamp", MUD_URL=BULB, TIME_REMAINING="120", LEASE_EXPIRES="1")
        self.note("add, what dnsmasq may log of it", b"", said)
        self.note("add", [("192.0.2.77", 120)], self.leased(mac))
        self.dnsmasq("old", mac, "192.0.2.77", "lamp", TIME_REMAINING="600", LEASE_EXPIRES="1")
        self.note("old, a renewal", [("192.0.2.77", 600)], self.leased(mac))
        self.dnsmasq("old", mac, "192.0.2.77", TIME_REMAINING="0", LEASE_EXPIRES="0")
        self.note("old, for ever", [("192.0.2.77", None)], self.leased(mac))
        self.note("del, what dnsmasq may log of it", b"", self.dnsmasq("del", mac, "192.0.2.77", "lamp"))
        self.note("del", [], self.leased(mac))
        self.dnsmasq("add", "00:03:00:01:02:00:00:00:00:0b", "2001:db8::77", IAID="1", MAC=mac, TIME_REMAINING="300")
        self.note("add, an IPv6 lease", [("2001:db8::77", 300)], self.leased(mac))
        self.note("add, of an unknown hardware address", b"", self.dnsmasq("add", "00:03:00:01:02:00:00:00:00:0c", "2001:db8::78", IAID="1"))
        self.note("another word", b"", self.dnsmasq("init"))
        said = self.dnsmasq("old", mac, "192.0.2.78", MUD_URL="http://x/", TIME_REMAINING="300")
        self.note("a URL that is none, what dnsmasq may log of it", "dnsmasq-script: the console refused /hear/dhcp: 400 Url Scheme\n", said.decode())
        self.note("the lease", [("192.0.2.78", 300)], [row for row in self.leased(mac) if row[0] == "192.0.2.78"])

    def test_feed(self):
        """Of day-micro.pcap: two Things announce themselves, lease, and ask the server that is bound for names."""
        ended = self.status("no server bound", 0, "contrib/feed", input=DAY, env=self.environment)
        self.note("no server bound, names", {"names": []}, self.asked("/names"))
        self.note("no server bound, said", 1, ended.errors.count(b"no address is bound"))
        self.asked("/classes", b'{"class":"urn:ietf:params:mud:dns","address":"192.0.2.1"}')
        ended = self.status("--judge", 0, "contrib/feed", "--judge", input=DAY, env=self.environment)
        self.note("--judge, refused", [], re.findall(r"(?m)^.* [45]\d\d .*$", ended.errors.decode()))
        self.note("Things", ["02:00:00:00:00:01", "02:00:00:00:00:02"], [thing["mac"] for thing in self.asked("/things")["things"]])
        names = self.asked("/names")["names"]
        self.note("names", ["test.example.com", "time.example.com", "www.example.com"], [name["name"] for name in names])
        ends = [address["until"] for name in names for address in name["addresses"]]
        self.holds("names live for a day", min(ends) >= time.time() + 86000)
        self.verdicts(ended.out.decode().splitlines())
        self.status("feed of no capture", 1, "contrib/feed", input=MESSAGE, env=self.environment)

    def verdicts(self, lines):
        """Each line is of its packet, and has the addresses of a drop alone."""
        frames = dict(re.match(r"(\S+ \S+) (.*)", line).groups() for line in run("frames", input=DAY).out.decode().splitlines())
        self.note("--judge, lines", len(frames), len(lines))
        wrong = []
        for line in lines:
            at, verdict, more = re.match(r"(\S+ \S+) (\S+)(.*)", line).groups()
            behind = more[more.index(" packet ") + 1:] if " packet " in more else ""
            if at not in frames or behind != (frames[at] if verdict == "drop" else ""):
                wrong.append(line)
        self.note("--judge, addresses", [], wrong[:3])
        self.note("--judge, verdicts", {"drop", "pass"}, {line.split()[2] for line in lines})
