"""A night with nothing but the units of contrib/: on a made network, from the evening to the page of the next morning.

The site is that of checks/site.py, with its users, nginx and the rules on who may connect; dnsmasq, a Thing that udhcpc gets
an address for, one that comes in the evening, a server and a scanner are in network namespaces beside it. Where systemd
doesn't run, the lines of the units are read and their commands run by hand, at their paths, under their users, groups and
rights. Midnight is two minutes away, since the zone is chosen so; no clock is changed.
"""
import collections
import hashlib
import json
import os
import re
import shutil
import subprocess
import tempfile
import time
import unittest

from checks import texts
from checks.case import Case, needs
from checks.program import HERE, PROGRAM, until
from checks.site import Site

GATE, CLOUD, SCANNER, MAC, LATE = "192.168.77.1", "192.168.77.20", "192.168.77.30", "02:00:00:00:00:01", "02:00:00:00:00:02"
URL, LATE_URL = "https://lighting.example.com/lightbulb2000", "https://late.example.com/thing"
FILE = "examples/usage-files/made-lightbulb.json"
NAME, DNS, PORTS = "test.example.com", "urn:ietf:params:mud:dns", range(1, 21)
SETUP = """\
set -e
for folder in /var/lib /var/log /usr/local/share /usr/local/bin /run; do mount -t tmpfs none $folder; done
cp -r contrib /usr/local/share/mud
cp "$1" /usr/local/bin/mud
ln -s "$2/log" /var/log/mud
mkdir -p /var/lib/mud-files /var/lib/nginx /var/log/nginx
ip link add br0 type bridge
ip addr add 192.168.77.1/24 dev br0
ip link set br0 up
"""
BOUND = """\
#!/bin/sh
case $1 in
bound | renew) ip addr replace "$ip/24" dev "$interface" ;;
deconfig) ip link set "$interface" up ;;
esac
"""
# what the Thing does: it asks for the name, talks to the server in one connection for long, and tries another port
THING = """\
import socket, sys, time
with socket.socket(socket.AF_INET, socket.SOCK_DGRAM) as asker:
    asker.settimeout(5)
    name = b"".join(bytes([len(part)]) + part for part in sys.argv[1].encode().split(b"."))
    asker.sendto(b"\\0\\7\\1\\0\\0\\1\\0\\0\\0\\0\\0\\0" + name + b"\\0\\0\\1\\0\\1", (sys.argv[2], 53))
    asker.recv(512)
for _ in range(3):
    with socket.socket() as other:
        other.settimeout(1)
        other.connect_ex((sys.argv[3], 8080))
with socket.create_connection((sys.argv[3], 443)) as talk:
    while True:
        talk.sendall(b"x")
        talk.recv(1)
        time.sleep(1)
"""
CLOUD_SERVER = """\
import socket
with socket.create_server(("", 443)) as server:
    talk, _ = server.accept()
    while octets := talk.recv(100):
        talk.sendall(octets)
"""
SCAN = """\
import socket, sys
for port in range(1, 21):
    with socket.socket() as one:
        one.settimeout(1)
        one.connect_ex((sys.argv[1], port))
"""
TOOLS = ("ip", "tcpdump", "dnsmasq", "udhcpc", "curl", "nginx", "htpasswd", "nft", "systemd-sysusers", "setpriv", "nsenter", "unshare")


class Unit:
    """A unit of contrib/: its settings, with its instance and the folders of systemd in their places."""

    def __init__(self, name, instance=""):
        text = texts.read("contrib/" + name).replace("%i", instance).replace("%t", "/run")
        self.settings = collections.defaultdict(list)
        for key, value in re.findall(r"^(\w+)=(.*)$", text, re.M):
            self.settings[key].append(value)

    def of(self, key, other=""):
        return (self.settings[key] or [other])[-1]

    def folders(self):
        """The folders that systemd makes, each with its mode."""
        for key, place in (("StateDirectory", "/var/lib"), ("RuntimeDirectory", "/run")):
            yield from ((f"{place}/{name}", self.of(key + "Mode", "0755")) for name in self.of(key).split())

    def words(self, zone):
        """The words that run its command."""
        rights = [right.removeprefix("CAP_").lower() for right in self.of("AmbientCapabilities").split()]
        granted = ",".join(["-all", *("+" + right for right in rights)])
        group, more = self.of("Group", self.of("User")), self.of("SupplementaryGroups").split()
        groups = ["--groups", ",".join([group, *more])] if more else ["--clear-groups"]
        variables = [word for line in self.settings["Environment"] for word in line.split()]
        return ["setpriv", "--reuid", self.of("User"), "--regid", group, *groups, "--no-new-privs", f"--inh-caps={granted}", f"--ambient-caps={granted}", f"--bounding-set={granted}",
                "nice", "-n", self.of("Nice", "0"), "env", "-i", "PATH=/usr/local/bin:/usr/sbin:/usr/bin:/sbin:/bin", f"TZ={zone}", *variables,
                "sh", "-c", f"umask {self.of('UMask')}; cd /; exec {self.of('ExecStart')}"]


@unittest.skipIf(os.geteuid() != 0, "only root makes a network")
@needs(*TOOLS)
class Overnight(Case):
    alone = True

    def setUp(self):
        os.chdir(HERE)
        self.folder = tempfile.mkdtemp()
        self.addCleanup(shutil.rmtree, self.folder, ignore_errors=True)
        # midnight at a whole minute, at least 110 seconds from now
        self.midnight = (int(time.time()) + 110 + 59) // 60 * 60
        behind = self.midnight % 86400
        behind -= 86400 if behind > 43200 else 0
        self.zone = f"<mid>{'' if behind >= 0 else '-'}{abs(behind) // 3600}:{abs(behind) % 3600 // 60:02}"
        self.site = self.enterContext(Site(self.folder))
        before = os.environ.get("TZ")
        os.environ["TZ"] = self.zone
        time.tzset()
        self.addCleanup(self.zone_back, before)

    @staticmethod
    def zone_back(before):
        os.environ.pop("TZ") if before is None else os.environ.update(TZ=before)
        time.tzset()

    # ---- The network

    def node(self, name, mac=None, address=None):
        """A network namespace behind a port of the bridge: the words by which something runs in it."""
        holder = self.site.start(*self.site.within(["unshare", "--net", "sleep", "100000"]))
        until(lambda: os.readlink(f"/proc/{holder.pid}/ns/net") != os.readlink(f"/proc/{self.site.holder.pid}/ns/net") and os.readlink(f"/proc/{holder.pid}/ns/net") != os.readlink("/proc/self/ns/net"))
        inside = ["nsenter", "-t", str(holder.pid), "-n", "-m", "env", "-C", HERE]
        self.right(["ip", "link", "add", name, "type", "veth", "peer", "name", "eth0", "netns", str(holder.pid)])
        self.right(["ip", "link", "set", name, "master", "br0", "up"])
        if mac:
            self.right(["ip", "link", "set", "eth0", "address", mac], inside)
        if address:
            self.right(["ip", "addr", "add", address + "/24", "dev", "eth0"], inside)
        self.right(["ip", "link", "set", "eth0", "up"], inside)
        return inside

    def right(self, words, inside=None):
        """A command in the site's namespaces, or in a node's, that has to end well: what it prints."""
        ended = subprocess.run([*(inside or self.site.within([])), *words], capture_output=True, check=False)
        self.assertEqual(ended.returncode, 0, f"{words}: {ended.stderr.decode()}")
        return ended.stdout.decode()

    def make_network(self):
        self.right(["sh", "-c", SETUP, "sh", PROGRAM, self.folder])
        os.mkdir(self.path("files"))
        self.site.load_rules()
        self.site.serve()
        self.site.open_site()
        script = self.site.write("bound", BOUND)
        os.chmod(script, 0o755)
        self.site.start(*self.site.within(["dnsmasq", "--keep-in-foreground", "--conf-file=/dev/null", "--user=root", "--no-resolv", "--no-hosts", "--interface=br0", "--bind-interfaces", "--pid-file",
                                           "--dhcp-range=192.168.77.100,192.168.77.150,3600", f"--dhcp-leasefile={self.path('leases')}", "--dhcp-authoritative", f"--address=/{NAME}/{CLOUD}", "--local-ttl=60",
                                           "--dhcp-script=/usr/local/share/mud/dnsmasq-script", "--script-on-renewal"]))
        self.thing, self.late = self.node("port-t", MAC), self.node("port-l", LATE)
        self.cloud, self.scanner = self.node("port-c", address=CLOUD), self.node("port-s", address=SCANNER)
        self.site.start(*self.cloud, "python3", "-c", CLOUD_SERVER)

    def path(self, name):
        return os.path.join(self.folder, name)

    def leased(self, mac):
        return next((lease["address"] for row in self.site.told("/things")["things"] if row["mac"] == mac for lease in row["leases"]), None)

    def get_address(self, inside, mac, url):
        """Has a Thing ask for an address, and announce its URL. The address."""
        self.site.start(*inside, "udhcpc", "-f", "-i", "eth0", "-t", "20", "-T", "1", "-s", self.path("bound"), "-x", "0xa1:" + url.encode().hex())
        self.assertTrue(until(lambda: self.leased(mac), 20), f"no lease of {mac}")
        return self.leased(mac)

    def run_unit(self, unit):
        """Runs a unit's command to its end."""
        return subprocess.run(self.site.within(unit.words(self.zone)), stdin=subprocess.DEVNULL, capture_output=True, check=False, timeout=300)

    def make_folders(self, *units):
        for unit in units:
            for folder, mode in unit.folders():
                self.right(["install", "-d", "-m", mode, "-o", unit.of("User"), "-g", unit.of("Group", unit.of("User")), folder])

    def told_by_nginx(self, method, path, body):
        self.assertEqual(self.site.asked(method, "/api" + path, json.dumps(body).encode())[0], 200, path)

    # ---- The night

    def test_night(self):
        """In the evening the units are enabled; the next morning the page is there, and what it says is right."""
        self.make_network()
        digest = hashlib.sha256(texts.read(FILE).encode()).hexdigest()
        self.told_by_nginx("POST", "/classes", {"class": DNS, "address": GATE})
        self.right(["/usr/local/share/mud/put", FILE])
        self.told_by_nginx("POST", "/verdicts", {"url": URL, "sha256": digest, "verdict": "waived"})
        own = self.get_address(self.thing, MAC, URL)
        capture, day = Unit("mud-capture@.service", "br0"), Unit("mud-day.service")
        self.note("the timer's second", "*-*-* 00:00:30", Unit("mud-day.timer").of("OnCalendar"))
        self.make_folders(capture, day)
        capturing = self.site.start(*self.site.within(capture.words(self.zone)))
        self.assertTrue(until(lambda: self.right(["ls", "/var/lib/mud-captures"]) or capturing.poll() is not None, 30) and capturing.poll() is None, "nothing is captured")
        first = self.run_unit(day)
        self.note("the first run, which keeps a copy", (0, b"", b""), (first.returncode, first.stdout, first.stderr))
        self.assertLess(time.time(), self.midnight - 15, "the evening was too short for this machine")
        self.evening(own)
        time.sleep(max(0.0, self.midnight + 30 - time.time()))
        before, others = self.site.tables(), self.reports()
        night = self.run_unit(day)
        self.note("the run of the night", (0, b"", b""), (night.returncode, night.stdout, night.stderr))
        self.note("what the manager lists", before, self.site.tables())
        self.note("what 'report' and 'export' say", others, self.reports())
        self.note("capturing goes on", None, capturing.poll())
        self.look_at_folder(own)

    def reports(self):
        """The reports of a copy of the store's file, as it stands."""
        self.right(["sh", "-c", 'rm -rf /run/look && mkdir /run/look && cp "$1"* /run/look/', "sh", self.path("store.db")])
        words = [["report", "/run/look/store.db", kind] for kind in ("things", "files", "classes", "locals", "names", "due")]
        words += [["export", "/run/look/store.db", mac] for mac in (MAC, LATE)]
        return [self.right(["/usr/local/bin/mud", *row]) for row in words]

    def evening(self, own):
        """What happens between the units' start and midnight."""
        self.talk = self.site.start(*self.thing, "python3", "-c", THING, NAME, GATE, CLOUD)
        self.get_address(self.late, LATE, LATE_URL)
        self.right(["python3", "-c", SCAN, own], self.scanner)
        self.told_by_nginx("POST", "/holds", {"mac": LATE})
        self.note("the Thing talks", None, self.talk.poll())

    def look_at_folder(self, own):
        date = time.strftime("%Y-%m-%d", time.localtime(self.midnight - 1))
        place = f"/var/lib/mud/days/{date}"
        def read(name):
            return self.right(["cat", f"{place}/{name}"])
        self.note("of whom the folder is, and the captures", ["mud mud 750", "mud-capture mud-capture 750"], self.right(["stat", "-c", "%U %G %a", place, "/var/lib/mud-captures"]).splitlines())
        lines = [line.split(" ") for line in read("lines").splitlines()]
        self.holds("all of the evening, and nothing behind it", lines and all(self.midnight - 600 < int(line[1]) < self.midnight for line in lines))
        said = [" ".join(line[2:]) for line in lines]
        allowed = [line for line in said if f" {own} {CLOUD} 6 tcp " in line and " 443 " in line or f" {CLOUD} {own} 6 tcp 443 " in line]
        self.holds("the connection passes", len(allowed) > 20 and all(line.startswith("pass ") for line in allowed), allowed[:5])
        self.holds("the name passes", any(line.startswith("pass from=default-dns packet") for line in said), said[:20])
        refused = [line for line in said if re.search(rf" {own} {CLOUD} 6 tcp \d+ 8080 2$", line)]
        self.holds("the other port doesn't", len(refused) >= 3 and all(line.startswith("drop from=drop:no-match ") for line in refused), refused)
        told = json.loads(read("day.json"))
        self.note("packets", len(lines), sum(told["totals"].values()))
        self.note("objects of dropped packets", sum(line.startswith("drop ") for line in said), len(read("dropped.jsonl").splitlines()))
        thing = next(row for row in told["things"] if row["mac"] == MAC)
        denied = {(one["side"], one["peer"], one["port"], one["whose"]): one["packets"] for one in thing["denied"]}
        self.note("what was denied of it", len(refused), denied.get(("from", CLOUD, "8080", "peer")))
        self.note("the scan", {(port, SCANNER) for port in map(str, PORTS)}, {(port, peer) for side, peer, port, whose in denied if side == "to" and whose == "own"})
        self.note("a Thing of the evening", [LATE], list(told["announced"]))
        self.note("who held it", ["anna"], [row["user"] for row in told["changes"] if row["words"] == f"held {LATE}"])
        self.note("what the kernel dropped is known", 0, told["kernel"])
        page = read("report.html")
        self.holds("the page", all(words in page for words in (f"Things on {date}", URL.removeprefix("https://"), "What is proved", "anna", "20 ports from 1 to 20 of the Thing")))
        ended = subprocess.run(self.site.within(["env", f"TZ={self.zone}", "PATH=/usr/local/bin:/usr/bin:/bin:/usr/sbin", "/usr/local/share/mud/mud-day", "--verify", date]), capture_output=True, check=False)
        self.note("--verify, as root", (0, f"{place}: all files come out the same\n", ""), (ended.returncode, ended.stdout.decode(), ended.stderr.decode()))
        os.makedirs("out/day", exist_ok=True)
        with open("out/day/overnight.html", "w", encoding="utf-8") as file:
            file.write(page)

