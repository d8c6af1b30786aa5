"""Goes from nothing to right verdicts, by the files of contrib/ alone, on a network that is made for it.

A gateway has a bridge, dnsmasq and the manager; udhcpc gets an address for a Thing, whose maker has a server. dnsmasq's
script tells the Thing's announcement and its lease, which lives on through a renewal; 'listen' tells the LLDP of a port
and the names that dnsmasq answers, and judges what passes. Names and leases have to be there after their first times
have ended. It takes three minutes.
"""
import contextlib
import hashlib
import os
import re
import signal
import socket
import subprocess
import threading
import time
import unittest

from checks.case import needs
from checks.cases.bridge_rules import ADDRESS, CLOUD, GATEWAY, THING, Networked, console
from checks.program import PROGRAM, listens, packets_of, read, until

URL, FILE = "https://lighting.example.com/lightbulb2000", "examples/usage-files/made-lightbulb.json"
NAME = "test.example.com"
# how long something is waited for, in seconds
WAIT = 120
# who announces itself by LLDP
OTHER = "02:00:00:00:00:31"
# udhcpc's script, which sets the Thing's address alone
BOUND = b"""#!/bin/sh
case $1 in
bound | renew) ip addr replace "$ip/24" dev "$interface" ;;
deconfig) ip link set "$interface" up ;;
esac
"""
# the lines of the guide, with the shortest lease that dnsmasq gives
DNSMASQ = f"""dnsmasq --keep-in-foreground --conf-file=/dev/null --user=root --no-resolv --no-hosts --interface=br0 --bind-interfaces
    --pid-file --dhcp-range=192.168.77.100,192.168.77.150,120 --dhcp-authoritative --address=/{NAME}/{ADDRESS[CLOUD]} --local-ttl=5
    --script-on-renewal""".split()


@needs("ip", "tcpdump", "dnsmasq", "udhcpc", "curl")
@unittest.skipIf(os.geteuid() != 0, "only root makes network namespaces")
class MadeNetwork(Networked):
    def setUp(self):
        super().setUp()
        # dnsmasq runs its script as it is called, and may read it
        os.chmod(self.folder, 0o755)
        self.console = console.Console(place="http://127.0.0.1:8080")
        for station, interface in ((GATEWAY, "br0"), (CLOUD, "eth0")):
            self.network.ip("-n", self.network.spaces[station], "addr", "add", ADDRESS[station] + "/24", "dev", interface)

    @contextlib.contextmanager
    def at(self, station):
        """What is done meanwhile is done at this station, and else at the gateway."""
        self.network.enter(self.network.spaces[station])
        try:
            yield
        finally:
            self.network.enter(self.network.spaces[GATEWAY])

    def start(self, name, *words, station=GATEWAY):
        """Starts a command; what it writes goes to files of this name."""
        words = ["ip", "netns", "exec", self.network.spaces[station], *words]
        with open(self.path(name + ".out"), "wb") as out, open(self.path(name + ".errors"), "wb") as errors:
            one = subprocess.Popen(words, stdin=subprocess.DEVNULL, stdout=out, stderr=errors)
        self.addCleanup(one.wait)
        self.addCleanup(one.terminate)
        return one

    def said(self, form, name):
        """The lines of this form in a file that was written."""
        return re.findall(f"^{form}$", read(name, self.folder).decode(), re.M)

    def thing(self, mac):
        things = self.post("/things", b"", "GET")["things"]
        return next((thing for thing in things if thing["mac"] == mac), {"url": None, "leases": []})

    def lease_end(self):
        """The end of the Thing's lease; 0 where it has none."""
        return max((lease["until"] for lease in self.thing(THING)["leases"]), default=0)

    def name_end(self):
        names = self.post("/names", b"", "GET")["names"]
        return max((one["until"] for name in names for one in name["addresses"] if (name["name"], one["address"]) == (NAME, ADDRESS[CLOUD])), default=0)

    def ask_name(self):
        """The Thing asks the resolver for the name."""
        labels = b"".join(bytes([len(label)]) + label.encode() for label in NAME.split("."))
        with self.at(THING), socket.socket(socket.AF_INET, socket.SOCK_DGRAM) as asker:
            asker.settimeout(WAIT)
            asker.sendto(bytes.fromhex("000701000001000000000000") + labels + b"\0\0\1\0\1", (ADDRESS[GATEWAY], 53))
            asker.recv(512)

    def connect(self, port):
        """The Thing connects to its maker's server."""
        with contextlib.suppress(OSError), self.at(THING):
            socket.create_connection((ADDRESS[CLOUD], port), 3).close()

    def serve_at_cloud(self):
        """The maker's server takes each connection, and ends it."""
        with self.at(CLOUD):
            listener = socket.create_server((ADDRESS[CLOUD], 443))

        def serve():
            while True:
                listener.accept()[0].close()

        threading.Thread(target=serve, daemon=True).start()

    def test_network(self):
        self.start("serve", PROGRAM, "serve", self.path("store.db"), "8080", "1000000")
        self.start("dnsmasq", *DNSMASQ, "--dhcp-leasefile=" + self.path("leases"), "--dhcp-script=" + os.path.abspath("contrib/dnsmasq-script"))
        until(lambda: listens(8080))
        self.approve()
        client, first_end = self.lease()
        listening = self.listen()
        self.judge()
        listening.terminate()
        client.send_signal(signal.SIGUSR1)
        self.renew(first_end)

    def approve(self):
        octets = read(FILE)
        self.note("the resolver's class", {"result": "bound"}, self.post("/classes", {"class": "urn:ietf:params:mud:dns", "address": ADDRESS[GATEWAY]}))
        self.note("the file, posted", {"result": "new", "url": URL}, self.post("/files", octets))
        verdict = {"url": URL, "sha256": hashlib.sha256(octets).hexdigest(), "verdict": "waived"}
        self.note("the file, approved", {"result": "approved"}, self.post("/verdicts", verdict))

    def lease(self):
        """The Thing's client, and the first end of its lease."""
        script = self.put("bound", BOUND)
        os.chmod(script, 0o755)
        words = ["udhcpc", "-f", "-i", "eth0", "-t", "20", "-T", "1", "-s", script, "-x", "0xa1:" + URL.encode().hex()]
        client = self.start("udhcpc", *words, station=THING)
        first_end = until(self.lease_end, WAIT, 0.1)
        self.note("the announcement that dnsmasq told", URL, self.thing(THING)["url"])
        self.holds("the lease that dnsmasq told", first_end)
        return client, first_end

    def listen(self):
        """LLDP at the Thing's port, and the name that it asks for."""
        listening = self.start("listen", "contrib/listen", "br0", "--judge")
        frame = read("examples/lldp/lldpd-mud-01.bin").replace(*(bytes.fromhex(mac.replace(":", "")) for mac in (THING, OTHER)))

        def heard():
            """A frame now and then, until 'listen' listens."""
            self.network.sockets[THING].send(frame)
            return self.thing(OTHER)["url"]

        self.holds("the Thing that announces itself by LLDP", until(heard, WAIT, 0.1))
        self.ask_name()
        until(self.name_end, WAIT, 0.1)
        self.note("what 'listen' says of it", 1, len(self.said('/names {"result":"new".*', "listen.errors")))
        self.holds("the name lives for a day, not for 5 seconds", self.name_end() > time.time() + 86000)
        return listening

    def judge(self):
        """A connection that the file allows, and one that it doesn't."""
        self.serve_at_cloud()
        for port, line in ((443, ".* pass from=accept:1"), (80, r".* tcp \d+ 80 2")):
            self.connect(port)
            until(lambda line=line: self.said(line, "listen.out"), WAIT, 0.1)
        denied = r".* drop from=drop:no-match packet 192\.168\.77\.\d+ 192\.168\.77\.20 6 tcp \d+ 80 2"
        self.note("what the file allows", [], self.said(r".* drop .* tcp .*\b443\b.*", "listen.out"))
        self.holds("what the file allows, passing", self.said(".* pass from=accept:1", "listen.out"))
        self.holds("what the file doesn't allow", self.said(denied, "listen.out"))
        self.holds("DNS passes", self.said(".* pass from=default-dns", "listen.out"))

    def renew(self, first_end):
        """The lease is renewed; and the time after its first end, while 'listen' is ended, so that the script tells."""
        self.holds("the lease is renewed", until(lambda: self.lease_end() > first_end, WAIT, 0.1))
        time.sleep(max(0, first_end + 1 - time.time()))
        self.holds("the lease after its first end", self.lease_end() > time.time())
        self.holds("the name after its time", self.name_end() > time.time())
        # a frame of the Thing to its maker's server, taken out of a capture as the guide does it
        capture = self.put("one.pcap", b"")
        self.start("tcpdump", "tcpdump", "-i", "br0", "-n", "-U", "--immediate-mode", "-c", "1", "-w", capture, "tcp dst port 443")

        def caught():
            self.connect(443)
            return packets_of(read(capture))

        packets = until(caught, WAIT, 0.1)
        self.note("a packet behind both times", ["pass from=accept:1"], [self.post("/why", octets)["verdict"] for _, _, octets in packets])
