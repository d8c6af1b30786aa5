#!/usr/bin/env python3
"""Makes the captures in this folder: what two resolvers answer to a Thing, with tshark's reading of it.

    examples/resolvers/make.py              writes all files anew
    examples/resolvers/make.py ask NAME     asks the questions (in the network of the Thing; the line above
                                            does so itself)

A network of two hosts is made for it, the Thing at 192.0.2.10 and 2001:db8::10 and the resolver at
192.0.2.53 and 2001:db8::53, and for one question at 192.0.2.54. `bind9.pcap` is what named of BIND 9
answers out of its own zones. `unbound.pcap` is what unbound answers that asks named for them: so its
seconds go down, and those of what it keeps are at most a day. tcpdump captures at the Thing, and
NAME.pcap.tsv is tshark's reading of each packet. Where an answer has several records, their names, types,
classes and seconds stand in one column each, with spaces between them, and so do the addresses and the
aliases among them.

It needs root, the right to make network namespaces, ip, tcpdump, tshark, named and unbound (Debian's
packages iproute2, tcpdump, tshark, bind9 and unbound). One zone is signed, with keys that are made each
time. So the octets differ from run to run; what the resolvers say doesn't, but for the seconds that have
gone by.
"""

import os
import shutil
import socket
import struct
import subprocess
import sys
import tempfile
import time

FOLDER = os.path.dirname(os.path.abspath(__file__))
RESOLVER, RESOLVER_V6, OTHER = "192.0.2.53", "2001:db8::53", "192.0.2.54"
A, CNAME, MX, TXT, AAAA, SRV, HTTPS, ANY = 1, 5, 15, 16, 28, 33, 65, 255
LONG = ".".join(letter * 63 for letter in "abc") + ".defghijklmnopqrstuvwxyz-0123456789-abcdefghijklmn"

ZONE = f"""$TTL 300
@ SOA ns hostmaster 1 3600 900 604800 60
@ NS ns
ns A {RESOLVER}
test 60 A 198.51.100.7
both 120 A 198.51.100.8
both 90 AAAA 2001:db8:7::8
several 3600 A 198.51.100.11
several 3600 A 198.51.100.12
several 3600 A 198.51.100.13
several 3600 A 198.51.100.14
several 1800 AAAA 2001:db8:7::11
several 1800 AAAA 2001:db8:7::12
several 1800 AAAA 2001:db8:7::13
www 60 CNAME test
a0 300 CNAME a1
a1 600 CNAME a2
a2 20 CNAME a3
a3 900 CNAME several
lost 60 CNAME missing
away 60 CNAME www.example.net.
zero 0 A 198.51.100.20
fleeting 0 CNAME test
*.wild 40 A 198.51.100.21
old 50 DNAME new
host.new 70 A 198.51.100.22
lasting 2147483647 A 198.51.100.23
week 604800 A 198.51.100.24
under_score 60 A 198.51.100.25
Mixed-Case 60 A 198.51.100.26
mixed-alias 60 CNAME MIXED-case
sub 60 NS ns.sub
ns.sub 60 A {OTHER}
mail 60 MX 10 test
text 60 TXT "198.51.100.7"
_http._tcp 60 SRV 0 5 80 test
site 60 HTTPS 1 test ipv4hint=198.51.100.7
{LONG}.example.com. 60 A 198.51.100.27
""" + "".join(f"many 240 A 198.51.101.{number}\n" for number in range(1, 41))

SIGNED = """$TTL 300
@ SOA ns.example.com. hostmaster.example.com. 1 3600 900 604800 60
@ NS ns.example.com.
www 80 A 198.51.100.31
www 80 A 198.51.100.32
alias 45 CNAME www
"""

NAMED = """options {{ directory "{folder}"; listen-on port {port} {{ {addresses} }}; listen-on-v6 port {port} {{ {addresses_v6} }};
  recursion {recursion}; allow-query {{ any; }}; dnssec-validation no; pid-file none; session-keyfile none; minimal-responses {minimal}; }};
controls {{ }};
zone "example.com" {{ type primary; file "example.com"; check-names ignore; }};
zone "example.net" {{ type primary; file "example.net"; dnssec-policy default; inline-signing yes; }};
"""

UNBOUND = """server:
  interface: 192.0.2.53
  interface: 2001:db8::53
  interface: 192.0.2.54
  access-control: 0.0.0.0/0 allow
  access-control: ::/0 allow
  interface-automatic: no
  do-not-query-localhost: no
  module-config: "iterator"
  chroot: ""
  directory: "{folder}"
  username: ""
  pidfile: ""
  use-syslog: no
  num-threads: 1
stub-zone:
  name: "example.com"
  stub-addr: 127.0.0.1@5353
stub-zone:
  name: "example.net"
  stub-addr: 127.0.0.1@5353
stub-zone:
  name: "."
  stub-addr: 127.0.0.1@5353
remote-control:
  control-enable: no
"""


# ---- The questions

def question(name, kind, number, size=0, signed=False):
    """A query with one question, and with an EDNS record where a size is given (RFC 1035, RFC 6891)."""
    labels = b"".join(bytes([len(label)]) + label.encode() for label in name.split("."))
    message = struct.pack(">HHHHHH", number, 0x0100, 1, 0, 0, 1 if size else 0) + labels + struct.pack(">BHH", 0, kind, 1)
    if size:
        message += struct.pack(">BHHIH", 0, 41, size, 0x8000 if signed else 0, 0)
    return message


def ask(resolver, message):
    family = socket.AF_INET6 if ":" in resolver else socket.AF_INET
    with socket.socket(family, socket.SOCK_DGRAM) as asker:
        asker.settimeout(5)
        asker.sendto(message, (resolver, 53))
        asker.recv(65535)


def ask_over_tcp(resolver, message):
    with socket.create_connection((resolver, 53), 5) as asker:
        asker.sendall(struct.pack(">H", len(message)) + message)
        asker.recv(65535)


def ask_all():
    numbers = iter(range(1, 1000))
    com, net = ".example.com", ".example.net"
    plain = [("test", A), ("test", AAAA), ("both", A), ("both", AAAA), ("several", A), ("several", AAAA), ("www", A),
             ("a0", A), ("a0", AAAA), ("lost", A), ("away", A), ("zero", A), ("fleeting", A), ("lamp.wild", A),
             ("host.old", A), ("lasting", A), ("week", A), ("under_score", A), ("mixed-alias", A), ("nobody", A),
             ("mail", MX), ("text", TXT), ("_http._tcp", SRV), ("site", HTTPS), ("www", CNAME), ("both", ANY), (LONG, A),
             ("many", A)]
    for name, kind in plain:
        ask(RESOLVER, question(name + com, kind, next(numbers)))
    ask(RESOLVER, question("several" + com, A, next(numbers), 1232))
    ask(RESOLVER, question("many" + com, A, next(numbers), 1232))
    ask(RESOLVER, question("WwW.eXaMpLe.CoM", A, next(numbers), 1232))
    ask(RESOLVER, question("www" + net, A, next(numbers), 1232, signed=True))
    ask(RESOLVER, question("alias" + net, A, next(numbers), 1232, signed=True))
    ask(RESOLVER, question("www.example.org", A, next(numbers), 1232))
    ask(RESOLVER_V6, question("test" + com, A, next(numbers), 1232))
    ask(RESOLVER_V6, question("several" + com, AAAA, next(numbers)))
    ask(OTHER, question("both" + com, A, next(numbers)))
    ask_over_tcp(RESOLVER, question("many" + com, A, next(numbers)))
    time.sleep(2.2)
    for name, kind in [("test", A), ("a0", A), ("several", AAAA)]:
        ask(RESOLVER, question(name + com, kind, next(numbers), 1232))


# ---- The network and the resolvers

class Network:
    """Two hosts and the line between them, with a folder; all of it goes when it is left."""

    def __enter__(self):
        self.thing, self.server = f"mud-asks-{os.getpid()}", f"mud-answers-{os.getpid()}"
        self.folder = tempfile.mkdtemp()
        self.running = []
        for space in (self.thing, self.server):
            self.ip("netns", "add", space)
        self.ip("-n", self.thing, "link", "add", "eth0", "address", "02:00:00:00:00:01", "type", "veth",
                "peer", "name", "eth0", "address", "02:00:00:00:00:fe", "netns", self.server)
        for space, addresses in ((self.thing, ["192.0.2.10/24", "2001:db8::10/64"]),
                                 (self.server, [RESOLVER + "/24", OTHER + "/24", RESOLVER_V6 + "/64"])):
            for address in addresses:
                self.ip("-n", space, "address", "add", address, "dev", "eth0", *(["nodad"] if ":" in address else []))
            for link in ("lo", "eth0"):
                self.ip("-n", space, "link", "set", link, "up")
        return self

    def ip(self, *words):
        subprocess.run(["ip", *words], check=True)

    def start(self, space, *words):
        log = open(f"{self.folder}/{words[0]}.log", "wb")
        process = subprocess.Popen(["ip", "netns", "exec", space, *words], stdout=log, stderr=log, stdin=subprocess.DEVNULL)
        self.running.append(process)
        return process

    def stop(self):
        for process in reversed(self.running):
            process.terminate()
            process.wait(20)
        self.running = []

    def __exit__(self, *_):
        self.stop()
        for space in (self.thing, self.server):
            subprocess.run(["ip", "netns", "delete", space])
        shutil.rmtree(self.folder)


def until(there):
    for _ in range(200):
        if there():
            return
        time.sleep(0.1)
    sys.exit("examples/resolvers/make.py: a resolver doesn't answer")


def answers(network, space, resolver, port, name, signed=False):
    """Whether a resolver answers an address of a name without an error, with the octets of a signature where it is to be signed."""
    text = ("import socket, sys\n"
            "asker = socket.socket(socket.AF_INET, socket.SOCK_DGRAM)\n"
            "asker.settimeout(1)\n"
            "asker.sendto(bytes.fromhex(sys.argv[1]), (sys.argv[2], int(sys.argv[3])))\n"
            "answer = asker.recv(65535)\n"
            "sys.exit(answer[3] & 15 != 0 or answer[7] == 0 or len(answer) < int(sys.argv[4]))")
    message = question(name, A, 0, 1232, signed)
    words = ["ip", "netns", "exec", space, sys.executable, "-c", text, message.hex(), resolver, str(port), "150" if signed else "12"]
    return subprocess.run(words, stderr=subprocess.DEVNULL).returncode == 0


def start_named(network, port, addresses, addresses_v6, minimal):
    """The zones' own server, until it has signed."""
    folder = network.folder
    for name, text in (("example.com", ZONE), ("example.net", SIGNED)):
        with open(f"{folder}/{name}", "w") as file:
            file.write(text)
    with open(f"{folder}/named.conf", "w") as file:
        file.write(NAMED.format(folder=folder, port=port, addresses=addresses, addresses_v6=addresses_v6, recursion="no", minimal=minimal))
    network.start(network.server, "named", "-g", "-c", f"{folder}/named.conf")
    resolver = addresses.split(";")[0]
    until(lambda: answers(network, network.server, resolver, port, "www.example.net", signed=True))


def start_unbound(network):
    folder = network.folder
    with open(f"{folder}/unbound.conf", "w") as file:
        file.write(UNBOUND.format(folder=folder))
    network.start(network.server, "unbound", "-d", "-d", "-c", f"{folder}/unbound.conf")
    until(lambda: answers(network, network.server, OTHER, 53, "ns.example.com"))


COLUMNS = ("frame.number frame.time_epoch ip.src ipv6.src udp.srcport tcp.srcport dns.flags.response dns.flags.opcode "
           "dns.flags.truncated dns.flags.rcode dns.count.queries dns.qry.name dns.qry.type dns.qry.class dns.count.answers "
           "dns.resp.name dns.resp.type dns.resp.class dns.resp.ttl dns.cname dns.a dns.aaaa").split()


def capture(network, name):
    path = f"{FOLDER}/{name}.pcap"
    taking = network.start(network.thing, "tcpdump", "-i", "eth0", "-n", "-U", "--immediate-mode", "-Z", "root", "-w", path,
                           "port 53 or arp or icmp6")
    until(lambda: os.path.exists(path) and os.path.getsize(path) >= 24)
    time.sleep(1)
    subprocess.run(["ip", "netns", "exec", network.thing, sys.executable, os.path.abspath(__file__), "ask"], check=True)
    time.sleep(1)
    taking.terminate()
    taking.wait(20)
    network.running.remove(taking)
    version = subprocess.run(["tshark", "--version"], capture_output=True, text=True, check=True).stdout.split("\n")[0]
    table = subprocess.run(["tshark", "-r", path, "-n", "-T", "fields", "-E", "header=n", "-E", "aggregator= ",
                            *(word for column in COLUMNS for word in ("-e", column))], capture_output=True, text=True, check=True).stdout
    with open(path + ".tsv", "w") as file:
        file.write(f"# {version}\n" + "\t".join(COLUMNS) + "\n" + table)


def make():
    with Network() as network:
        start_named(network, 53, f"{RESOLVER}; {OTHER};", f"{RESOLVER_V6};", "no")
        capture(network, "bind9")
        network.stop()
        start_named(network, 5353, "127.0.0.1;", "none;", "yes")
        start_unbound(network)
        capture(network, "unbound")


if __name__ == "__main__":
    ask_all() if sys.argv[1:] == ["ask"] else make()
