"""Makers' servers of their own for checks: nginx with certificates by openssl, and names, in a network namespace beside
the one of the console (checks/site.py), with public addresses that nobody has outside. It needs what the site needs
and openssl, getent and python3.
"""
import json
import os
import subprocess
import sys
import time

from checks import program
from checks.site import PORT, Site

MANAGER, SERVER, OTHER = "11.0.0.1", "11.0.0.2", "11.0.0.3"
# the link between both, which is no network of the makers'
LINK = ("10.99.0.1/30", "10.99.0.2/30")
BASE = {"mud-version": 1, "last-update": "2026-01-01T00:00:00Z", "cache-validity": 48, "is-supported": True, "systeminfo": "a Thing",
        "from-device-policy": {"access-lists": {"access-list": []}}, "to-device-policy": {"access-lists": {"access-list": []}}}
# a DNS server: each question of a name takes its next row of addresses, and the last row stays
NAMES = """\
import json, socket, struct, sys
table = json.load(open(sys.argv[1]))
server = socket.socket(socket.AF_INET, socket.SOCK_DGRAM)
server.bind((sys.argv[2], 53))
while True:
    asked, client = server.recvfrom(512)
    labels, at = [], 12
    while asked[at]:
        labels.append(asked[at + 1:at + 1 + asked[at]].decode())
        at += 1 + asked[at]
    question = asked[12:at + 5]
    rows = table.get(".".join(labels).lower(), [])
    is_address = question[-4:-2] == b"\\0\\1"
    row = (rows.pop(0) if len(rows) > 1 else rows[0]) if rows and is_address else []
    answers = b"".join(b"\\xc0\\x0c\\0\\1\\0\\1" + struct.pack(">IH", 1, 4) + socket.inet_aton(one) for one in row)
    server.sendto(asked[:2] + (b"\\x81\\x80" if rows else b"\\x81\\x83") + struct.pack(">HHHH", 1, len(row), 0, 0) + question + answers, client)
"""
MAIN = """\
daemon off;
pid {0}/makers.pid;
error_log {0}/makers-error.log;
events {{ }}
http {{
  access_log {0}/asked.log combined;
  client_body_temp_path {0}/makers-body;
  proxy_temp_path {0}/makers-proxy;
  default_type application/mud+json;
  sub_filter_types *;
{1}
}}
"""
SERVE = """\
  server {{
    listen {1}:443 ssl;
    server_name {0};
    ssl_certificate {2}/{3}.pem;
    ssl_certificate_key {2}/{3}.key;
    root {2}/served/{0};
    {4}
  }}
"""
DATABASE = """\
[ca]
default_ca = one
[one]
database = {0}/index
new_certs_dir = {0}
serial = {0}/serial
default_md = sha256
policy = any
copy_extensions = none
unique_subject = no
[any]
commonName = supplied
[signs]
keyUsage = critical,digitalSignature
[enciphers]
keyUsage = critical,keyEncipherment
[serves]
subjectAltName = DNS:{1}
"""


def openssl(*words, **more):
    """A run of openssl that has to be done."""
    ended = program.run(*words, program="openssl", **more)
    if ended.status != 0:
        raise AssertionError(ended.errors.decode())
    return ended.out


def moment(days):
    """A moment, so many days from now, as 'openssl ca' takes it."""
    return time.strftime("%Y%m%d%H%M%SZ", time.gmtime(time.time() + days * 86400))


class Makers(Site):
    """The site with makers' servers beside it: with Makers(folder) as makers: makers.open({host: lines of nginx}) .."""

    def __enter__(self):
        super().__enter__()
        for name in ("served", "made", "makers.d", "files", "state"):
            os.makedirs(self.path(name), exist_ok=True)
            os.chmod(self.path(name), 0o777)
        self.servers = self.start("unshare", "--net", "sh", "-c", "ip link set lo up && echo made && exec sleep 100000")
        if self.servers.stdout.readline() != b"made\n":
            raise OSError(self.end(self.servers))
        link = ["link", "add", "makers", "netns", str(self.holder.pid), "type", "veth", "peer", "name", "manager", "netns", str(self.servers.pid)]
        steps = [(None, link)]
        for holder, device, at, addresses in ((self.holder, "makers", LINK[0], [MANAGER]), (self.servers, "manager", LINK[1], [SERVER, OTHER])):
            steps += [(holder, ["addr", "add", one, "dev", device]) for one in (at, *(address + "/32" for address in addresses))]
            steps.append((holder, ["link", "set", device, "up"]))
        steps.append((self.holder, ["route", "add", "11.0.0.0/24", "via", LINK[1].partition("/")[0]]))
        for holder, words in steps:
            ended = program.run(*([] if holder is None else ["-t", str(holder.pid), "-n", "ip"]), *words, program="ip" if holder is None else "nsenter")
            if ended.status != 0:
                raise OSError(ended.errors.decode())
        self.run("mount", "--bind", self.write("resolv.conf", f"nameserver {SERVER}\noptions timeout:1 attempts:1\n"), "/etc/resolv.conf")
        self.run("mount", "--bind", self.write("hosts", "127.0.0.1 localhost\n"), "/etc/hosts")
        self.make_certificate("root", None)
        return self

    def make_certificate(self, name, issuer, signs=None, days=(-1, 30), digest="sha256"):
        """A certificate and its key: one that is its own issuer, one that signs, or where nothing is said one of a server."""
        place, request = self.path("made"), self.path(f"made/{name}")
        form = ["rsa:2048"] if name.startswith("rsa") else ["ec", "-pkeyopt", "ec_paramgen_curve:P-256"]
        key = ["-newkey", *form, "-nodes", "-keyout", request + ".key", "-subj", f"/CN={name}"]
        if issuer is None:
            openssl("req", "-x509", *key, "-days", "60", "-out", request + ".pem")
            return
        for file, text in (("index", ""), ("serial", f"{time.time_ns():016x}\n"), (f"{name}.cnf", DATABASE.format(place, name))):
            self.write(f"made/{file}", text)
        openssl("req", *key, "-out", request + ".csr")
        openssl("ca", "-batch", "-notext", "-config", request + ".cnf", "-extensions", signs or "serves", "-md", digest, "-startdate", moment(days[0]),
                "-enddate", moment(days[1]), "-cert", self.path(f"made/{issuer}.pem"), "-keyfile", self.path(f"made/{issuer}.key"),
                "-in", request + ".csr", "-out", request + ".pem")

    def serve_file(self, host, octets, name="thing"):
        """The octets that a host serves under a name."""
        os.makedirs(self.path(f"served/{host}"), exist_ok=True)
        with open(self.path(f"served/{host}/{name}"), "wb") as file:
            file.write(octets)
        return octets

    def sign(self, octets, signer, *words):
        """A detached signature over the octets."""
        place = self.path("made/" + signer)
        return openssl("cms", "-sign", "-binary", "-outform", "DER", "-signer", place + ".pem", "-inkey", place + ".key", *words, input=octets)

    def trust(self, host, issuer):
        """The operator trusts this issuer for the files of a host."""
        with open(self.path(f"made/{issuer}.pem"), encoding="ascii") as file:
            self.write(f"makers.d/{host}.pem", file.read())

    def open(self, hosts, names, certificates=()):
        """Starts the servers: of each host lines of nginx of its own, or its address and these; and the names beside theirs."""
        certificates, blocks = dict(certificates), []
        table = {host: [[SERVER]] for host in hosts}
        for host, lines in hosts.items():
            if host not in certificates:
                self.make_certificate(host, "root")
            blocks.append(SERVE.format(host, SERVER, self.folder, "made/" + certificates.get(host, host), lines))
        self.write("names.json", json.dumps({**table, **names}))
        within = ["nsenter", "-t", str(self.servers.pid), "-n"]
        self.start(*within, sys.executable, "-c", NAMES, self.path("names.json"), SERVER)
        self.write("makers.conf", MAIN.format(self.folder, "".join(blocks)))
        nginx = self.start(*within, "nginx", "-c", self.path("makers.conf"))
        if not program.until(lambda: os.path.exists(self.path("makers.pid")) or nginx.poll() is not None) or nginx.poll() is not None:
            raise AssertionError("no makers' servers: " + self.end(nginx))

    def fetch_words(self, *words, **said):
        """The words by which mud-fetch runs contrib/fetch with this configuration."""
        lines = "".join(f"{name} = {value}\n" for name, value in {"trust": self.path("made/root.pem"), **said}.items())
        names = {"MUD": program.PROGRAM, "MUD_CONSOLE": f"http://127.0.0.1:{PORT}", "MUD_FILES": self.path("files"), "MUD_MAKERS": self.path("makers.d"),
                 "STATE_DIRECTORY": self.path("state"), "MUD_FETCH_CONF": self.write("fetch.conf", "[fetch]\n" + lines)}
        return ["env", *(f"{name}={value}" for name, value in names.items()), "contrib/fetch", *words]

    def fetch(self, *words, **said):
        """A run of contrib/fetch as mud-fetch: its status, its lines by URL, and its errors."""
        ended = self.run(*self.fetch_words(*words, **said), user="mud-fetch")
        lines = {}
        for line in ended.out.decode().splitlines():
            lines.setdefault(line.split(" ")[0], []).append(line.split(" ", 1)[1])
        return ended.status, lines, ended.errors.decode()

    def asked_for(self):
        """How many requests the servers had."""
        try:
            with open(self.path("asked.log"), encoding="utf-8") as file:
                return len(file.readlines())
        except FileNotFoundError:
            return 0

    def hour_later(self, seconds=3600):
        """Moves all moments that 'fetch' remembers into the past."""
        path = self.path("state/memory.json")
        with open(path, encoding="utf-8") as file:
            held = json.load(file)
        held["servers"] = {place: at - seconds for place, at in held["servers"].items()}
        for one in held["urls"].values():
            one["asked"] -= seconds
        self.write("state/memory.json", json.dumps(held))

    def held(self):
        """The digests that the console lists of each URL: the approved one and the one that waits."""
        return {row["url"]: tuple(row[which] and row[which]["sha256"] for which in ("approved", "candidate")) for row in self.told("/files")["files"]}


def usage_file(url, **changed):
    """A usage file of this URL."""
    members = {**BASE, "mud-url": url, **changed}
    return json.dumps({"ietf-mud:mud": {name: value for name, value in members.items() if value is not None},
                       "ietf-access-control-list:acls": {"acl": []}}).encode()


def can_be_made():
    """Whether this machine lets namespaces be joined."""
    return os.geteuid() == 0 and subprocess.run(["unshare", "--net", "true"], check=False, capture_output=True).returncode == 0
