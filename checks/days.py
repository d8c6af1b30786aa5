"""A made day for the checks of contrib/mud-day: a site of Things, two days of captures, and what was told to the manager.

The day is 2026-11-30 in Berlin; what each packet is for stands beside it. Files are of an hour each.
"""
import hashlib
import json
import os
import time

from checks import program
from checks.drafting import answer, ethernet, ip, tcp, udp
from checks.program import capture, run
from checks.session import acknowledgement, announcement

ZONE, DATE, BEFORE = "Europe/Berlin", "2026-11-30", "2026-11-29"
# midnight in Berlin, an hour before that of UTC
START = 1795993200
HOUR = 3600
GATE, CLOUD, VIDEO, HUB, OUTSIDE, WEB = "192.0.2.1", "198.51.100.7", "198.51.100.8", "198.51.100.9", "203.0.113.66", "198.51.100.80"
ROUTER, LAPTOP = "02:00:00:00:00:fe", "02:00:00:00:00:99"
CAMERA, SENSOR, LAMP, PLUG = ("02:00:00:00:00:0%d" % number for number in (1, 2, 3, 4))
AT = {CAMERA: "192.0.2.11", SENSOR: "192.0.2.12", LAMP: "192.0.2.13", PLUG: "192.0.2.13", LAPTOP: "192.0.2.50"}
URLS = {CAMERA: "https://cams.example.com/camera", SENSOR: "https://sensors.example.com/sensor",
        LAMP: "https://lamps.example.com/lamp", PLUG: "https://plugs.example.com/plug'&lt;b&gt;"}
DNS = "urn:ietf:params:mud:dns"
SYN, ACK, SYN_ACK = 2, 16, 18


def side_lists(side, rows, begun, forwarding="accept"):
    """An access list of a side: each row the selector, its value, and the port of whom it is begun to."""
    aces = []
    for number, (selector, value, port) in enumerate(rows, 1):
        end = "dst" if side == "from" else "src"
        port_of = "destination-port" if (side, begun) in (("from", "from-device"), ("to", "to-device")) else "source-port"
        ipv4 = {f"ietf-acldns:{end}-dnsname": value} if selector == "name" else {}
        mud = {"ietf-mud:mud": {selector: value}} if selector != "name" else {}
        matches = {"ipv4": {**ipv4, "protocol": 6}, "tcp": {port_of: {"operator": "eq", "port": port}, "ietf-mud:direction-initiated": begun}, **mud}
        aces.append({"name": f"<{side} \"{number}\">", "matches": matches, "actions": {"forwarding": forwarding}})
    return {"name": f"{side} & list", "type": "ipv4-acl-type", "aces": {"ace": aces}}


def usage(url, *rows, begun="from-device", forwarding="accept"):
    """A usage file that lets the Thing, or its peers, begin TCP connections, or not."""
    lists = [side_lists(side, rows, begun, forwarding) for side in ("from", "to")]
    policies = {f"{side}-device-policy": {"access-lists": {"access-list": [{"name": one["name"]}]}} for side, one in zip(("from", "to"), lists)}
    mud = {"mud-version": 1, "mud-url": url, "last-update": "2026-10-01T00:00:00+00:00", "cache-validity": 168, "is-supported": True, **policies}
    return json.dumps({"ietf-mud:mud": mud, "ietf-access-control-list:acls": {"acl": lists}}).encode()


FILES = {CAMERA: usage(URLS[CAMERA], ("name", "cloud.example.net", 443), ("name", "video.example.net", 443), ("name", "never.example.net", 443)),
         SENSOR: usage(URLS[SENSOR], ("name", "hub.example.net", 8883), ("manufacturer", "lamps.example.com", 80)),
         LAMP: usage(URLS[LAMP], ("manufacturer", "sensors.example.com", 80), begun="to-device")}


class Day:
    """The packets of two days, each its second and its octets."""

    def __init__(self):
        self.packets = []
        self.days()

    def put(self, second, source, to, protocol, payload, macs):
        kind, packet = ip(source, to, protocol, payload)
        self.packets.append((second, ethernet(*macs, kind, packet)))

    def sent(self, second, mac, peer, own_port, port, flags, peer_mac=ROUTER):
        self.put(second, AT[mac], peer, 6, tcp(own_port, port, flags), (mac, peer_mac))

    def got(self, second, mac, peer, own_port, port, flags, peer_mac=ROUTER):
        self.put(second, peer, AT[mac], 6, tcp(port, own_port, flags), (peer_mac, mac))

    def begin(self, second, mac, peer, own_port, port, peer_mac=ROUTER):
        """The three packets by which a connection begins."""
        self.sent(second, mac, peer, own_port, port, SYN, peer_mac)
        self.got(second, mac, peer, own_port, port, SYN_ACK, peer_mac)
        self.sent(second, mac, peer, own_port, port, ACK, peer_mac)

    def named(self, second, mac, name, address):
        """An answer of the DNS server, of 60 seconds."""
        self.put(second, GATE, AT[mac], 17, udp(53, 40000, answer(name, address)), (ROUTER, mac))

    def dhcp(self, second, mac, message, is_answer=False):
        ends, ports = ((GATE, "255.255.255.255"), (67, 68)) if is_answer else (("0.0.0.0", "255.255.255.255"), (68, 67))
        self.put(second, *ends, 17, udp(*ports, message), (ROUTER if is_answer else mac, "ff:ff:ff:ff:ff:ff"))

    def days(self):
        # a connection of the evening before, of which each hour of both days has a packet, from one in the morning on: 47
        self.named(START - 23 * HOUR + 10, CAMERA, "cloud.example.net", CLOUD)
        self.begin(START - 23 * HOUR + 20, CAMERA, CLOUD, 50001, 443)
        for hour in range(-23, 24):
            for minute in (1, 31):
                self.sent(START + hour * HOUR + minute * 60, CAMERA, CLOUD, 50001, 443, ACK)
        # one of the evening before last, of which no SYN is there
        for hour in (1, 2, 3):
            self.sent(START + hour * HOUR + 7, SENSOR, HUB, 50002, 8883, ACK)
        # a scan from outside at three
        for port in range(1, 101):
            self.got(START + 3 * HOUR + 100 + port, CAMERA, OUTSIDE, port, 61000, SYN)
        # a name of a minute, and a connection of an hour
        self.named(START + 10 * HOUR, CAMERA, "video.example.net", VIDEO)
        self.begin(START + 10 * HOUR + 1, CAMERA, VIDEO, 50003, 443)
        for minute in range(1, 60):
            self.got(START + 10 * HOUR + 60 * minute, CAMERA, VIDEO, 50003, 443, ACK)
        # the sensor talks to the lamp, and goes on to where the lamp was
        self.begin(START + 11 * HOUR + 50 * 60, SENSOR, AT[LAMP], 50004, 80, LAMP)
        self.sent(START + 11 * HOUR + 51 * 60, SENSOR, AT[LAMP], 50004, 80, ACK, LAMP)
        # at noon the lamp's address is the plug's, which announces itself then; before it did it sent
        self.put(START + 11 * HOUR + 55 * 60, "192.0.2.40", WEB, 6, tcp(50005, 80, SYN), (PLUG, ROUTER))
        self.dhcp(START + 12 * HOUR, PLUG, announcement(PLUG, URLS[PLUG]))
        self.dhcp(START + 12 * HOUR + 1, PLUG, acknowledgement(PLUG, AT[PLUG], 7200), True)
        self.sent(START + 12 * HOUR + 60, SENSOR, AT[PLUG], 50006, 80, SYN, PLUG)
        self.sent(START + 12 * HOUR + 120, PLUG, WEB, 50007, 80, SYN)
        # what the camera's file doesn't speak of, at two
        for second in range(5):
            self.sent(START + 14 * HOUR + 1200 + second, CAMERA, WEB, 50010 + second, 80, SYN)
        # nobody's packets, and what isn't IP
        for hour in range(24):
            self.put(START + hour * HOUR + 300, AT[LAPTOP], WEB, 17, udp(50020, 9999), (LAPTOP, ROUTER))
        self.packets.append((START + 5 * HOUR, ethernet(LAPTOP, "ff:ff:ff:ff:ff:ff", 0x0806, bytes(28))))
        self.packets.sort(key=lambda row: row[0])

    def write(self, folder, cut=None):
        """A file for each hour; that of the hour 'cut' ends in the midst of its last packet."""
        os.makedirs(folder, exist_ok=True)
        for hour in range(-23, 24):
            first = START + hour * HOUR
            octets = capture([row for row in self.packets if first <= row[0] < first + HOUR])
            name = time.strftime("br0-%Y%m%dT%H%M%SZ.pcap", time.gmtime(first))
            with open(os.path.join(folder, name), "wb") as file:
                file.write(octets[:-5] if hour == cut else octets)
            os.utime(os.path.join(folder, name), (first + HOUR, first + HOUR))


def teller(port):
    """What tells the console at a port."""
    def post(path, body, method="POST"):
        octets = body if isinstance(body, bytes) else json.dumps(body).encode()
        ended = run("-s", "-X", method, "--data-binary", "@-", f"http://127.0.0.1:{port}{path}", program="curl", input=octets)
        return json.loads(ended.out)
    return post


def tell_file(post, url, octets, files):
    """Tells a usage file and its approval; its octets go to a folder."""
    digest = hashlib.sha256(octets).hexdigest()
    with open(os.path.join(files, digest + ".json"), "wb") as file:
        file.write(octets)
    post("/files", octets)
    assert post("/verdicts", {"url": url, "sha256": digest, "verdict": "waived"})["result"] == "approved"


def tell_site(port, files):
    """Tells a console what the manager knew on the evening before; the octets of usage files go to a folder."""
    post = teller(port)
    post("/classes", {"class": DNS, "address": GATE})
    post("/locals", {"prefixes": ["192.0.2.0/24"]}, "PUT")
    for mac in (CAMERA, SENSOR, LAMP):
        post("/hear/dhcp", announcement(mac, URLS[mac]))
        post("/leases", {"mac": mac, "address": AT[mac], "seconds": 4294967295})
    post("/names", {"name": "hub.example.net", "address": HUB, "ttl": 2147483647})
    for mac, octets in FILES.items():
        tell_file(post, URLS[mac], octets, files)


def log_line(second, user, method, path, body, status="200"):
    """A line of the log of changes, as nginx-mud.conf has it."""
    local = time.strftime("%Y-%m-%dT%H:%M:%S+01:00", time.gmtime(second + HOUR))
    return json.dumps({"time": local, "user": user, "method": method, "path": path, "body": body, "status": status}) + "\n"


def environment(folder, port=1):
    """The variables by which the programs of contrib/ find a made site."""
    return {**os.environ, "TZ": ZONE, "MUD": program.PROGRAM, "MUD_CONSOLE": f"http://127.0.0.1:{port}", "MUD_FILES": f"{folder}/files",
            "MUD_DAYS": f"{folder}/days", "MUD_CAPTURES": f"{folder}/captures", "MUD_CHANGES": f"{folder}/changes.log"}
