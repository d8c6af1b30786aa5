"""A year of a network, month by month: its requests, captures, DNS answers and usage files, for checks/a-year.

A store has 512 Things of 16 URLs, 4,096 names and 256 classes from the end of the first month on. Each month all
names change: 512 of them, which all files name, get another address, and the others give way to new ones. The file
of the first URL is approved anew and names some of these; classes and local networks go and others come.
"""
import hashlib
import struct
import time

from bench import inputs
from checks import program, session

MONTHS = 12
DAY = 86_400
YEAR = 365 * DAY
MONTH = YEAR // MONTHS
BEGIN = 1_704_067_200
THINGS, URLS, NAMES, LASTING, CLASSES, LOCALS = 512, 16, 4_096, 512, 256, 64
NAMED = 32
CONNECTIONS = 200_000
LEASE = DAY + 3_600
PORTS = 60_000
OPENS, ANSWERS, ENDS, FOLLOWS = 0x02, 0x12, 0x11, 0x10
# a frame of TCP without options: from the hardware addresses to the urgent pointer
FRAME = struct.Struct(">6s6sH BBHHHBBH4s4s HHIIBBHHH")
DNS_CLASS = "urn:ietf:params:mud:dns"


def begin_of(month):
    return BEGIN + month * MONTH


# ---- Names, files and frames

def name_of(number, month):
    """The name of this number in a month, counted from 0. The first ones last; the others are new in each, and come in
    no order."""
    return (f"host{number:04}" if number < LASTING else hashlib.sha256(f"{number} {month}".encode()).hexdigest()[:12]) + ".example.com"


def peer_of(number, month):
    """The address of a name in a month: in 198.18.0.0/15, and in no other month the same."""
    return struct.pack(">I", 0xC6120000 + month * NAMES + number)


def any_peer(side):
    """The tests of an entry for TCP to port 443 of all peers, which the Thing begins."""
    far, port = ("destination", "destination-port") if side == "from" else ("source", "source-port")
    return {"ipv4": {f"{far}-ipv4-network": "198.18.0.0/15", "protocol": 6},
            "tcp": {"ietf-mud:direction-initiated": "from-device", port: {"operator": "eq", "port": 443}}}


def usage_file(url, month):
    """The file of a URL in a month: for each side an entry for any peer and one for each of 32 lasting names and, of
    the first URL, of 32 names of the month too."""
    names = [name_of(number, month) for number in range(url * NAMED, (url + 1) * NAMED)]
    names += [name_of(LASTING + number, month) for number in range(NAMED)] if url == 0 else []
    matches = {side: [any_peer(side)] + [inputs.name_matches(side, name) for name in names] for side in ("from", "to")}
    update = time.strftime("%Y-%m-%dT%H:%M:%SZ", time.gmtime(begin_of(month)))
    return inputs.usage_file(inputs.url_of(url), matches, **{"last-update": update})


def tcp_frames(thing, port, peer, flags):
    """The frames of a connection that a Thing begins, by turns its own and its peer's, with these flags."""
    own, mac, far = inputs.address_of(thing), inputs.mac_of(thing), inputs.ROUTER
    out = (far, mac, 0x0800, 0x45, 0, 40, 1, 0, 64, 6, 0, own, peer, port, 443)
    back = (mac, far, 0x0800, 0x45, 0, 40, 1, 0, 64, 6, 0, peer, own, 443, port)
    return [FRAME.pack(*(back if number % 2 else out), 1, 1, 0x50, flag, 65535, 0, 0) for number, flag in enumerate(flags)]


def connection(number, flags):
    """The frames of the connection of this number, whose endpoint at the Thing no other one has."""
    thing, port = number % THINGS, 1_024 + number // THINGS % PORTS
    return tcp_frames(thing, port, peer_of(number % NAMES, number % MONTHS), flags)


# ---- The requests of a year

def posted(moment, target, body, method="POST"):
    return moment, program.request(method, target, body, moment)


def leased(moment, thing, seconds=LEASE):
    body = inputs.compact(dict(mac=inputs.mac_of(thing).hex(":"), address=inputs.dotted(inputs.address_of(thing)), seconds=seconds))
    return posted(moment, "/leases", body)


def approved(moment, octets, url):
    digest = hashlib.sha256(octets).hexdigest()
    yield posted(moment, "/files", octets)
    yield posted(moment, "/verdicts", inputs.compact(dict(url=inputs.url_of(url), sha256=digest, verdict="waived")))


def bound(moment, word, number, method="POST"):
    address = inputs.dotted(bytes([10, 9]) + struct.pack(">H", number))
    return posted(moment, "/classes", inputs.compact({"class": word, "address": address}), method)


def beginning(seconds=LEASE):
    """What a store has before the first month: Things with leases, a DNS server, and an approved file of each URL."""
    for thing in range(THINGS):
        yield posted(BEGIN, "/hear/dhcp", session.announcement(inputs.mac_of(thing).hex(":"), inputs.url_of(thing % URLS)))
        yield leased(BEGIN, thing, seconds)
    yield posted(BEGIN, "/classes", inputs.compact({"class": DNS_CLASS, "address": inputs.dotted(inputs.DNS_SERVER)}))
    for url in range(URLS):
        yield from approved(BEGIN, usage_file(url, 0), url)


def renewals(month):
    """Each Thing's lease, once a day at its own time of the day."""
    for day in range(MONTH * month // DAY, MONTH * (month + 1) // DAY):
        for thing in range(THINGS):
            yield leased(BEGIN + (day + 1) * DAY - 1 - thing * (DAY // THINGS), thing)


def changed_names(month):
    """All names change within the month."""
    for number in range(NAMES):
        moment = begin_of(month) + number * MONTH // NAMES
        yield posted(moment, "/names", inputs.compact(dict(name=name_of(number, month), address=inputs.dotted(peer_of(number, month)), ttl=DAY)))


def changed_classes(month):
    """The classes of the month before go one by one, and this month's come; so do the local networks."""
    for number in range(1, CLASSES):
        moment = begin_of(month) + number * MONTH // CLASSES
        if month:
            yield bound(moment, f"urn:example:class{number:03}-{month - 1:02}", number, "DELETE")
        yield bound(moment, f"urn:example:class{number:03}-{month:02}", number)
    for day, count in ((5, 0), (6, LOCALS // 2), (7, LOCALS)):
        prefixes = [f"10.{16 + month}.{number}.0/24" for number in range(count)]
        yield posted(begin_of(month) + day * DAY, "/locals", inputs.compact(dict(prefixes=prefixes)), "PUT")


def flags_of(number):
    """The flags of a connection's packets: by turns two and three."""
    return (OPENS, ANSWERS, ENDS)[:2 + number % 2]


def judged(month):
    """The month's connections one after the other; the last one ends some hours before the month does."""
    first, end = (CONNECTIONS * part // MONTHS for part in (month, month + 1))
    for number in range(first, end):
        moment = begin_of(month) + 60 + (number - first) * (MONTH - DAY // 2) // (end - first)
        for second, frame in enumerate(connection(number, flags_of(number))):
            yield posted(moment + second, "/packets", frame)


def requests_of(month):
    """The requests of a month in their order, and how many these are."""
    made = list(approved(begin_of(month) + 4 * DAY, usage_file(0, month), 0)) if month else []
    for kind in (renewals, changed_names, changed_classes, judged):
        made += kind(month)
    made.sort(key=lambda one: one[0])
    return b"".join(request for _, request in made), len(made)


# ---- Captures and folders

HEAD = struct.pack("<IHHIIII", 0xA1B2C3D4, 2, 4, 0, 0, 262144, 1)


def packet(moment, frame):
    return struct.pack("<IIII", moment, 0, len(frame), len(frame)) + frame


def packets_of(numbers, count):
    """The packets of these of so many connections, which are spread over the year: five of each, before the next one."""
    flags, parts = (OPENS, ANSWERS, FOLLOWS, FOLLOWS, ENDS), []
    for number in numbers:
        moment = BEGIN + number * YEAR // count
        parts += [packet(moment + second, frame) for second, frame in enumerate(connection(number, flags))]
    return b"".join(parts)


def spelled(name):
    """A name as a DNS message has it."""
    return b"".join(bytes([len(label)]) + label.encode() for label in name.split(".")) + b"\0"


def dns_answers(month):
    """A capture in which the DNS server answers the first Thing with the address of each of the month's names."""
    packets = []
    for number in range(NAMES):
        question = spelled(name_of(number, month)) + struct.pack(">HH", 1, 1)
        answer = b"\xc0\x0c" + struct.pack(">HHIH", 1, 1, DAY, 4) + peer_of(number, month)
        message = struct.pack(">HHHHHH", 1, 0x8180, 1, 1, 0, 0) + question + answer
        transport = struct.pack(">HHHH", 53, 40_000, 8 + len(message), 0) + message
        head = struct.pack(">BBHHHBBH", 0x45, 0, 20 + len(transport), 1, 0, 64, 17, 0)
        frame = inputs.mac_of(0) + inputs.ROUTER + b"\x08\0" + head + inputs.DNS_SERVER + inputs.address_of(0) + transport
        packets.append(packet(begin_of(month) + number * MONTH // NAMES, frame))
    return HEAD + b"".join(packets)


def renewed_files(month):
    """The files of a folder in a month, each under its name there: one of each URL, fetched when the month began."""
    return {f"{begin_of(month)}-file{url:02}.json": usage_file(url, month) for url in range(URLS)}
