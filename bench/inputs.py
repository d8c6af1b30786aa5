"""The stores, captures, requests and usage files that the measurements share.

The forms of the items are those that the program keeps; numbers are big-endian.
"""
import contextlib
import itertools
import json
import sqlite3
import struct

from checks import program, session

FOR_EVER = 2**64 - 1
MOMENT = 1000
ENTRIES_A_SIDE = 16
FILES = 128
THINGS = 512
ROUTER = bytes.fromhex("0200000000fe")
DNS_SERVER = bytes([192, 0, 2, 53])


def compact(value):
    return json.dumps(value, separators=(",", ":")).encode()


def dotted(address):
    return ".".join(map(str, address))


# ---- Things, usage files and their names, each by its number

def mac_of(thing):
    return bytes([2, 0, 0, 1]) + struct.pack(">H", thing)


def address_of(thing):
    return bytes([10, 0]) + struct.pack(">H", 256 + thing)


def url_of(file):
    return f"https://maker{file % 8}.example.com/model{file}"


def name_of(file, entry):
    return f"host{file}-{entry}.example.com"


def peer_of(file, entry):
    return bytes([198, 18]) + struct.pack(">H", 256 + file * ENTRIES_A_SIDE + entry)


def name_matches(side, name):
    """The tests of an entry for one name at port 443."""
    far, port = ("dst", "destination-port") if side == "from" else ("src", "source-port")
    return {"ipv4": {f"ietf-acldns:{far}-dnsname": name, "protocol": 6},
            "tcp": {"ietf-mud:direction-initiated": "from-device", port: {"operator": "eq", "port": 443}}}


def entry(name, tests, size=0):
    """An entry with these tests, or with none; its name fills it to so many octets."""
    made = {"name": name, **({"matches": tests} if tests else {}), "actions": {"forwarding": "accept"}}
    made["name"] += "x" * (size - len(compact(made)))
    return made


def usage_file(url, matches, size=0, entry_size=0, **more):
    """The file of a URL with an entry for each of the tests that are listed for a side; it has so many octets at least."""
    lists = [{"name": side, "type": "ipv4-acl-type",
              "aces": {"ace": [entry(f"{side}{number}", one, entry_size) for number, one in enumerate(tests)]}} for side, tests in matches.items()]
    policies = {f"{side}-device-policy": {"access-lists": {"access-list": [{"name": side}]}} for side in matches}
    mud = {"mud-version": 1, "mud-url": url, "last-update": "2019-01-28T11:20:51Z", "is-supported": True, "systeminfo": "", **more, **policies}
    made = {"ietf-mud:mud": mud, "ietf-access-control-list:acls": {"acl": lists}}
    mud["systeminfo"] = "x" * (size - len(compact(made)))
    return compact(made)


# ---- Stores

def string(octets):
    return struct.pack(">I", len(octets)) + octets


def ending(address, end=FOR_EVER):
    return b"\4" + address + struct.pack(">Q", end)


def endings(addresses, ends=itertools.repeat(FOR_EVER)):
    return struct.pack(">H", len(addresses)) + b"".join(map(ending, addresses, ends))


def thing_item(thing, url, addresses):
    return 1, mac_of(thing), b"\2" + string(url.encode()) + b"\0" + endings(addresses) + b"\0"


def file_item(url, approved, candidate=None):
    fetched = struct.pack(">Q", MOMENT)
    return 2, url.encode(), b"\1\1" + fetched + b"\2" + string(approved) + (b"\1" + fetched + string(candidate) if candidate else b"\0")


def class_item(uri, addresses):
    return 3, b"\1" + uri, b"\1" + struct.pack(">H", len(addresses)) + b"".join(b"\4" + address for address in addresses)


def name_item(name, addresses, ends=itertools.repeat(FOR_EVER)):
    return 5, name.encode(), b"\1" + endings(addresses, ends)


def stamp(moment=MOMENT):
    return 6, b"", b"\1" + struct.pack(">Q", moment)


SERVER = class_item(b"urn:ietf:params:mud:dns", [DNS_SERVER])


def write_store(path, items):
    """A store with these items, and the moment of the last change."""
    with contextlib.closing(sqlite3.connect(path)) as database, database:
        database.execute(program.ITEMS)
        database.executemany("INSERT INTO item VALUES (?, ?, ?)", [*items, stamp()])


def make_store(path, things, files, sides):
    """So many Things and approved files; for each side of these a number of entries, each for a name of its own."""
    items = [thing_item(thing, url_of(thing % files), [address_of(thing)]) for thing in range(things)]
    for file in range(files):
        matches = {side: [name_matches(side, name_of(file, n)) for n in range(count)] for side, count in sides.items()}
        items.append(file_item(url_of(file), usage_file(url_of(file), matches)))
        items += [name_item(name_of(file, n), [peer_of(file, n)]) for n in range(sides["from"])]
    write_store(path, [*items, SERVER])


# ---- Captures

def frame(source, address, peer, protocol, transport, destination=ROUTER):
    """A frame of IPv4 from a hardware address and an address to a peer behind the router."""
    head = struct.pack(">BBHHHBBH", 0x45, 0, 20 + len(transport), 1, 0, 64, protocol, 0)
    return destination + source + b"\x08\0" + head + address + peer + transport


def tcp_frame(mac, address, peer, port, flags):
    return frame(mac, address, peer, 6, struct.pack(">HHIIBBHHH", port, 443, 1, 0, 0x50, flags, 65535, 0, 0))


def write_capture(path, frames, times=1):
    """A capture of these frames, so many times."""
    octets = program.capture((MOMENT, octets) for octets in frames)
    with open(path, "wb") as file:
        file.write(octets[:24])
        file.writelines(itertools.repeat(octets[24:], times))


def make_judge(folder):
    """A large store and a small one, of which the first Thing and the first entry are the same; captures of that Thing, long
    and short, with the same verdicts by both; one of all Things; and a filter of 1,024 address rules for tcpdump, of which
    the last one is the Thing's address."""
    make_store(folder / "large.db", THINGS, FILES, {"from": ENTRIES_A_SIDE, "to": ENTRIES_A_SIDE})
    make_store(folder / "small.db", 1, 1, {"from": 1, "to": 0})
    mac, address, peer = mac_of(0), address_of(0), peer_of(0, 0)
    ack, syn = 0x10, 0x02
    frames = [tcp_frame(mac, address, peer, 50000, syn)] + [tcp_frame(mac, address, peer, 50000, ack)] * 599
    frames += [tcp_frame(mac, address, bytes([203, 0, 113, 9]), 50001, syn)] * 200
    frames += [frame(mac, address, DNS_SERVER, 17, struct.pack(">HHHH", 40000, 53, 8, 0))] * 100
    frames += [tcp_frame(bytes.fromhex("0200000000fd"), address, peer, 50000, syn)] * 100
    write_capture(folder / "long.pcap", frames, 1000)
    write_capture(folder / "short.pcap", frames, 100)
    spread = [tcp_frame(mac_of(thing), address_of(thing), peer_of(thing % FILES, n), 50000 + n, syn)
              for n in range(ENTRIES_A_SIDE) for thing in range(THINGS)]
    write_capture(folder / "spread.pcap", spread[:8000], 125)
    with open(folder / "rules", "w", encoding="ascii") as rules:
        rules.write(" or ".join([f"host 172.16.{n // 250}.{n % 250 + 1}" for n in range(1023)] + ["host 10.0.1.0"]) + "\n")


def block(kind, body):
    body += bytes(-len(body) % 4)
    length = struct.pack("<I", len(body) + 12)
    return struct.pack("<I", kind) + length + body + length


def make_pcapng(path, result):
    """The packets of a capture in the classic format in pcapng, behind the 48 octets of a section and an interface."""
    blocks = [block(0x0A0D0D0A, struct.pack("<IHHq", 0x1A2B3C4D, 1, 0, -1)), block(1, struct.pack("<HHI", 1, 0, 262144))]
    octets = program.read(path)
    for place, end in itertools.pairwise(program.packet_ends(octets)):
        seconds, parts, captured, length = struct.unpack_from("<IIII", octets, place)
        time = seconds * 1000000 + parts
        blocks.append(block(6, struct.pack("<IIIII", 0, time >> 32, time & 0xFFFFFFFF, captured, length) + octets[place + 16:end]))
    with open(result, "wb") as file:
        file.writelines(blocks)


# ---- Requests

def posted(target, body=b"", moment=MOMENT, method="POST", **members):
    return program.request(method, target, body or compact(members), moment)


def announced(thing, url):
    return posted("/hear/dhcp", session.announcement(mac_of(thing).hex(":"), url))


def leased(thing, address, seconds=86400, moment=MOMENT):
    return posted("/leases", moment=moment, mac=mac_of(thing).hex(":"), address=address, seconds=seconds)


def observed(name, address, ttl=86400, moment=MOMENT):
    return posted("/names", moment=moment, name=name, address=address, ttl=ttl)


def small_requests(pairs):
    """Behind those that make a Thing, by turns a packet and the observation of a name."""
    packet = tcp_frame(mac_of(0), address_of(0), peer_of(0, 0), 50000, 0x02)
    yield announced(0, url_of(0)) + leased(0, "10.0.1.0", 4294967295)
    for number in range(pairs):
        moment = MOMENT + number // 100
        yield posted("/packets", packet, moment) + observed(name_of(number % 128, number // 128 % 16), "198.18.1.0", 3600, moment)


def write_requests(path, requests):
    with open(path, "wb") as file:
        file.writelines(requests)


def make_things(folder):
    """Requests that make 512 Things with a lease each."""
    write_requests(folder / "things.requests", (announced(thing, url_of(thing % FILES)) + leased(thing, dotted(address_of(thing)))
                                                for thing in range(THINGS)))


def make_replay(folder):
    """Small requests, 200,000 of them or the first 8,000 or 6,000; and 200,000 listings of 512 Things."""
    for name, pairs in (("small", 100000), ("more", 4000), ("some", 3000)):
        write_requests(folder / (name + ".requests"), small_requests(pairs))
    make_things(folder)
    write_requests(folder / "listings.requests", itertools.repeat(program.request("GET", "/things", moment=MOMENT), 200000))


def put(kind, name, body):
    return (f"INSERT INTO item (kind, name, body) VALUES ({kind}, X'{name.hex()}', X'{body.hex()}')"
            " ON CONFLICT (kind, name) DO UPDATE SET body = excluded.body;\n")


def make_keeper(folder, count):
    """So many observations of 64 names, each of which changes the tables; and for sqlite3 the table of items and the same
    changes, a transaction each: the name's item and the last moment's."""
    changes = [(name_of(number % 64, 0), peer_of(number % 64, 0), MOMENT + number) for number in range(count)]
    write_requests(folder / "requests", (observed(name, dotted(address), 3600, moment) for name, address, moment in changes))
    with open(folder / "statements", "w", encoding="ascii") as statements:
        statements.write(f"PRAGMA journal_mode = WAL;\nPRAGMA synchronous = FULL;\n{program.ITEMS};\n")
        for name, address, moment in changes:
            statements.write(f"BEGIN;\n{put(*name_item(name, [address], [moment + 3600]))}{put(*stamp(moment))}COMMIT;\n")
