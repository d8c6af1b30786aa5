"""Makes the inputs of bench/slowest-inputs: the slowest ones that we know how to make, of a size or number and of a tenth."""
import itertools
import os
import random
import struct

import inputs
from inputs import FOR_EVER, posted

MOST_FILE = 262144
MOST_MESSAGE = 65535
MOST_BODY = 524288
MOST_HEAD = 8192
# the octets of DNS in the longest packet of IPv4, and in one of 1,500 octets
MOST_DATAGRAM = 65507
COMMON_DATAGRAM = 1472


# ---- Usage files

HEAD = ('{"ietf-mud:mud":{"mud-version":1,"mud-url":"https://a.b/","last-update":"2019-01-28T11:20:51Z",'
        '"is-supported":true,"from-device-policy":{"access-lists":{"access-list":[%s]}},'
        '"to-device-policy":{"access-lists":{"access-list":[%s]}}},'
        '"ietf-access-control-list:acls":{"acl":[%s]}%s}')
DIGITS = "0123456789abcdefghijklmnopqrstuvwxyzABCDEFGHIJKLMNOPQRSTUVWXYZ"


def filled(most, element, before="", after="", separator=",", beside=True, policies=False):
    """A usage file of at most so many octets with as many elements as fit: element(n) is the text of the n-th. They stand
    beside all that it has to have, or are its access lists; each of its policies names all of these where that is asked."""
    room = most - len(HEAD % ("", "", "", "")) - len(before) - len(after)
    texts, names = [], []
    while True:
        text = element(len(texts))
        named = '{"name":"%d"}' % len(texts) if policies else ""
        room -= len(text) + len(separator) + (2 * len(named) + 2 if policies else 0)
        if room < 0:
            break
        texts.append(text)
        names.append(named)
    text, named = before + separator.join(texts) + after, ",".join(names) if policies else ""
    return (HEAD % (named, named, "" if beside else text, text if beside else "")).encode()


def short_name(number):
    """A name that no other number has, as short as can be."""
    text = ""
    while number >= 0:
        text += DIGITS[number % 62]
        number = number // 62 - 1
    return text


def lists_named(most):
    return filled(most, lambda n: '{"name":"%s"}' % short_name(n), beside=False)


def member(number):
    return f'"{short_name(number)}":0'


def unknown_matches(most):
    """An entry whose matches have the most members that nobody knows: the least of them is named."""
    before = '{"name":"0","type":"ipv4-acl-type","aces":{"ace":[{"name":"0","matches":{'
    text = filled(most - 24, member, before, '},"actions":{"forwarding":"accept"}}]}}', beside=False)
    return text.replace(b'"access-list":[]', b'"access-list":[{"name":"0"}]')


FILES = {
    "names": lists_named,
    "prefixes": lambda most: filled(most, lambda n: '{"name":"%s%06d"}' % ("x" * 200, n * 7919 % 1000000), beside=False),
    "lists": lambda most: filled(most, lambda n: '{"name":"%d","type":"ipv4-acl-type"}' % n, beside=False, policies=True),
    "nesting": lambda most: filled(most, lambda n: "[" * 125 + "]" * 125, ',"x":[', "]"),
    "members": lambda most: filled(most, member, ',"x":{', "}"),
    "same": lambda most: filled(most, lambda n: '"a":0', ',"x":{', "}"),
    "unknown": unknown_matches,
    "digits": lambda most: filled(most, lambda n: "7", ',"x":0.', separator=""),
    "numbers": lambda most: filled(most, lambda n: "9007199254740993." + "0" * 750 + "1e-300", ',"x":[', "]"),
    "escapes": lambda most: filled(most, lambda n: "\\ud83d\\ude00", ',"x":"', '"', separator=""),
    "strings": lambda most: filled(most, lambda n: '""', ',"x":[', "]"),
    "open": lambda most: filled(most, lambda n: "\\n", ',"x":"', separator="")[:-1],
}


# ---- Messages, and packets with extension headers

DHCP = bytes.fromhex("010106000000000100000000") + bytes(16) + bytes.fromhex("020000000001") + bytes(202) + bytes.fromhex("63825363")
LLDP = bytes.fromhex("0180c200000e02000000000188cc0207040200000000010402073106020078")
SYN = struct.pack(">HHIIBBHHH", 50000, 443, 1, 0, 0x50, 2, 65535, 0, 0)


def extended_frame(extension):
    """A frame of IPv6 with eight extension headers of 8 octets times `extension` each, and TCP behind."""
    chain = b"".join(bytes([kind, extension - 1]) + bytes(8 * extension - 2) for kind in (60, 43, 60, 43, 60, 43, 60, 6)) + SYN
    addresses = bytes.fromhex("20010db8000000000000000000000001" "20010db8000000000000000000000002")
    return inputs.ROUTER + inputs.mac_of(0) + b"\x86\xdd" + struct.pack(">IHBB", 0x60000000, len(chain), 0, 64) + addresses + chain


def begins(count):
    """Frames in which a Thing begins so many connections, each of which no packet follows."""
    order = list(range(count))
    random.Random(1).shuffle(order)
    return [inputs.tcp_frame(inputs.mac_of(0), inputs.address_of(0), bytes([198, 18, 0, 1 + number // 62500]), 1024 + number % 62500, 2)
            for number in order]


# ---- DNS answers

def answer_frame(message):
    """A frame with which the DNS server answers the first Thing."""
    transport = struct.pack(">HHHH", 53, 40000, 8 + len(message), 0) + message
    return inputs.frame(inputs.ROUTER, inputs.DNS_SERVER, inputs.address_of(0), 17, transport, inputs.mac_of(0))


def dns_answer(question, answers, count):
    return struct.pack(">HHHHHH", 1, 0x8180, 1, count, 0, 0) + question + answers


def pointing(most, labels=127):
    """A DNS answer of at most so many octets, with the names that are slowest to read. The question's name has as many
    labels as a name may have. The content of the first record are pointers, each to the one before it and the first to
    that name; then come aliases, of which the owner and the content are a pointer to the last of these, as many as fit."""
    question = b"\1a" * labels + b"\0" + struct.pack(">HH", 1, 1)
    first = 12 + len(question) + 11
    count = min((most - first) // 4, (0x3FFF - first) // 2 + 1)
    chain = b"".join(struct.pack(">H", 0xC000 | place) for place in [12] + [first + 2 * number for number in range(count - 1)])
    last = struct.pack(">H", 0xC000 | first + 2 * (count - 1))
    alias = last + struct.pack(">HHIH", 5, 1, 60, 2) + last
    aliases = (most - first - len(chain)) // len(alias)
    text = b"\0" + struct.pack(">HHIH", 16, 1, 60, len(chain)) + chain
    return dns_answer(question, text + alias * aliases, 1 + aliases)


def renewing(most, turn):
    """A DNS answer of at most so many octets that gives one address of a name again and again, each time for a second
    more, and in each turn for more seconds than in the one before: all are kept."""
    question = b"\1a\0" + struct.pack(">HH", 1, 1)
    count = (most - 12 - len(question)) // 16
    answers = [b"\xc0\x0c" + struct.pack(">HHIH", 1, 1, ttl, 4) + inputs.peer_of(0, 0) for ttl in range(1 + turn * count, 1 + (turn + 1) * count)]
    return dns_answer(question, b"".join(answers), count)


# ---- Stores

def addresses_of(kind, number, count):
    """So many addresses, ascending, that no other kind and number has."""
    return [bytes([kind]) + struct.pack(">I", number * 64 + n)[1:] for n in range(count)]


def host(number):
    return f"host{number}.example.com"


def bulb_store(path):
    """A store with a Thing whose file lets it begin connections to everybody."""
    file = inputs.usage_file(inputs.url_of(0), {"from": [None]})
    inputs.write_store(path, [inputs.thing_item(0, inputs.url_of(0), [inputs.address_of(0)]), inputs.file_item(inputs.url_of(0), file)])


def full_file(file, hours):
    """A file with 16 entries a side, each for all Things of its maker, as long as a file may be."""
    tests = [{"ietf-mud:mud": {"same-manufacturer": [None]}}] * 16
    return inputs.usage_file(maker_url(file), {"from": tests, "to": tests}, MOST_FILE, **{"cache-validity": hours})


def maker_url(file):
    return f"https://maker.example.com/model{file}"


def full_store(path, part):
    """A store that holds all that a store may hold, but for a part of the Things alone."""
    items = [inputs.thing_item(thing, maker_url(thing % 128), addresses_of(10, thing, 4)) for thing in range(512 // part)]
    items += [inputs.file_item(maker_url(file), full_file(file, 48), full_file(file, 47)) for file in range(128)]
    items += [inputs.class_item(b"urn:class:%d" % number if number else b"urn:ietf:params:mud:dns", addresses_of(11, number, 64))
              for number in range(256)]
    prefixes = [b"\4" + bytes([172, 16, number, 0, 24]) for number in range(64)]
    items.append((4, b"", b"\1" + struct.pack(">H", 64) + b"".join(prefixes)))
    items += [inputs.name_item(host(number), addresses_of(12, number, 64)) for number in range(4096)]
    inputs.write_store(path, items)


def names_store(path):
    """A store with 4,096 names, each with 63 addresses that have ended at 5000 and, behind them, one that hasn't."""
    ends = [4000] * 63 + [FOR_EVER]
    inputs.write_store(path, [inputs.name_item(host(number), addresses_of(12, number, 64), ends) for number in range(4096)])


# ---- Requests

def one_head():
    """The longest head of a request."""
    head = b"GET /due HTTP/1.1\r\nMud-Moment: 5\r\n" + b"".join(b"X%02d: %s\r\n" % (n, b"y" * 120) for n in range(62)) + b"Y: %s\r\n\r\n"
    return head % (b"z" * (MOST_HEAD - len(head) + 2))


def names_again(names):
    """So many names with 64 addresses each, observed once and again."""
    for turn, number, name in itertools.product(range(2), range(64), range(names)):
        yield inputs.observed(host(name), f"198.18.{name % 256}.{number}", moment=inputs.MOMENT + turn)


def import_folder(path, part):
    """A folder with 100 of the longest files and 20,000 others."""
    os.mkdir(path)
    files = {f"{number}-a.json": lists_named(MOST_FILE) for number in range(100 // part)}
    for name, octets in {**files, **{f"name{number * 7919 % 100000}": b"" for number in range(20000 // part)}}.items():
        with open(f"{path}/{name}", "wb") as file:
            file.write(octets)


def octets_of(part):
    """What is read on standard input: the octets of each input by its name, or an iterator of them."""
    room = MOST_MESSAGE // part
    lease = posted("/leases", moment=5000, method="DELETE", address="10.0.0.0") + inputs.leased(0, "10.0.0.0", 3600, 5000)
    packet = inputs.tcp_frame(inputs.mac_of(0), bytes([10, 0, 0, 0]), bytes([10, 0, 1, 1]), 50000, 2)
    return {
        **{name: [form(MOST_FILE // part)] for name, form in FILES.items()},
        "options": [DHCP + b"\x0c\0" * ((room - len(DHCP)) // 2)],
        "pads": [DHCP + bytes(room - len(DHCP))],
        "tlvs": [LLDP + b"\x08\0" * ((room - len(LLDP)) // 2)],
        "body": [posted("/hear/dhcp", bytes(MOST_BODY // part))],
        "heads": [one_head()] * (20 // part),
        "bodies": [posted("/hear/dhcp", bytes(MOST_BODY))] * (300 // part),
        "tiny": [b"GET /due HTTP/1.1\nMud-Moment:5\n\n"] * (900000 // part),
        "names-again": names_again(4096 // part),
        "new-names": [inputs.observed(f"new{n}.example.com", "198.18.0.1", 60, 5000) for n in range(1000 // part)],
        "leases": [lease] * (100 // part),
        "packets": [posted("/packets", packet, 5000)] * (100000 // part),
    }


def make(folder):
    """Files NAME.whole and NAME.tenth of the folder for each input that is read on standard input; for import and for the
    stores the folders and files import.whole, full.whole.db and so on."""
    for size, part in (("whole", 1), ("tenth", 10)):
        for name, octets in octets_of(part).items():
            inputs.write_requests(folder / f"{name}.{size}", octets)
        captures = {"headers": ([extended_frame(1)] * 1000, 500 // part), "long": ([extended_frame(256)] * 100, 100 // part),
                    "empty": ([b""] * 1000, 3000 // part), "begins": (begins(1000000 // part), 1),
                    "pointers": ([answer_frame(pointing(MOST_DATAGRAM))], 20 // part),
                    "pointing": ([answer_frame(pointing(COMMON_DATAGRAM))], 20000 // part),
                    "renewals": ([answer_frame(renewing(COMMON_DATAGRAM, turn)) for turn in range(50 // part)], 1)}
        for name, (frames, times) in captures.items():
            inputs.write_capture(folder / f"{name}.{size}", frames, times)
        import_folder(folder / f"import.{size}", part)
        full_store(folder / f"full.{size}.db", part)
    bulb_store(folder / "open.db")
    inputs.write_store(folder / "dns.db", [inputs.thing_item(0, inputs.url_of(0), [inputs.address_of(0)]), inputs.SERVER])
    names_store(folder / "names.db")
