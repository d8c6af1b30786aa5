"""Gets what a maker's server has at an https URL, for the programs that stand beside this file.

A Thing chooses the URL, and nobody knows the server. So what it may do is bounded: three seconds until it is
connected, twenty in all, so many octets and no more, which are counted as they come, and three redirects within
the same server. The name is looked up once; its addresses are looked at, and one of these is what curl connects
to. Of the machine's own addresses and those of private networks none is asked, unless the rules say so.
"""
import collections
import ipaddress
import re
import socket
import subprocess
import time
import urllib.parse

CONNECT = 3
WHOLE = 20
REDIRECTS = 3
HEADS = 65536
AGENT = "mud-fetch"
# what an https URL is: a host or a literal address, a port, and a path of printable characters
FORM = re.compile(r"https://(\[[0-9a-fA-F:.]+\]|[A-Za-z0-9._-]+)(?::([0-9]{1,5}))?(/[!-~]*)?")
# networks of which no address is one of a server in the Internet, though Python's list lets them through
ELSEWHERE = [ipaddress.ip_network(text) for text in ("::/96", "2002::/16", "fec0::/10", "64:ff9b:1::/48")]
TRANSLATED = ipaddress.ip_network("64:ff9b::/96")
# how curl ends where nobody answers as a server of https does
DEAD = (5, 6, 7, 28, 35, 52, 56, 60)

# a folder that isn't there: no anchors but those of a file
NOWHERE = "/nonexistent"

# private: whether addresses of private networks are asked; near: the networks that the machine is in, none of which is
# asked else; trust: a file of anchors, or None for the system's; proxy: its URL, or None; language: what is preferred
Rules = collections.namedtuple("Rules", "private near trust proxy language", defaults=(False, (), None, None, "en"))


class NotGot(Exception):
    """Why nothing came, in words. A dead server is one that nobody should ask again soon."""

    def __init__(self, words, dead=False):
        super().__init__(words)
        self.dead = dead


def readable(text, most=200):
    """A server's text as one line of printable characters."""
    return "".join(one if one.isprintable() else "\N{REPLACEMENT CHARACTER}" for one in text[:most])


def place_of(url):
    """The host and the port of a URL."""
    form = FORM.fullmatch(url)
    if not form or not 0 < int(form[2] or 443) < 65536:
        raise NotGot(f"it is no https URL: {readable(url)}")
    return form[1].lower(), int(form[2] or 443)


def is_public(address):
    """Whether an address is one of a server in the Internet."""
    if address.version == 6 and address in TRANSLATED:
        return is_public(ipaddress.ip_address(address.packed[12:]))
    within = any(address.version == network.version and address in network for network in ELSEWHERE)
    return address.is_global and not address.is_multicast and not within


def is_own(address):
    """Whether an address is the machine's own: only then can it be listened on."""
    family = socket.AF_INET if address.version == 4 else socket.AF_INET6
    with socket.socket(family, socket.SOCK_DGRAM) as one:
        try:
            one.bind((str(address), 0))
        except OSError:
            return False
    return True


def is_near(address, rules):
    """Whether an address is in a network that the machine is in."""
    return any(address.version == network.version and address in network for network in rules.near)


def addresses_of(host, rules, until):
    """The addresses of a host, each of which may be asked."""
    try:
        found = subprocess.run(["getent", "ahosts", "--", host.strip("[]")], stdin=subprocess.DEVNULL, capture_output=True,
                               timeout=max(0.1, until - time.monotonic()), check=False).stdout.decode("ascii", "replace")
    except subprocess.TimeoutExpired:
        raise NotGot("its name wasn't found in time", dead=True) from None
    texts = dict.fromkeys(line.split()[0].partition("%")[0] for line in found.splitlines() if line.strip())
    if not texts:
        raise NotGot("its name has no address", dead=True)
    addresses = [ipaddress.ip_address(text) for text in texts]
    for address in addresses:
        if not rules.private and (not is_public(address) or is_own(address) or is_near(address, rules)):
            raise NotGot(f"its name has the address {address}, which is of a private network or of this machine's", dead=True)
    return addresses


def is_literal(host):
    """Whether a host is an address itself, which curl connects to as it is."""
    try:
        ipaddress.ip_address(host.strip("[]"))
    except ValueError:
        return False
    return True


def words_of_curl(url, accept, rules, until):
    """The words of a run of curl that asks for the URL once."""
    host, port = place_of(url)
    words = ["curl", "-q", "--silent", "--show-error", "--include", "--suppress-connect-headers", "--globoff",
             "--path-as-is", "--proto", "=https", "--tlsv1.2", "--connect-timeout", str(CONNECT), "-A", AGENT,
             "-H", f"Accept: {accept}", "-H", f"Accept-Language: {rules.language}"]
    if rules.trust:
        words += ["--cacert", rules.trust, "--capath", NOWHERE]
    if rules.proxy:
        words += ["--noproxy", "", "--proxy", rules.proxy]
    else:
        addresses = [f"[{it}]" if it.version == 6 else str(it) for it in addresses_of(host, rules, until)]
        words += ["--noproxy", "*"]
        if not is_literal(host):
            words += ["--resolve", f"{host}:{port}:{','.join(addresses)}"]
    return words + ["--max-time", f"{max(0.1, until - time.monotonic()):.1f}", "--", url]


def answered(words, most):
    """The octets that curl writes, head and body, which are no more than these."""
    with subprocess.Popen(words, stdin=subprocess.DEVNULL, stdout=subprocess.PIPE, stderr=subprocess.PIPE) as curl:
        octets = curl.stdout.read(HEADS + most + 1)
        if len(octets) > HEADS + most:
            curl.kill()
            return octets
        said = curl.stderr.read().decode("utf-8", "replace").strip()
    if curl.returncode:
        words = re.sub(r"^curl: \([0-9]+\) | after [0-9]+ m.*", "", said.split("\n")[0])
        raise NotGot(readable(words) or f"curl ended with {curl.returncode}",
                     dead=curl.returncode in DEAD)
    return octets


def location_of(head):
    """The place to which a head sends on, or None."""
    for line in head.split(b"\n"):
        name, _, value = line.partition(b":")
        if name.strip().lower() == b"location" and re.fullmatch(rb"[!-~]+", value.strip()):
            return value.strip().decode("ascii")
    return None


def head_and_body(octets):
    """The status, the place of a redirect and the body of an answer; what goes before it is passed over."""
    while True:
        parts = re.split(rb"\r?\n\r?\n", octets, maxsplit=1)
        status = re.match(rb"HTTP/[0-9.]+ ([0-9]{3})", parts[0])
        if not status or len(parts) != 2 or len(parts[0]) > HEADS:
            raise NotGot("the server's answer has no head")
        octets = parts[1]
        if status[1][:1] != b"1":
            return int(status[1]), location_of(parts[0]), octets


def get(url, most, accept, rules, until):
    """The octets at the URL, at most so many, before this moment of the monotonic clock."""
    until, here = min(until, time.monotonic() + WHOLE), url
    for _ in range(1 + REDIRECTS):
        status, place, body = head_and_body(answered(words_of_curl(here, accept, rules, until), most))
        if status == 200:
            if len(body) > most:
                raise NotGot(f"it has more than {most} octets")
            return body
        if status not in (301, 302, 303, 307, 308) or not place:
            raise NotGot(f"the server answers {status}")
        try:
            here = urllib.parse.urldefrag(urllib.parse.urljoin(here, place))[0]
        except ValueError:
            raise NotGot(f"the server sends to what is no URL: {readable(place)}") from None
        if place_of(here) != place_of(url):
            raise NotGot(f"the server sends elsewhere: {readable(here)}")
    raise NotGot(f"the server sends on more than {REDIRECTS} times")
