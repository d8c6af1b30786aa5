"""Rules of nftables of the lists of 'mud export', for the programs that stand beside this file.

Each Thing has a table of its own, so a packet between two has to pass both.
"""
import ipaddress
import json

MODULE = "ietf-access-control-list:acls"
OPERATORS = {"eq": "", "neq": "!= ", "lte": "<= ", "gte": ">= "}
# the octet of flags of TCP
FLAGS = {"cwr": 128, "ece": 64, "urg": 32, "ack": 16, "psh": 8, "rst": 4, "syn": 2, "fin": 1}
UPKEEP = (
    "ether type ip udp sport 67 udp dport 68 accept",
    "ether type ip ip saddr 0.0.0.0 udp sport 68 udp dport 67 accept",
    "ether type ip ip daddr 255.255.255.255 udp sport 68 udp dport 67 accept",
    "ether type ip6 ip6 hoplimit 255 icmpv6 type { 133, 134, 135, 136, 137 } accept",
)
# no list speaks of frames with a VLAN tag, and what stands behind it isn't looked for
TAGGED = "ether type { 8021q, 8021ad } counter drop"
# the longest time of an element, in seconds: nft counts milliseconds in 32 bits
LONGEST = 4_000_000
# A packet that opens begins its connection, as the manager has it: SYN without ACK and RST. Any other one belongs to a
# connection of which a packet passed: what the kernel takes up in the midst isn't confirmed before.
OPENS = "tcp flags & (syn | rst | ack) == syn"
# the tests of each rule of an entry that asks whether a packet's sender began the connection, or its receiver
BEGUN = {"by sender": (OPENS, "ct status confirmed ct direction original"), "by receiver": (OPENS.replace("==", "!=") + " ct direction reply",)}
# lists by which all is dropped
NOTHING = [{"name": f"{side}-v{version}", "aces": {"ace": []}} for side in ("from", "to") for version in "46"]
LEASED = ("manufacturer", "same-manufacturer", "model")


def name_of(mac):
    """The name of a Thing's table."""
    return "mud_" + mac.replace(":", "")


def port_test(port):
    """A port's operator or range, as nft writes it."""
    if "lower-port" in port:
        return "%d-%d" % (port["lower-port"], port["upper-port"])
    return OPERATORS[port["operator"]] + str(port["port"])


def header_tests(header, version):
    """The tests of the IP header."""
    name = "ip" if version == "4" else "ip6"
    rules = []
    for member, field in (("source-ipv%s-network", "saddr"), ("destination-ipv%s-network", "daddr")):
        if member % version in header:
            rules.append("%s %s %s" % (name, field, header[member % version]))
    for member in ("dscp", "ecn", "length"):
        if member in header:
            rules.append("%s %s %d" % (name, member, header[member]))
    if "ttl" in header:
        rules.append("%s %d" % ("ip ttl" if version == "4" else "ip6 hoplimit", header["ttl"]))
    return rules


def transport_tests(matches, version, side):
    """The tests of the transport header, or the protocol where there is no such header; in the end a word of BEGUN where
    it is asked who began."""
    for protocol in ("tcp", "udp", "icmp"):
        if protocol not in matches:
            continue
        tests = matches[protocol]
        name = "icmpv6" if protocol == "icmp" and version == "6" else protocol
        rules = ["meta l4proto " + name]
        for member, field in (("source-port", "sport"), ("destination-port", "dport")):
            if member in tests:
                rules.append("%s %s %s" % (name, field, port_test(tests[member])))
        for member in ("type", "code"):
            if member in tests:
                rules.append("%s %s %d" % (name, member, tests[member]))
        if "flags" in tests:
            rules.append("tcp flags == 0x%02x" % sum(FLAGS[word] for word in tests["flags"].split()))
        if "ietf-mud:direction-initiated" in tests:
            own = (tests["ietf-mud:direction-initiated"] == "from-device") == (side == "from")
            rules.append("by sender" if own else "by receiver")
        return rules
    header = matches.get("ipv" + version, {})
    return ["meta l4proto %d" % header["protocol"]] if "protocol" in header else []


def matches_of(octets):
    """The matches of a usage file's entries, each behind its side, in the order of their numbers."""
    file = json.loads(octets)
    lists = {acl["name"]: acl for acl in file.get(MODULE, {}).get("acl", [])}
    for side in ("from", "to"):
        policy = file["ietf-mud:mud"].get(side + "-device-policy", {}).get("access-lists", {}).get("access-list", [])
        for named in policy:
            for item in lists[named["name"]].get("aces", {}).get("ace", []):
                yield side, item.get("matches", {})


def asks(octets):
    """Whether an entry of a usage file asks who began a connection."""
    return any("ietf-mud:direction-initiated" in matches.get("tcp", {}) for _, matches in matches_of(octets))


def entries_of(octets):
    """The entries of a usage file for each side, in the order of their numbers: the name that each asks for, or None,
    and whether it asks for leases."""
    found = {"from": [], "to": []}
    for side, matches in matches_of(octets):
        headers = [matches.get("ipv4", {}), matches.get("ipv6", {})]
        names = [header[member] for header in headers for member in header if member.endswith("-dnsname")]
        name = names[0].lower().removesuffix(".") if names else None
        found[side].append((name, any(member in matches.get("ietf-mud:mud", {}) for member in LEASED)))
    return found


class Expiries:
    """When the addresses of a file's entries end: each at the first of its name's and its lease's expiries."""

    def __init__(self, octets, leases, names):
        """Of a usage file, the expiries of all leases by their addresses, and those of each name's addresses."""
        self.entries = entries_of(octets)
        self.leases, self.names = leases, names

    def is_timed(self, side, rule):
        """Whether the entry by which an item is called has addresses that end."""
        return rule.startswith("e") and any(self.entries[side][int(rule[1:]) - 1])

    def of(self, side, rule, address):
        """The expiry of an address in an entry, or None where it has none."""
        name, leased = self.entries[side][int(rule[1:]) - 1]
        ends = [self.names[name][address]] if name else []
        ends += [self.leases[address]] if leased else []
        return min((end for end in ends if end is not None), default=None)


class Table:
    """The table of a Thing, of its lists. Without expiries each address stands for good. With the gateway the bridge's
    own traffic goes through it too. Without connections what asks who began one is left out where it accepts, and
    asks no longer where it drops: so less is allowed, never more."""

    def __init__(self, mac, lists, expiries=None, gateway=False, connections=True):
        self.mac, self.lists, self.expiries = mac, lists, expiries
        self.gateway, self.connections = gateway, connections

    def rules_of(self, item, version, side, peers=None, name=None):
        """The rules of an item, or of those of an entry whose peers are a set."""
        matches = item["matches"]
        tests = header_tests(matches.get("ipv" + version, {}), version) + transport_tests(matches, version, side)
        if peers:
            field = "%s %s " % ("ip" if version == "4" else "ip6", "daddr" if side == "from" else "saddr")
            tests = [field + "@" + peers if test.startswith(field) else test for test in tests]
        accepts = item["actions"]["forwarding"] == "accept"
        ways = BEGUN[tests.pop()] if tests and tests[-1] in BEGUN else ("",)
        if ways[0] and not self.connections:
            ways = () if accepts else ("",)
        action = ["counter", "accept" if accepts else "drop", 'comment "%s"' % (name or item["name"])]
        return [" ".join([*tests, *filter(None, [way]), *action]) for way in ways]

    def parts_of(self, acl, now):
        """The sets and the rules of a list. The items of an entry whose addresses end are one rule over a set, in
        which each address has a time of its own, up to a second before its expiry."""
        side, version = acl["name"].split("-v")
        member = "%s-ipv%s-network" % ("destination" if side == "from" else "source", version)
        sets, rules = {}, []
        for item in acl["aces"]["ace"]:
            rule = item["name"].rpartition("-")[0]
            if not self.expiries or not self.expiries.is_timed(side, rule):
                rules += self.rules_of(item, version, side)
                continue
            peers = "%s_%s_v%s" % (rule, side, version)
            if peers not in sets:
                sets[peers] = []
                rules += self.rules_of(item, version, side, peers, rule)
            address = item["matches"]["ipv" + version][member].partition("/")[0]
            end = self.expiries.of(side, rule, str(ipaddress.ip_address(address)))
            if end is None:
                sets[peers].append(address)
            elif end - now > 1:
                sets[peers].append("%s timeout %dms" % (address, 1000 * min(end - now - 1, LONGEST)))
        return sets, rules

    def text(self, now=0):
        """The table's lines. What stands there is replaced at once."""
        table = "table bridge " + name_of(self.mac)
        yield from (table, "delete " + table, table + " {")
        for acl in self.lists:
            sets, rules = self.parts_of(acl, now)
            for name, elements in sets.items():
                yield "  set " + name + " {"
                yield "    type ipv%s_addr" % acl["name"][-1]
                yield "    flags timeout"
                if elements:
                    yield "    elements = { %s }" % ", ".join(elements)
                yield "  }"
            yield "  chain " + acl["name"] + " {"
            for rule in rules:
                yield "    " + rule
            yield "    counter drop"
            yield "  }"
        for side in ("from", "to"):
            yield "  chain " + side + " {"
            for rule in (TAGGED, *UPKEEP):
                yield "    " + rule
            for version, kind in (("4", "ip"), ("6", "ip6")):
                yield "    ether type %s goto %s-v%s" % (kind, side, version)
            yield "  }"
        yield from self.hooks()
        yield "}"

    def hooks(self):
        """The chains that lead to the Thing's: what the bridge forwards, and what it takes and sends itself. What it
        only looks at, as for a capture, isn't its own."""
        for hook in ("forward", "input", "output") if self.gateway else ("forward",):
            yield "  chain " + hook + " {"
            yield "    type filter hook %s priority 0; policy accept;" % hook
            if hook == "input":
                yield "    meta pkttype other accept"
            if hook != "output":
                yield "    ether saddr %s goto from" % self.mac
            if hook != "input":
                yield "    ether daddr %s goto to" % self.mac
            yield "  }"
