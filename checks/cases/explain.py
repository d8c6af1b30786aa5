"""Looks at what contrib/explain says of usage files: sentences, remarks, changes, refusals, their place, and its time."""
import copy
import itertools
import json
import os
import re
import subprocess
import sys
import time

from checks import explaining, texts
from checks.case import Case, ProgramCase
from checks.explaining import MODULE, ace, explained, octets_of, usage_file
from checks.program import PROGRAM

MUD, NONE = "ietf-mud:mud", [None]
URL = "https://lighting.example.com/lightbulb2000"
HUB, HEAD = "urn:example:hub", f"The usage file of {URL}"
SECONDS = 0.5
# each test by itself: its name, where it stands, its value, and what its sentence has to say; {end} and {name} are
# those of the peer's side, {own} is that of the Thing's own, {v} the IP version
TESTS = [
    ("manufacturer", (MUD, "manufacturer"), "Hub.example.com.", "a Thing of the manufacturer hub.example.com"),
    ("same-manufacturer", (MUD, "same-manufacturer"), NONE, "a Thing of its own manufacturer (lighting.example.com)"),
    ("model", (MUD, "model"), "HTTPS://Hub.example.com:443", "a Thing of the model https://hub.example.com/"),
    ("local-networks", (MUD, "local-networks"), None, "the local networks"),
    ("controller", (MUD, "controller"), HUB, f'of the class "{HUB}"'),
    ("my-controller", (MUD, "my-controller"), NONE, "bound as its own controller (my-controller)"),
    ("network", ("ipv{v}", "{end}-ipv{v}-network"), {4: "192.0.2.9/24", 6: "2001:db8::9/32"}, {4: "in 192.0.2.0/24", 6: "in 2001:db8::/32"}),
    ("name", ("ipv{v}", "ietf-acldns:{name}-dnsname"), "Cloud.example.net.", "cloud.example.net"),
    ("own", ("ipv{v}", "{own}-ipv{v}-network"), {4: "10.1.2.3/8", 6: "fd00::1/8"},
     {4: "the Thing's own address is in 10.0.0.0/8", 6: "the Thing's own address is in fd00::/8"}),
    ("dscp", ("ipv{v}", "dscp"), 46, "the DSCP is 46"),
    ("ecn", ("ipv{v}", "ecn"), 1, "the ECN is 1"),
    ("length", ("ipv{v}", "length"), 40, {4: "the total length is 40", 6: "the payload length is 40"}),
    ("ttl", ("ipv{v}", "ttl"), 1, {4: "the time to live is 1", 6: "the hop limit is 1"}),
    ("protocol", ("ipv{v}", "protocol"), 47, "47 (GRE)"),
    ("tcp", ("tcp",), {}, "TCP over IPv{v}"),
    ("udp", ("udp",), {}, "UDP over IPv{v}"),
    ("icmp", ("icmp",), {}, {4: "ICMP", 6: "ICMPv6"}),
    ("tcp-peer-eq", ("tcp", "{end}-port"), {"port": 8883}, "port 8883 (secure-mqtt) of"),
    ("tcp-own-eq", ("tcp", "{own}-port"), {"operator": "eq", "port": 80}, "its own port 80 (http)"),
    ("udp-peer-neq", ("udp", "{end}-port"), {"operator": "neq", "port": 5683}, "any port but 5683 (coap) of"),
    ("udp-own-neq", ("udp", "{own}-port"), {"operator": "neq", "port": 7}, "any port of its own but 7"),
    ("tcp-peer-lte", ("tcp", "{end}-port"), {"operator": "lte", "port": 1023}, "ports 0 to 1023 of"),
    ("tcp-own-gte", ("tcp", "{own}-port"), {"operator": "gte", "port": 1024}, "its own ports 1024 to 65535"),
    ("udp-peer-range", ("udp", "{end}-port"), {"lower-port": 5, "upper-port": 9}, "ports 5 to 9 of"),
    ("udp-own-range", ("udp", "{own}-port"), {"lower-port": 9, "upper-port": 9}, "its own port 9"),
    ("from-device", ("tcp", "ietf-mud:direction-initiated"), "from-device", "the Thing began the connection"),
    ("to-device", ("tcp", "ietf-mud:direction-initiated"), "to-device", "the other side began the connection"),
    ("flags", ("tcp", "flags"), "syn  ack", "of the TCP flags ack and syn alone are set"),
    ("flag", ("tcp", "flags"), "rst", "of the TCP flags rst alone is set"),
    ("no-flags", ("tcp", "flags"), "", "no TCP flag is set"),
    ("type", ("icmp", "type"), 3, {4: "of type 3 (destination unreachable)", 6: "of type 3 (time exceeded)"}),
    ("code", ("icmp", "code"), 4, "code 4"),
]


def value_at(value, version):
    """A value, or that of the IP version where it has two."""
    return value[version] if isinstance(value, dict) and set(value) == {4, 6} else value


def matches_of(tests, side, version):
    """The `matches` of several tests."""
    end, own = ("destination", "source") if side == "from" else ("source", "destination")
    matches = {}
    for _, place, value, _ in tests:
        at, steps = matches, [step.format(end=end, own=own, name=end[:3].replace("des", "dst").replace("sou", "src"), v=version) for step in place]
        for step in steps[:-1]:
            at = at.setdefault(step, {})
        at.setdefault(steps[-1], copy.deepcopy(value_at(value, version)))
    return matches


def go_together(one, other):
    """Whether two tests may stand in one entry: not at one place, and of one transport header."""
    kinds = {place[0] for _, place, _, _ in (one, other) if place[0] in ("tcp", "udp", "icmp")}
    return len(kinds) < 2 and one[1] != other[1]


def only(matches, forwarding="accept", side="from", version=4, **more):
    """What is said of a file with one entry."""
    return explained(octets_of(usage_file([(side, version, [ace("e", matches, forwarding)])], **more)))[side][0]


def kinds_of(entries):
    """The kinds of remarks on each entry."""
    return [[each["kind"] for each in entry["remarks"]] for entry in entries]


def entries(*written, version=4, side="from", **more):
    """What is said of a file with these entries, each its `matches` and its action."""
    aces = [ace(f"e{at}", matches, forwarding) for at, (matches, forwarding) in enumerate(written)]
    return explained(octets_of(usage_file([(side, version, aces)], **more)))[side]


def lines_of(*paths, words=()):
    """Status and lines of a run of explain where only ASCII can be written."""
    command, told = [sys.executable, explaining.SCRIPT, *words, "--mud", PROGRAM, *paths], {**os.environ, "PYTHONIOENCODING": "ascii"}
    run = subprocess.run(command, stdout=subprocess.PIPE, stderr=subprocess.PIPE, check=False, env=told)
    return run.returncode, run.stdout.decode(), run.stderr.decode()


class Table(Case):
    def test_sentences(self):
        """The table has a sentence for each rule, selector, action and flag of the code, and each can be filled in."""
        says = explaining.EXPLAIN.SAYS
        rules = re.findall(r'Rule::(\w+) => "', texts.read("crates/usage_walk/src/fault.rt"))
        self.note("rules", set(rules), set(says["refusal"]["rule"]))
        named = texts.read("docs/REFERENCE.md").partition("### MUD URLs")[2].partition("###")[0]
        self.note("rules of URLs", set(re.findall(r"^\| [0-9] `(\w+)`", named, re.M)), set(says["refusal"]["url"]))
        kinds = {*explaining.EXPLAIN.SELECTORS, "network", "name"}
        self.note("selectors by themselves and among others", [kinds, kinds], [set(says["selector"][form]) for form in ("one", "each")])
        self.note("actions", {"accept", "drop", "reject"}, set(says["action"]))
        for at, text in enumerate(strings_of(says)):
            self.holds(f"text {at}", not re.search(r"\{[^a-z]|\{[a-z_]*[^a-z_}]", text), f"not a plain placeholder: {text}")


def strings_of(value):
    """All texts of a table."""
    if isinstance(value, str):
        yield value
    elif isinstance(value, (dict, list)):
        for each in value.values() if isinstance(value, dict) else value:
            yield from strings_of(each)


class Sentences(ProgramCase):
    def test_each_test(self):
        """Each test by itself, in both directions and both IP versions."""
        for (side, verb), version, test in itertools.product((("from", "send"), ("to", "receive")), (4, 6), TESTS):
            said = only(matches_of([test], side, version), side=side, version=version)["words"]
            wanted = value_at(test[3], version).format(v=version)
            self.holds(f"{test[0]}, {side}, IPv{version}", f"The Thing may {verb} " in said and wanted in said and said.endswith("."), said)

    def test_pairs(self):
        """Each two tests that go together: the sentence says both."""
        pairs = [pair for pair in itertools.combinations(TESTS, 2) if go_together(*pair)]
        for side, version in (("from", 4), ("to", 6)):
            rows = [pairs[at:at + 120] for at in range(0, len(pairs), 120)]
            for row in rows:
                said = entries(*((matches_of(pair, side, version), "accept") for pair in row), version=version, side=side)
                for pair, entry in zip(row, said):
                    wanted = [value_at(test[3], version).format(v=version) for test in pair]
                    self.holds(" and ".join(test[0] for test in pair), all(part in entry["words"] for part in wanted), entry["words"])

    def test_whole_sentences(self):
        for matches, side, wanted in (
                ({}, "from", "The Thing may send any packet over IPv4 to any address."),
                ({}, "to", "The Thing may receive any packet over IPv4 from any address."),
                ({"tcp": {"destination-port": {"port": 443}}}, "from",
                 "The Thing may send TCP over IPv4 from any port of its own to port 443 (https) of any address, whoever began the connection."),
                ({"udp": {"source-port": {"port": 53}}, "ipv4": {"protocol": 17, "ecn": 0, "ttl": 9}}, "to",
                 "The Thing may receive UDP over IPv4 at any port of its own from port 53 (domain) of any address, "
                 "if the ECN is 0 and the time to live is 9."),
                ({"icmp": {"type": 8, "code": 0}}, "from", "The Thing may send ICMP of type 8 (echo request) and code 0 over IPv4 to any address."),
                ({"ipv4": {"protocol": 6}}, "to", "The Thing may receive any packet of protocol 6 (TCP) over IPv4 from any address."),
                ({MUD: {"controller": HUB, "local-networks": None}}, "from", "The Thing may send any packet over IPv4 to an address that "
                 f'is in the local networks and is of the class "{HUB}".')):
            self.note(json.dumps(matches), wanted, only(matches, side=side)["words"])

    def test_actions(self):
        for written, may, meant, remarks in (("accept", "may send", "accept", []), ("drop", "may not send", "drop", []),
                                             ("reject", "may not send", "drop", ["reject"])):
            for prefix in ("", MODULE):
                entry = only({MUD: {"my-controller": None}}, prefix + written)
                self.note(prefix + written, (True, meant, remarks), (may in entry["words"], entry["action"], kinds_of([entry])[0]))

    def test_defaults(self):
        """The entries of every Thing, also behind no entry of a file."""
        file = explained(octets_of(usage_file([])))
        for side, way in (("from", "send UDP over IPv4 and IPv6 from any port of its own to"), ("to", "receive UDP over IPv4 and IPv6 at any port of its own from")):
            wanted = [f'The Thing may {way} port {port} of an address of the class "urn:ietf:params:mud:{rule}".'
                      for port, rule in (("53 (domain)", "dns"), ("123 (ntp)", "ntp"))]
            self.note(side, wanted, [entry["words"] for entry in file["defaults"][side]])
        self.note("the rest", "Everything else that the Thing sends is dropped, also ping, HTTP to port 80, HTTPS to port 443 and SSH to port 22.",
                  file["rest"]["from"])
        self.note("needs", ["urn:ietf:params:mud:dns", "urn:ietf:params:mud:ntp"], [need["value"] for need in file["needs"]])

    def test_rest(self):
        """What is named of all that is dropped is what no entry lets through, or lets through to some alone."""
        for matches, forwarding, wanted in (
                ({}, "accept", "Everything else that the Thing sends is dropped."),
                ({}, "drop", "Everything else that the Thing sends is dropped, also ping, HTTP to port 80, HTTPS to port 443 and SSH to port 22."),
                ({"tcp": {"destination-port": {"operator": "neq", "port": 80}}}, "accept",
                 "Everything else that the Thing sends is dropped, also ping and HTTP to port 80."),
                ({"ipv4": {"protocol": 6, "destination-ipv4-network": "192.0.2.0/24"}}, "accept",
                 "Everything else that the Thing sends is dropped, also ping; and, to addresses to which no entry lets such a packet pass, "
                 "also HTTP to port 80, HTTPS to port 443 and SSH to port 22.")):
            file = explained(octets_of(usage_file([("from", 4, [ace("e", matches, forwarding)])])))
            self.note(json.dumps(matches), wanted, file["rest"]["from"])

    def test_rest_of_connections(self):
        """An entry by which the sender can't begin, for who begins or for its port, lets nothing of the examples through."""
        web = "HTTP to port 80, HTTPS to port 443"
        for side, other in (("from", "to"), ("to", "from")):
            for tests, wanted in (({"source-port": {"port": 22}}, f", also ping, {web} and SSH to port 22."),
                                  ({"ietf-mud:direction-initiated": f"{other}-device"}, f", also ping, {web} and SSH to port 22."),
                                  ({"ietf-mud:direction-initiated": f"{side}-device"}, ", also ping."),
                                  ({"source-port": {"operator": "gte", "port": 49152}}, ", also ping.")):
                rest = explained(octets_of(usage_file([(side, 4, [ace("e", {"tcp": tests})])])))["rest"][side]
                self.note(f"{side} {json.dumps(tests)}", wanted, rest.partition("dropped")[2])

    def test_rest_of_several(self):
        """What is dropped behind entries that speak of any address, and behind one that never decides."""
        tcp, hub = {"tcp": {"destination-port": {"operator": "neq", "port": 7}}}, {MUD: {"controller": HUB}}
        lists = [("from", 4, [ace("a", tcp), ace("b", hub)]), ("to", 6, [ace("c", {}, "drop"), ace("d", {})])]
        file = explained(octets_of(usage_file(lists)))
        self.note("some", "Everything else that the Thing sends is dropped; and, to addresses to which no entry lets such a packet pass, "
                  "also ping.", file["rest"]["from"])
        self.note("none", "Everything else that is sent to the Thing is dropped, also ping, HTTP to port 80, HTTPS to port 443 and SSH "
                  "to port 22.", file["rest"]["to"])

    def test_needs(self):
        peer = {"manufacturer": "a.example", "same-manufacturer": None, "model": "https://a.example/b", "local-networks": None,
                "controller": HUB, "my-controller": None}
        aces = [ace("e", {MUD: peer, "ipv4": {"ietf-acldns:dst-dnsname": "c.example"}})]
        file = explained(octets_of(usage_file([("from", 4, aces), ("from", 6, [ace("e", {MUD: {"controller": HUB}})])])))
        wanted = {"manufacturer": ["from 1"], "same-manufacturer": ["from 1"], "model": ["from 1"], "local-networks": ["from 1"],
                  "my-controller": ["from 1"], "name": ["from 1"], HUB: ["from 1", "from 2"], "urn:ietf:params:mud:dns": ["the default for DNS"],
                  "urn:ietf:params:mud:ntp": ["the default for NTP"]}
        found = {}
        for need in file["needs"]:
            found.setdefault(need["value"] if need["kind"] == "controller" else need["kind"], []).extend(need["entries"])
        self.note("needs", wanted, found)

    def test_needs_of_each_version(self):
        """What is needed says of which IP version, and by which entries of it."""
        tests = {MUD: {"controller": HUB, "local-networks": None, "my-controller": None, "model": "https://a.example/b"}}
        name = {"ipv6": {"ietf-acldns:dst-dnsname": "c.example"}}
        file = explained(octets_of(usage_file([("from", 4, [ace("a", tests)]), ("from", 6, [ace("b", tests), ace("c", name)])])))
        said = [need["words"] for need in file["needs"]]
        for wanted in (f'an IPv4 address has to be bound to the class "{HUB}" (from 1).', f'an IPv6 address has to be bound to the class "{HUB}" (from 2).',
                       'an IPv4 or IPv6 address has to be bound to the class "urn:ietf:params:mud:dns" (the default for DNS).',
                       "the IPv4 local networks have to be named (from 1).", "the IPv6 local networks have to be named (from 2).",
                       f"an IPv4 address has to be bound as my-controller-of {URL} (from 1).",
                       f"an IPv6 address has to be bound as my-controller-of {URL} (from 2).",
                       "the IPv6 addresses of the name c.example have to be told (from 3).",
                       "a Thing of the model https://a.example/b has to have a lease of an IPv4 address (from 1).",
                       "a Thing of the model https://a.example/b has to have a posted lease of an IPv6 address, as none is heard in DHCP (from 2)."):
            self.note(wanted, 1, said.count(wanted))
        self.note("how many", 11, len(said))

    def test_needs_of_what_decides(self):
        """An entry that never decides needs nothing, nor does a default that leaves nothing to decide."""
        hub, never = {MUD: {"controller": HUB}}, {MUD: {"my-controller": None}, "ipv4": {"protocol": 17}, "tcp": {}}
        dns = [(side, version, [ace("e", {"udp": {f"{end}-port": {"port": 53}}}, "drop")])
               for version in (4, 6) for side, end in (("from", "destination"), ("to", "source"))]
        both = [("dns", "either", "the default for DNS"), ("ntp", "either", "the default for NTP")]
        for what, lists, wanted in (
                ("as it is", [("from", 4, [ace("a", hub)])], [(HUB, "4", "from 1"), *both]),
                ("never", [("from", 4, [ace("a", never)])], both), ("none", dns, both[1:]),
                ("one side", [dns[0], dns[2]], [("dns", "either", "the default for DNS of what it receives"), both[1]]),
                ("one version", dns[:2], [("dns", "6", "the default for DNS"), both[1]]),
                ("one version of one side", dns[:1], [("dns", "6", "the default for DNS of what it sends"),
                                                      ("dns", "either", "the default for DNS of what it receives"), both[1]]),
                ("pointless", [(side, 4, [ace("a", {}), ace("b", hub)]) for side in ("from", "to")],
                 [("dns", "6", "the default for DNS"), ("ntp", "6", "the default for NTP")])):
            needs = explained(octets_of(usage_file(lists)))["needs"]
            self.note(what, wanted, [(need["value"].rpartition("mud:")[2], need["family"], *need["entries"]) for need in needs])

    def test_128_entries(self):
        aces = [ace(f"e{at}", {"ipv6": {"dscp": at % 64, "ecn": at // 64}}) for at in range(128)]
        file = explained(octets_of(usage_file([("from", 6, aces), ("to", 6, aces)])))
        for side in ("from", "to"):
            self.note(side, [(at + 1, f"e{at}", at % 64) for at in range(128)],
                      [(entry["number"], entry["name"], entry["dscp"]) for entry in file[side]])
        refused = explained(octets_of(usage_file([("from", 6, aces + [ace("more", {})])])))
        self.note("129", "EntriesFull", refused["refused"]["rule"])

    def test_free_texts(self):
        """Texts that a maker chose are shown in ASCII alone."""
        nasty = 'a"b\\c<script>\u202e\u200fd\n\x1b[31m\u05d0\U0001f600\x7f\u00e9'
        wanted = '"a\\u0022b\\u005cc\\u003cscript\\u003e\\u202e\\u200fd\\u000a\\u001b[31m\\u05d0\\ud83d\\ude00\\u007f\\u00e9"'
        value = usage_file([("from", 4, [ace(nasty, {MUD: {"controller": 'urn:<"x">'}})])], systeminfo=nasty, extensions=[nasty],
                           **{"mud-signature": nasty})
        value[MODULE + "acls"]["acl"] += [{"name": nasty}]
        status, out, _ = lines_of(self.put("nasty.json", octets_of(value)))
        self.note("status", 0, status)
        self.note("how often it is shown", 5, out.count(wanted))
        self.holds("the class", '"urn:\\u003c\\u0022x\\u0022\\u003e"' in out, out)
        self.note("other octets", set(), {c for c in out if not (c == "\n" or " " <= c <= "~")} | {c for c in out if c in "<>"})
        entry = explained(octets_of(value))["from"][0]
        self.note("--json has it as it is", nasty, entry["name"])


class Remarks(ProgramCase):
    def test_pointless(self):
        """An entry that an earlier one makes pointless, and one that isn't."""
        tcp, https = {"tcp": {}}, {"tcp": {"destination-port": {"port": 443}}}
        network = {"ipv4": {"destination-ipv4-network": "192.0.2.0/25"}}
        wider = {"ipv4": {"destination-ipv4-network": "192.0.2.0/24"}}
        model, maker = {MUD: {"model": "https://a.example/b"}}, {MUD: {"manufacturer": "a.example"}}
        own = {MUD: {"same-manufacturer": None}}
        first = {MUD: {"manufacturer": "lighting.example.com"}, "tcp": {"flags": "syn", "ietf-mud:direction-initiated": "from-device"}}
        but_5, around_5 = {"operator": "neq", "port": 5}, {"lower-port": 4, "upper-port": 6}
        for one, other, wanted in (
                (tcp, https, True), (https, tcp, False), ({"ipv4": {"protocol": 6}}, tcp, True), (tcp, {"ipv4": {"protocol": 6}}, False),
                (wider, network, True), (network, wider, False), (maker, model, True), (model, maker, False), (own, first, True),
                ({}, maker, True), ({"ipv4": {"source-ipv4-network": "0.0.0.0/0"}}, {}, True), ({"tcp": {"flags": "syn"}}, first, True),
                ({"tcp": {"source-port": but_5}}, {"tcp": {"source-port": around_5}}, False),
                ({"icmp": {"type": 8}}, {"icmp": {"type": 8, "code": 0}}, True), ({"ipv4": {"dscp": 1}}, {"ipv4": {"dscp": 2}}, False)):
            for action in ("accept", "drop"):
                said = kinds_of(entries((one, action), (other, "accept")))[1]
                self.note(f"{action} {json.dumps(one)}, then {json.dumps(other)}", wanted, "pointless" in said)
        lists = [("from", 4, [ace("e", wider)]), ("to", 4, [ace("e", {"ipv4": {"source-ipv4-network": "192.0.2.0/24"}})])]
        self.note("of the other side", [[]], kinds_of(explained(octets_of(usage_file(lists)))["to"]))
        said = entries((tcp, "accept"), (https, "drop"))[1]["remarks"][0]
        self.note("its words", "It never decides: from 1, which stands before it, matches all that it matches.", said["words"])

    def test_pointless_defaults(self):
        """An entry that leaves nothing of one IP version to the default for DNS."""
        for matches, action, wanted in (({}, "drop", ["dns", "ntp"]), ({"udp": {"destination-port": {"port": 53}}}, "accept", ["dns"]),
                                        ({MUD: {"controller": "urn:ietf:params:mud:ntp"}}, "drop", ["ntp"]), ({"tcp": {}}, "drop", [])):
            file = explained(octets_of(usage_file([("from", 6, [ace("e", matches, action)])])))
            said = [(entry["default"], each["words"]) for entry in file["defaults"]["from"] for each in entry["remarks"]]
            words = "Of IPv6 it never decides: from 1, which stands before it, matches all that it matches."
            self.note(json.dumps(matches), [(rule, words) for rule in wanted], said)

    def test_wide(self):
        """What is wider than it looks, each with its remark."""
        peer = {MUD: {"local-networks": None}}
        for matches, wanted in (
                ({}, ["any-address"]), (peer, ["local-no-port"]), ({**peer, "udp": {}}, ["local-no-port"]),
                ({**peer, "udp": {"source-port": {"port": 9}}}, []), ({**peer, "icmp": {}}, []),
                ({**peer, "tcp": {"source-port": {"operator": "gte", "port": 0}}}, ["all-ports", "local-no-port"]),
                ({MUD: {"my-controller": None}, "tcp": {"source-port": {"lower-port": 0, "upper-port": 65535}}}, ["all-ports"]),
                ({MUD: {"my-controller": None}, "udp": {"destination-port": {"operator": "lte", "port": 65535}}}, ["all-ports"]),
                ({"ipv4": {"ietf-acldns:dst-dnsname": "com"}}, ["top-level"]), ({"ipv4": {"ietf-acldns:dst-dnsname": "COM."}}, ["top-level"]),
                ({"ipv4": {"ietf-acldns:dst-dnsname": "a.com"}}, []), ({MUD: {"manufacturer": "example"}}, ["top-level"]),
                ({"ipv4": {"destination-ipv4-network": "1.2.3.4/0"}}, ["all-addresses", "any-address"]),
                ({"ipv4": {"protocol": 17, "dscp": 3}, "tcp": {}}, ["never"]), ({"ipv4": {"protocol": 58}, "icmp": {}}, ["never"])):
            self.note(json.dumps(matches), wanted, kinds_of([only(matches)])[0])
        said = only({MUD: {"manufacturer": "example"}})["remarks"][0]["words"]
        self.note("one label", "The name example has one label, as a whole top-level domain has. It means this one name, and none below it.", said)

    def test_wide_local_networks(self):
        """The local networks without a port: where nothing else narrows the peer, and where there are ports."""
        peer = {MUD: {"local-networks": None}}
        for more, wanted in (
                ({"ipv4": {"destination-ipv4-network": "10.1.1.1/32"}}, []), ({"ipv4": {"ietf-acldns:dst-dnsname": "c.example"}}, []),
                ({MUD: {"local-networks": None, "controller": HUB}}, []), ({"ipv4": {"protocol": 1}}, []), ({"ipv4": {"protocol": 58}}, []),
                ({"ipv4": {"protocol": 17}}, ["local-no-port"]), ({"ipv4": {"source-ipv4-network": "10.1.1.1/32"}}, ["local-no-port"]),
                ({"ipv4": {"protocol": 17}, "tcp": {}}, ["never"])):
            self.note(json.dumps(more), wanted, kinds_of([only({**peer, **more})])[0])
        self.note("a drop", [], kinds_of([only(peer, "drop")])[0])

    def test_wide_and_pointless(self):
        """What never decides opens nothing, whatever made it so."""
        for first in ("accept", "drop"):
            for matches in ({"tcp": {}}, {MUD: {"local-networks": None}}):
                self.note(f"{first}, then {json.dumps(matches)}", ["pointless"], kinds_of(entries(({}, first), (matches, "accept")))[1])

    def test_wider_than_a_drop(self):
        drop = {"ipv4": {"destination-ipv4-network": "192.0.2.0/25"}, "tcp": {"destination-port": {"port": 23}}}
        wide = {"ipv4": {"destination-ipv4-network": "192.0.2.0/24"}}
        self.note("wider", ["around-drop"], kinds_of(entries((drop, "reject"), (wide, "accept")))[1])
        self.note("its words", "It is wider than the drop of from 1 before it, which keeps what it drops.",
                  entries((drop, "drop"), (wide, "accept"))[1]["remarks"][0]["words"])
        self.note("elsewhere", [], kinds_of(entries((drop, "drop"), ({**wide, "udp": {}}, "accept")))[1])
        self.note("behind an accept", [], kinds_of(entries((drop, "accept"), (wide, "accept")))[1])
        tcp, http = {"tcp": {}}, {"tcp": {"destination-port": {"port": 80}}}
        for first, wanted in (("accept", []), ("drop", ["around-drop"])):
            kinds = kinds_of(entries((tcp, first), (http, "drop"), ({}, "accept")))
            self.note(f"a drop that never decides, behind an {first}", (["pointless"], wanted + ["any-address"]), (kinds[1], kinds[2]))

    def test_unnamed_list(self):
        value = usage_file([])
        value[MODULE + "acls"]["acl"] = [{"name": "left"}]
        self.note("a list that no policy names", ['No policy names the list "left", so nothing of it counts.'],
                  [each["words"] for each in explained(octets_of(value))["remarks"]])


class Changes(ProgramCase):
    def changed(self, old, new):
        """What changes from one file to another, each its entries."""
        paths = [self.put(f"{at}.json", octets_of(usage_file([("from", 4, [ace(*row) for row in rows])])))
                 for at, rows in enumerate((old, new))]
        change = json.loads(lines_of(*paths, words=["--json"])[1])
        return [[entry["name"] for entry in change[part]] for part in ("comes", "goes", "stays")] + [change["order"]["from"]]

    def test_same_under_another_name(self):
        tcp, udp = {"tcp": {"source-port": {"port": 5}}}, {"udp": {}}
        self.note("nothing", [[], [], ["a", "b"], "same"], self.changed([("a", tcp), ("b", udp)], [("a", tcp), ("b", udp)]))
        self.note("another name", [[], [], ["c"], "same"], self.changed([("a", tcp)], [("c", tcp)]))
        self.note("another order", [[], [], ["b", "a"], "changed"], self.changed([("a", tcp), ("b", udp)], [("b", udp), ("a", tcp)]))
        self.note("one comes", [["b"], [], ["a"], "same"], self.changed([("a", tcp)], [("a", tcp), ("b", udp)]))
        self.note("twice where it was once", [["b"], [], ["a"], "same"], self.changed([("a", tcp)], [("a", tcp), ("b", tcp)]))
        self.note("another action", [["a"], ["a"], [], "same"], self.changed([("a", tcp)], [("a", tcp, "drop")]))
        self.note("reject in place of drop", [[], [], ["a"], "same"], self.changed([("a", tcp, "drop")], [("a", tcp, "reject")]))
        for one, other in (({"tcp": {}}, {"tcp": {}, "ipv4": {"protocol": 6}}),
                           ({"tcp": {"source-port": {"port": 5}}}, {"tcp": {"source-port": {"lower-port": 5, "upper-port": 5}}}),
                           ({MUD: {"same-manufacturer": None}}, {MUD: {"manufacturer": "Lighting.example.com"}}),
                           ({"udp": {"source-port": {"operator": "gte", "port": 0}}}, {"udp": {}})):
            self.note(f"{json.dumps(one)} and {json.dumps(other)}", [[], [], ["b"], "same"], self.changed([("a", one)], [("b", other)]))

    def test_lines(self):
        status, out, _ = lines_of("examples/usage-files/made-lightbulb.json", "examples/usage-files/made-ttl-and-flags.json")
        self.note("two files", (0, texts.read("examples/explain/changes.txt")), (status, out))
        status, out, _ = lines_of("examples/usage-files/made-lightbulb.json", "examples/usage-files/made-list.json")
        wanted = texts.read("examples/explain/made-list.txt")
        self.note("a refused one", (3, wanted.replace("refuses the file", "refuses the new file")), (status, out))
        status, out, _ = lines_of("examples/usage-files/made-list.json", "examples/usage-files/made-empty.json")
        self.note("both are refused", (3, wanted.replace("refuses the file", "refuses the old file")), (status, out))

    def test_head(self):
        old = self.put("old.json", octets_of(usage_file([])))
        lists = [("from", 4, [ace("e", {MUD: {"controller": HUB}})])]
        new = self.put("new.json", octets_of(usage_file(lists, URL + "1", **{"cache-validity": 3})))
        change = json.loads(lines_of(old, new, words=["--json"])[1])
        self.note("what it says of itself", ["url", "hours"], [each["member"] for each in change["head"]])
        self.note("what is to be bound", [HUB], [need["value"] for need in change["needs"]])
        title = "What has to be bound, named or leased for it besides what the old file needs:\n"
        said = "".join(lines_of(old, new)[1].rpartition(title)[1:])
        self.note("its title", f'{title}- an IPv4 address has to be bound to the class "{HUB}" (from 1).\n', said)

    def test_needs_besides(self):
        """A need of another IP version or of another URL's own controller is one more."""
        mine = {MUD: {"controller": HUB, "my-controller": None}}
        old = self.put("old.json", octets_of(usage_file([("from", 4, [ace("a", mine)])])))
        for url, wanted in ((URL, [("controller", HUB, "6"), ("my-controller", URL, "6")]),
                            (URL + "1", [("controller", HUB, "6"), ("my-controller", URL + "1", "4"), ("my-controller", URL + "1", "6")])):
            new = self.put("new.json", octets_of(usage_file([("from", 4, [ace("a", mine)]), ("from", 6, [ace("b", mine)])], url)))
            needs = json.loads(lines_of(old, new, words=["--json"])[1])["needs"]
            self.note(url, wanted, [(need["kind"], need["value"], need["family"]) for need in needs])

    def test_about(self):
        """What the maker tells of itself is compared too."""
        old = self.put("old.json", octets_of(usage_file([], systeminfo="a lamp", **{"mfg-name": "A"})))
        new = self.put("new.json", octets_of(usage_file([], systeminfo="a <lamp>", **{"firmware-rev": "2"})))
        said = lines_of(old, new)[1].split("\n")[1:4]
        self.note("its lines", ['systeminfo: it was "a lamp", and is "a \\u003clamp\\u003e".', 'mfg-name: it was "A", and is not there.',
                                'firmware-rev: it was not there, and is "2".'], said)


class Refusals(ProgramCase):
    def test_each_rule(self):
        """For each rule a file that breaks it: its sentence, and its place in the text."""
        tcp = '"tcp": {"source-port": {"port": 5}, "flags": "syn"}'
        matches = json.loads("{" + tcp + ', "ipv4": {"protocol": 6}}')
        whole = octets_of(usage_file([("from", 4, [ace("e", matches)])], extensions=[])).decode()
        number, port = '"protocol": 6', '"port": 5'
        edits = {
            "Missing": ('"is-supported": true, ', ""), "WrongKind": ('"extensions": []', '"extensions": {}'),
            "Version": ('"mud-version": 1', '"mud-version": 2'), "Url": ("https://", "http://"), "Update": ("2019-01-28", "2019-02-30"),
            "Validity": ('"extensions": []', '"cache-validity": 0'), "AclType": ("ipv4-acl-type", "mixed"),
            "NoSuchAcl": ('{"access-list": [{"name": "from4"}', '{"access-list": [{"name": "none"}'),
            "UnknownMatch": ('"flags"', '"fl~a/g\\u00fcs"'), "TwoLayers": ('"ipv4"', '"udp": {}, "ipv4"'),
            "PortRange": (port, '"port": 5, "lower-port": 1'), "NameSide": (number, '"ietf-acldns:src-dnsname": "a"'),
            "DirectionNotTcp": (tcp, '"udp": {"ietf-mud:direction-initiated": 1}'), "Action": ('"accept"', '"pass"'),
            "NameText": (number, '"ietf-acldns:dst-dnsname": "-"'), "Family": ('"ipv4":', '"ipv6":'),
            "RepeatedName": ('[{"name": "from4"}', '[{"name": "from4"}, {"name": "from4"}'),
            "PrefixText": (number, '"source-ipv4-network": "1.2.3.4"'), "Range": (number, '"protocol": 256'),
            "DirectionText": ('"flags": "syn"', '"ietf-mud:direction-initiated": "both"'),
            "Operator": (port, '"operator": "lt", "port": 5'), "FlagText": ('"syn"', '"sin"')}
        for rule, (old, new) in edits.items():
            self.holds(f"{rule}, the edit", old in whole, f"there is no {old}")
            self.refused(rule, json.dumps(json.loads(whole.replace(old, new)), indent=1))
        self.refused("EntriesFull", json.dumps(usage_file([("to", 6, [ace(str(at), {}) for at in range(129)])]), indent=1))

    def refused(self, rule, text):
        """A file that breaks this rule, at the line where the last step of its path stands."""
        said = explained(text.encode())["refused"]
        self.note(rule, rule, said["rule"])
        self.holds(f"{rule}, its words", explaining.EXPLAIN.SAYS["refusal"]["rule"][rule] in said["words"], said["words"])
        line = text.split("\n")[said["line"] - 1][said["column"] - 1:]
        step = json.dumps(explaining.EXPLAIN.steps_of(said["path"])[-1])
        is_there = line.startswith(step) or rule == "Missing" or (line.startswith("{") and step[1:-1].isdigit())
        self.holds(f"{rule}, its place", is_there, f"{step}: {line}")

    def test_what_sentences_cover(self):
        """Files that break a rule in another way than most do: its sentence covers them too."""
        port, digits = {"tcp": {"source-port": {"port": 77777}}}, "A number stands in digits alone, up to 18,446,744,073,709,551,615"
        for text in ("-1", "5.0", "5e0", "18446744073709551616"):
            self.covered(f"port {text}", port, "WrongKind", digits, text)
        self.covered("an empty list", {MUD: {"local-networks": []}}, "WrongKind", "an empty leaf is [null] or null.")
        self.covered("no number at all", port, "Json", "The file can't be read as JSON,", "1e999")
        self.covered("half a pair", port, "Json", "The file can't be read as JSON,", '"\\ud800"')
        self.covered("an operator", {"tcp": {"source-port": {"operator": "eq", "lower-port": 1, "upper-port": 2}}}, "PortRange",
                     "a range stands beside a single port or an operator.")
        self.covered("a test of a drop", {"l3": {}}, "UnknownMatch", "Passing over it would match more than the entry says.")

    def covered(self, what, matches, rule, sentence, text=""):
        """An entry that drops, whose number 77777 is this text, is refused by this rule, in this sentence."""
        octets = octets_of(usage_file([("from", 4, [ace("e", matches, "drop")])])).replace(b"77777", text.encode())
        said = explained(octets)["refused"]
        self.note(what, (rule, True), (said["rule"], sentence in said["words"]))

    def test_digit_names(self):
        """A member whose name is made of digits is no element of a list, and is shown escaped as any other."""
        for name, shown in (("5", "5"), ("\u0665", "\\u0665"), ("\u00b2", "\\u00b2")):
            octets = json.dumps(usage_file([("from", 4, [ace("e", {"tcp": {name: 1}})])]), indent=1, ensure_ascii=False).encode()
            status, out, errors = lines_of(self.put("file.json", octets))
            self.note(f"{shown}, status", (3, ""), (status, errors))
            self.holds(shown, f'by its rule UnknownMatch: the member "{shown}" (' in out and f'"{shown}": 1' in out, out)

    def test_missing_members(self):
        """Of a missing member the object is shown in which it would stand, and not its name."""
        text = octets_of(usage_file([("from", 4, [ace("e", {})])])).decode().replace('"actions": {"forwarding": "accept"}', '"actions":\n {}')
        said = explained(text.encode())["refused"]
        self.note("the rule", ("Missing", "/ietf-access-control-list:acls/acl/0/aces/ace/0/actions/forwarding"), (said["rule"], said["path"]))
        self.note("its place", (2, 2), (said["line"], said["column"]))
        said = explained(b" {}")["refused"]
        self.note("in the whole", ("Missing", 1, 2), (said["rule"], said["line"], said["column"]))

    def test_whole_files(self):
        """What is wrong with a file as a whole."""
        deep = b"[" * 128 + b"]" * 128
        for what, octets, rule, said in (
                ("too long", b" " * 262145, "TooLong", "The file has more than 262,144 octets."), ("empty", b"", "Json", "line 1, column 1."),
                ("cut", b'{"a":\n [1, ', "Json", "line 2, column"), ("no UTF-8", b'{"a\xff": 1}', "Json", "From octet 3 on it is no UTF-8."),
                ("deep", deep, "Json", "127 of its containers"), ("half a pair", b'"\\ud800"', "Json", "can't be read as JSON"),
                ("no number", b"[NaN]", "Json", "can't be read as JSON"), ("a mark", b"\xef\xbb\xbf{}", "Json", "can't be read as JSON"),
                ("another kind", b" [] ", "WrongKind", "Line 1, column 2:")):
            status, out, _ = lines_of(self.put("file.json", octets))
            self.note(f"{what}, status", 3, status)
            self.holds(what, f"refuses the file by its rule {rule}: the file as a whole." in out and said in out, out)

    def test_url_rules(self):
        for rule, url in (("Empty", ""), ("Octet", "https://a.example/\u202e"), ("Scheme", "http://a.example/"), ("Host", "https:///a"), ("Port", "https://a.example:0/"),
                          ("Path", "https://a.example/<"), ("UserInfo", "https://b@a.example/"), ("Fragment", "https://a.example/#"),
                          ("Long", "https://a.example/" + "b" * 250)):
            said = explained(octets_of(usage_file([], url)))["refused"]
            self.note(rule, ("Url", rule), (said["rule"], said["url"]))
            sentence = explaining.EXPLAIN.SAYS["refusal"]["url"][rule].split("{octet}")[-1]
            self.holds(f"{rule}, its words", sentence in said["words"], said["words"])

    def test_last_of_two(self):
        """Of two members with one name the last is shown."""
        text = octets_of(usage_file([])).decode().replace('"mud-version": 1', '"mud-version": 1,\n "mud-version": 2')
        self.note("line", 2, explained(text.encode())["refused"]["line"])

    def test_what_fails(self):
        """What can't be read or run, and words that are none."""
        bulb = "examples/usage-files/made-lightbulb.json"
        for words, status in ((["nowhere.json"], 1), ([bulb, "--mud", "./nowhere"], 1), ([], 2), (["a", "b", "c"], 2), (["a", "--what"], 2)):
            self.note(str(words), (status, ""), lines_of(*words)[:2])


class Examples(ProgramCase):
    def test_files(self):
        """Of each file of examples/usage-files the lines that were read beside it."""
        statuses = dict(line.split("\t") for line in texts.lines("examples/usage-files/expected.tsv")[1:] if line)
        for name, status in statuses.items():
            ended, out, errors = lines_of(f"examples/usage-files/{name}.json")
            self.note(name, (int(status), texts.read(f"examples/explain/{name}.txt"), ""), (ended, out, errors))


class Longest(ProgramCase):
    alone = True

    def aces(self, side, action):
        """128 entries, which differ in their networks alone."""
        peer, own = ("destination", "source") if side == "from" else ("source", "destination")
        layer = {"flags": "ack syn", **{f"{end}-port": {"operator": "neq", "port": 7} for end in ("source", "destination")}}
        for at in range(128):
            ip = {f"{peer}-ipv4-network": f"10.{at}.0.0/16", f"{own}-ipv4-network": f"10.{127 - at}.0.0/16", "protocol": 6, "ttl": 64}
            matches = {MUD: {"controller": HUB, "local-networks": None}, "ipv4": ip, "tcp": layer}
            yield ace(f"e{at}", matches, "drop" if at < 64 else action)

    def longest(self, action):
        """A file of 262,144 octets with all entries that a file may have."""
        lists = [(side, 4, list(self.aces(side, action))) for side in ("from", "to")]
        room = 262144 - len(octets_of(usage_file(lists, systeminfo="")))
        return octets_of(usage_file(lists, systeminfo="x" * room))

    def test_seconds(self):
        """The longest file, and the longest that is refused at its end, in half a second each; the best of five tries counts."""
        for action, status in (("accept", 0), ("axxept", 3)):
            path, taken = self.put("longest.json", self.longest(action)), []
            self.note("octets", 262144, os.path.getsize(path))
            for _ in range(5):
                begun = time.monotonic()
                self.note(f"{action}, status", status, lines_of(path)[0])
                taken.append(time.monotonic() - begun)
            self.holds(f"{action}, seconds", min(taken) <= SECONDS, f"{min(taken):.2f} seconds")
