"""What the program may write: the forms of its lines and of the console's answers, as docs/REFERENCE.md gives them.

`look(reader, status, octets)` raises Wrong where a run of a reader has ended or written otherwise.
"""
import ipaddress
import json
import re

from checks import second_reading
from checks.session import PHRASES


class Wrong(AssertionError):
    """What is wrong with a run."""


# ---- The forms of lines

MAC = r"(?:[0-9a-f]{2}:){5}[0-9a-f]{2}"
NUMBER = r"(?:0|[1-9][0-9]{0,19})"
ADDRESS = r"[0-9a-f.:]+"
HOST = r"[a-z0-9_](?:[a-z0-9_.-]*[a-z0-9_])?"
URL_OCTET = r"[A-Za-z0-9._~!$&'()*+,;=:@/%-]"
URL = rf"https://{HOST}(?::[1-9][0-9]{{0,4}})?/{URL_OCTET}*(?:\?(?:{URL_OCTET}|\?)*)?"
URL_FAULT = rf"(?:Empty|Long|Octet {NUMBER}|Scheme|Fragment|UserInfo|Host|Port|Path {NUMBER})"
PATH = r"/(?:[\x21-\x5b\x5d-\x7e]|\\x[0-9a-f]{2})+"
RULES = ("Missing WrongKind Version Update Validity NoSuchAcl AclType UnknownMatch TwoLayers PortRange NameSide DirectionNotTcp Action"
         " EntriesFull NameText RepeatedName Family PrefixText Range DirectionText Operator FlagText").replace(" ", "|")
PART = "(?:ethernet|tag|ip|extension|transport)"
RULING = rf"(?:accept:{NUMBER}|drop:{NUMBER}|default-dns|default-ntp|drop:no-file|drop:no-match|drop:held)"
VERDICT = rf"(?:pass unmanaged|pass link|drop unreadable {PART}|(?:pass|drop)(?: from={RULING})?(?: to={RULING})?)"
FRAME = (rf"(?:link|unreadable {PART}|packet {ADDRESS} {ADDRESS} {NUMBER}"
         rf"(?: tcp {NUMBER} {NUMBER} {NUMBER}| udp {NUMBER} {NUMBER}| icmp {NUMBER} {NUMBER})?)")
# of a classic capture, or, with an offset each, of one in pcapng
CAPTURE_FAULT = (rf"fault (?:(?:Magic|Version|LinkType|Many)(?: {NUMBER})?|(?:Cut|Long|Length|Interface|Resolution|Late|PacketForm) {NUMBER})")
HEARD_FAULT = {"dhcp": rf"fault (?:Cut {NUMBER}|Hardware|Cookie|Repeat|Long|Url {URL_FAULT})",
               "lldp": rf"fault (?:Cut {NUMBER}|Hardware|Order|Repeat|Long|Url {URL_FAULT})"}
FILE_FAULT = rf"fault (?:TooLong|Json|WrongKind|Url {PATH} {URL_FAULT}|(?:{RULES}) {PATH})"
# lines that stand between those of packets
LEARNT = rf"name {HOST} {ADDRESS} {NUMBER} (?:new|renewed|same|refused {NUMBER} [A-Za-z]+)|dns fault (?:NotAnswer|(?:Cut|Label|Pointer|NameLong) {NUMBER})"
TALLIED = (rf"hour {NUMBER}|count {MAC} (?:from|to) {RULING} {NUMBER}|denied {MAC} (?:from|to) (?:{ADDRESS} {NUMBER} (?:{NUMBER}|-)|others) {NUMBER}"
           rf"|packets {NUMBER} unmanaged {NUMBER} link {NUMBER} unreadable {NUMBER} pass {NUMBER} drop {NUMBER} both {NUMBER}")
REPORT = {
    "things": rf"(?:thing {MAC} {URL} (?:-|{URL}) (?:held|-)|lease {MAC} {ADDRESS} (?:{NUMBER}|never))",
    "files": rf"file {URL} (?:verified|waived|-) (?:yes|no)",
    "classes": rf"class (?:uri [\x21-\x7e]+|mine {URL}) {ADDRESS}",
    "locals": rf"local {ADDRESS}/[0-9]{{1,3}}",
    "names": rf"name {HOST} {ADDRESS} (?:{NUMBER}|never)",
    "due": rf"due {URL}",
}


def lines_of(octets):
    if octets and not octets.endswith(b"\n"):
        raise Wrong("the last line doesn't end")
    try:
        return octets.decode("ascii").split("\n")[:-1]
    except UnicodeDecodeError:
        raise Wrong("an octet that isn't ASCII") from None


def is_form(form, line):
    if not re.fullmatch(form, line):
        raise Wrong(f"a line of no form: {line[:300]}")


def has_addresses(line):
    """The words that look like addresses are addresses in their shortest form."""
    for word in line.split():
        if re.fullmatch(rf"{ADDRESS}(?:/[0-9]+)?", word) and not re.fullmatch(rf"{MAC}|{NUMBER}", word) and (":" in word or "." in word):
            address = word.split("/")[0]
            try:
                is_shortest = str(ipaddress.ip_address(address)) == address
            except ValueError:
                is_shortest = False
            if not is_shortest:
                raise Wrong(f"no address in its shortest form: {word}")


def is_status(status, wanted):
    if status not in wanted:
        raise Wrong(f"the status is {status}")


def before_fault(status, lines, fault):
    """The lines before the fault, which is there exactly where the status is 3."""
    is_status(status, (0, 3))
    if status == 0:
        return lines
    if not lines:
        raise Wrong("status 3 without a line")
    is_form(fault, lines[-1])
    return lines[:-1]


# ---- What each reader owes

def heard(reader, status, lines):
    if len(lines) != 1:
        raise Wrong(f"{len(lines)} lines")
    good = rf"url {MAC} {URL}|nothing" + (rf"|lease {MAC} {ADDRESS} [1-9][0-9]{{0,9}}" if reader == "dhcp" else "")
    for line in before_fault(status, lines, HEARD_FAULT[reader]):
        is_form(good, line)
        if line.startswith("lease"):
            has_addresses(line)


def checked(status, lines):
    lines = before_fault(status, lines, FILE_FAULT)
    if status == 3:
        if lines:
            raise Wrong("lines before a fault")
        return
    for form, line in zip((rf"file {URL}", r"update -?[0-9]+", r"hours [1-9][0-9]{0,2}"), lines):
        is_form(form, line)
    counts = {"from": 0, "to": 0}
    for line in lines[3:]:
        is_form(rf"(?:from|to) {NUMBER} (?:v4|v6) (?:member|wide) (?:accept|drop)", line)
        side, number = line.split()[:2]
        counts[side] += 1
        if int(number) != counts[side] or (side == "from" and counts["to"]) or counts[side] > 128:
            raise Wrong(f"the wrong number: {line}")


def numbered(status, lines, form, between="(?!)"):
    """A line of each packet, numbered, and some between them."""
    number = 0
    for line in before_fault(status, lines, CAPTURE_FAULT):
        if not re.fullmatch(between, line):
            number += 1
            is_form(rf"{number} {NUMBER} {form}", line)


def tallied(status, lines):
    for line in before_fault(status, lines, CAPTURE_FAULT):
        is_form(TALLIED, line)


FRAMING = ("head", "coding", "length", "long", "no-length", "moment", "cut")


def in_order(pairs):
    names = [name for name, _ in pairs]
    if names != sorted(set(names)):
        raise Wrong(f"members out of order: {names}")
    return dict(pairs)


def next_answer(octets, place):
    """The place behind the answer at this one, its status, its body, and whether the connection ends. An
    answer to HEAD has no body, though it says its length: there the next answer or the end follows."""
    end = octets.find(b"\r\n\r\n", place)
    if end < 0:
        raise Wrong("an answer without an end of its head")
    first, *fields = octets[place:end].decode("latin-1").split("\r\n")
    match = re.fullmatch(r"HTTP/1\.1 ([0-9]{3}) (.*)", first)
    if not match:
        raise Wrong(f"no status line: {first[:100]}")
    status = int(match[1])
    if status == 100 and not fields and match[2] == "Continue":
        return end + 4, 100, b"", False
    if status in (503, 507) or PHRASES.get(status) != match[2]:
        raise Wrong(f"another status or phrase: {first[:100]}")
    wanted = ["Content-Type: application/json", *(["Allow: [A-Z]+(?:, [A-Z]+)*"] if status == 405 else []), "Content-Length: ([0-9]+)"]
    closes = fields[-1:] == ["Connection: close"]
    fields = fields[:-1] if closes else fields
    if len(fields) != len(wanted) or not all(map(re.fullmatch, wanted, fields)):
        raise Wrong(f"other header lines: {fields}")
    size = int(fields[-1].split()[1])
    body = octets[end + 4:end + 4 + size]
    if body[:1] != b"{":
        return end + 4, status, None, closes
    if len(body) != size:
        raise Wrong("an answer that is cut")
    return end + 4 + size, status, body, closes


def rule_of(status, body):
    """The rule that a body names, if any. It is compact JSON, and a fault has one."""
    try:
        text = body.decode()
        value = json.loads(text, object_pairs_hook=in_order)
    except ValueError:
        raise Wrong(f"no JSON: {body[:200]}") from None
    if "\\" not in text and json.dumps(value, separators=(",", ":"), ensure_ascii=False) != text:
        raise Wrong(f"no compact JSON: {text[:200]}")
    if (status == 200) == ("rule" in value):
        raise Wrong(f"status {status} with {text[:200]}")
    if "verdict" in value and set(value) in ({"verdict"}, {"verdict", "from", "to"}):
        is_form(VERDICT, value["verdict"])
    return value.get("rule")


def answered(status, octets):
    """Whole answers, of which one alone that ends the connection stands last."""
    is_status(status, (0, 3))
    place, rule, closes = 0, None, False
    while place < len(octets):
        if closes:
            raise Wrong("an answer behind the last one")
        place, code, body, closes = next_answer(octets, place)
        rule = rule_of(code, body) if body else None
        if body and not closes and (code in (411, 413, 501) or rule in FRAMING):
            raise Wrong("a framing fault that doesn't end the connection")
    if (status == 3) != (rule in FRAMING) and not (status == 3 and closes):
        raise Wrong(f"the status is {status} and the last rule {rule}")


def reported(status, kind, lines):
    is_status(status, (0, 6, 7))
    if status == 7 and lines:
        raise Wrong("status 7 with a line")
    if status == 6:
        if len(lines) != 1:
            raise Wrong(f"status 6 with {len(lines)} lines")
        is_form(r"fault item [0-9]{1,3}(?: (?:[0-9a-f]{2})+)?", lines[0])
        return
    for line in lines:
        is_form(REPORT[kind], line)
        has_addresses(line)


READERS = {
    "dhcp": lambda status, octets: heard("dhcp", status, lines_of(octets)),
    "lldp": lambda status, octets: heard("lldp", status, lines_of(octets)),
    "check": lambda status, octets: checked(status, lines_of(octets)),
    "frames": lambda status, octets: numbered(status, lines_of(octets), FRAME),
    "judge": lambda status, octets: numbered(status, lines_of(octets), VERDICT),
    "snoop": lambda status, octets: numbered(status, lines_of(octets), VERDICT, LEARNT),
    "tally": lambda status, octets: tallied(status, lines_of(octets)),
    "replay": answered,
}


def look(reader, status, octets):
    """Raises Wrong where it isn't what a run of this reader may end with and write."""
    READERS[reader](status, octets)


# what standard error is told of a capture that can't be read, by the fault in its last line
TOLD = {"LinkType": r"the capture is of link \d+(?: \([^)\n]+\))?, and not of Ethernet: [^\n]+"
                    r"|the capture says that check sequences follow its frames: [^\n]+"
                    r"|the packet at that octet came by an interface of another link than Ethernet; [^\n]+",
        "Magic": r"the input is packed by (?:gzip|zstd): [^\n]+|the section of the capture at that octet is damaged"
                 r"|the input is no capture in the classic format or in pcapng; [^\n]+"}


def told(reader, octets, errors):
    """Raises Wrong where standard error isn't told what belongs to the last line, and nothing else."""
    fault = re.search(r"(?:\A|\n)fault (\w+)[^\n]*\n\Z", octets.decode("utf-8", "replace"))
    form = TOLD.get(fault[1]) if fault and reader in ("frames", "judge", "snoop", "tally") else None
    if not re.fullmatch(f"mud: (?:{form})\n" if form else "", errors.decode("utf-8", "replace")):
        raise Wrong(f"on standard error: {errors[:300]}")


def frame_line(frame):
    """What the second reading says of a frame."""
    try:
        fields = second_reading.fields_of(frame)
    except second_reading.Unreadable as part:
        return f"unreadable {part}"
    if fields is None:
        return "link"
    return " ".join(map(str, ["packet", fields["src"], fields["dst"], fields["protocol"], *(fields["transport"] or ())]))
