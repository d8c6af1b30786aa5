"""Reads sessions of examples: the octets of requests, and of the answers that are wanted.

A session is one or more runs of the program over an empty store, each on one connection. Its lines:

  # ..                          a remark; so is an empty line
  > MOMENT METHOD TARGET BODY   a request. Lines behind it that begin with a space are header lines of it. A
                                length is given where it has a body or its method asks for one, unless a header
                                line gives it.
  < STATUS BODY                 its answer. 'closes' behind the status: it says that the connection ends. Lines
                                behind it that begin with a space are header lines of it. The answer to HEAD
                                has no body octets, but its length.
  < 100                         the leave to send a body, without more
  do STEP ..                    requests and answers of examples/replay/steps.txt
  raw ... end                   a request line by line as it is: its head up to the empty line, and its body
                                without a line end behind it. '{fill N}' stands for as many letters as the head
                                needs to have N octets, '{headers N}' for as many header lines as it needs to
                                have N of them.
  each FIRST LAST ... end       the lines between, for each number: '{n}' is the number, '{hh:hh}' its two
                                octets in hex
  ends N                        the status of the program, 0 unless it is said
  in pieces                     the run once more for each place of its octets, cut there in two
  in parts                      the run once more for each place, its octets ending there
  again                         the next run begins

A body is JSON text as it is, or one of these:

  @FILE                         the octets of a file of examples
  =NAME                         those of this name in examples/replay/frames.txt
  hex DIGITS                    these octets
  fill N                        so many letters
  first N BODY                  the first N octets of a body of these kinds
  announce MAC URL              a client's DHCPDISCOVER with this URL in option 161
  ack MAC ADDRESS SECONDS       a server's DHCPACK with this lease
"""
import functools
import ipaddress
import re

from checks import texts
from checks.program import read

PHRASES = {200: "OK", 400: "Bad Request", 404: "Not Found", 405: "Method Not Allowed", 409: "Conflict",
           411: "Length Required", 413: "Payload Too Large", 422: "Unprocessable Entity", 501: "Not Implemented",
           503: "Service Unavailable", 507: "Insufficient Storage"}


def octets_of(text):
    return text.encode("utf-8", "surrogateescape")


def letters(count):
    return "a" * max(count, 0)


def answer(status, body, *headers, closes=False):
    """The octets of an answer with this body, and these header lines before its length."""
    body = body.encode() if isinstance(body, str) else body
    head = [f"HTTP/1.1 {status} {PHRASES[status]}", "Content-Type: application/json", *headers, f"Content-Length: {len(body)}",
            *(["Connection: close"] if closes else [])]
    return octets_of("\r\n".join(head) + "\r\n\r\n") + body


def dhcp_message(op, mac, options, given="0.0.0.0"):
    """A DHCP message of these options: what it is, the address given, the hardware address."""
    fixed = bytes.fromhex(op + "01060000000001") + bytes(8) + ipaddress.ip_address(given).packed + bytes(8)
    return fixed + bytes.fromhex(mac.replace(":", "")) + bytes(202) + bytes.fromhex("63825363") + options + b"\xff"


def announcement(mac, url):
    """A client's DHCPDISCOVER with a URL."""
    return dhcp_message("01", mac, b"\x35\1\3\xa1" + bytes([len(url)]) + octets_of(url))


def acknowledgement(mac, address, seconds):
    """A server's DHCPACK with a lease."""
    return dhcp_message("02", mac, b"\x35\1\5\x33\4" + int(seconds).to_bytes(4, "big"), address)


@functools.lru_cache(None)
def frames():
    """The octets of examples/replay/frames.txt by their names."""
    rows = [line.split(None, 1) for line in texts.lines("examples/replay/frames.txt") if line and not line.startswith("#")]
    return {name: bytes.fromhex(digits) for name, digits in rows}


@functools.lru_cache(None)
def steps():
    """The lines of the steps of examples/replay/steps.txt by their names."""
    found, name = {}, None
    for line in texts.lines("examples/replay/steps.txt"):
        if line.startswith("step "):
            name = line[5:]
        elif line and not line.startswith("#") and name:
            found.setdefault(name, []).append(line)
    return found


def body_of(text):
    """The octets of a body."""
    if first := re.match(r"first (\d+) (.*)", text, re.S):
        return body_of(first[2])[:int(first[1])]
    words = text.split()
    if text.startswith("@"):
        return read("examples/" + text[1:])
    if text.startswith("="):
        return frames()[text[1:]]
    if text.startswith("hex "):
        return bytes.fromhex(text[4:])
    if words[:1] == ["announce"] and len(words) == 3:
        return announcement(*words[1:])
    if words[:1] == ["ack"] and len(words) == 4:
        return acknowledgement(*words[1:])
    if re.fullmatch(r"fill \d+", text):
        return octets_of(letters(int(words[1])))
    return octets_of(text)


class Run:
    """A run: the octets of its requests and of its answers, its status, and what else is to be done with it.

    Of each request with an answer there are the offset behind its head and behind itself, and the offset of the
    answers behind its own (places), and its method, target, status, body and the body of its answer (requests)."""

    def __init__(self):
        self.octets, self.wanted, self.status = b"", b"", 0
        self.in_pieces = self.in_parts = False
        self.places, self.requests = [], []


class Reader:
    """Reads the lines of a session."""

    def __init__(self, rows):
        self.runs, self.open, self.headers = [Run()], None, []
        self.target, self.body, self.head_end = "", b"", 0
        rows = iter(rows)
        for row in rows:
            if row == "raw":
                self.flush()
                self.write_raw(list(iter(lambda: next(rows), "end")))
            elif each := re.fullmatch(r"each (\d+) (\d+)", row):
                repeated = list(iter(lambda: next(rows), "end"))
                for number in range(int(each[1]), int(each[2]) + 1):
                    for line in repeated:
                        self.take(line.replace("{n}", str(number)).replace("{hh:hh}", f"{number >> 8:02x}:{number & 255:02x}"))
            else:
                self.take(row)
        self.flush()

    @property
    def run(self):
        return self.runs[-1]

    def take(self, line):
        if not line or line.startswith("#"):
            return
        if line.startswith(" "):
            assert self.open, "a header line of nothing"
            self.headers.append(line.strip(" "))
            return
        self.flush()
        if line[:2] in ("> ", "< "):
            self.open, self.headers = line, []
        elif line == "again":
            self.runs.append(Run())
        elif line == "in pieces":
            self.run.in_pieces = True
        elif line == "in parts":
            self.run.in_parts = True
        elif line.startswith("ends "):
            self.run.status = int(line[5:])
        elif line.startswith("do "):
            for name in line.split()[1:]:
                for row in steps()[name]:
                    self.take(row)
        else:
            raise ValueError(f"a line that isn't known: {line}")

    def flush(self):
        """Writes the request or the answer whose lines were read."""
        line, self.open = self.open, None
        if line and line[0] == ">":
            self.write_request(line[2:])
        elif line:
            self.write_answer(line[2:])

    def write_request(self, line):
        moment, self.method, self.target, *text = line.split(" ", 3)
        text = "".join(text)
        self.body = body_of(text)
        head = [f"{self.method} {self.target} HTTP/1.1", f"Mud-Moment: {moment}", *self.headers]
        has_length = any(one.lower().startswith("content-length:") for one in self.headers)
        if not has_length and (text or self.method not in ("GET", "HEAD")):
            head.append(f"Content-Length: {len(self.body)}")
        self.add_request(octets_of("\r\n".join(head) + "\r\n\r\n"), self.body)

    def write_raw(self, rows):
        head, body = [], None
        self.method = rows[0].split(" ")[0]
        for row in rows:
            if body is not None:
                body.append(row)
            elif headers := re.fullmatch(r"\{headers (\d+)\}", row):
                head += [f"X-{number}: 1" for number in range(len(head), int(headers[1]) + 1)]
            else:
                head.append(row)
                body = [] if row == "" else None
        head, body = "".join(row + "\r\n" for row in head), "\n".join(body or [])
        if fill := re.search(r"\{fill (\d+)\}", head):
            head = head.replace(fill[0], letters(int(fill[1]) - (len(octets_of(head)) - len(fill[0]))), 1)
        self.add_request(octets_of(head), octets_of(body))

    def add_request(self, head, body):
        self.head_end = len(self.run.octets) + len(head)
        self.run.octets += head + body

    def write_answer(self, line):
        status, _, text = line.partition(" ")
        status = int(status)
        if status == 100:
            self.run.wanted += b"HTTP/1.1 100 Continue\r\n\r\n"
            return
        closes = text.startswith("closes ")
        body = body_of(text.removeprefix("closes "))
        octets = answer(status, body, *self.headers, closes=closes)
        self.run.wanted += octets[:len(octets) - len(body)] if self.method == "HEAD" else octets
        self.run.places.append((self.head_end, len(self.run.octets), len(self.run.wanted)))
        self.run.requests.append((self.method, self.target, status, self.body, body))


def runs_of(path):
    """The runs of the session at a path below the top."""
    return Reader(texts.lines(path)).runs


def requests_of(path):
    """The requests of the first run of a session, each with its octets."""
    one = runs_of(path)[0]
    ends = [end for _, end, _ in one.places]
    return [one.octets[begin:end] for begin, end in zip([0] + ends, ends)]


BULB = ("announce", "lease", "import", "approve", "dns", "name")


def run_of_steps(*names):
    """The run of some steps; those of BULB make a Thing with all that its file speaks of."""
    return Reader(["do " + " ".join(names)]).runs[0]
