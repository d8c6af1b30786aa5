"""The manager's console, for the programs that stand beside this file.

It is at MUD_CONSOLE or else at http://127.0.0.1:8080. Where that is a site with passwords (nginx-mud.conf), MUD_LOGIN
is the path of a file in the form of .netrc, with the name and the password for its host. One connection serves many requests. Where it can't be
made or ends in the midst, as while 'serve' is started anew, it is tried again for a minute. What goes wrong is
a Fault, whose text is in words.
"""
import base64
import http.client
import json
import netrc
import os
import sys
import time
import urllib.parse

PLACE = "http://127.0.0.1:8080"
# for how many seconds a console that can't be reached is tried again
WAIT = 60
# behind a client that takes no answer the next one waits four minutes at most
ANSWER = 250
# for how many seconds one connection is kept, where requests follow each other
TURN = 1.0
# how often all is asked anew where the one connection ends in the midst
TRIES = 5
MEANINGS = {
    "keeper": "the store couldn't be written: its disk may be full",
    "memory": "the manager has no memory for it",
    "route": "no manager answers there, or an earlier one",
    "long": "it is too long",
}
# what a site says where it doesn't hand a request on; 429 and 502 are tried again
SITE = {401: "the site wants a name and a password (MUD_LOGIN)", 403: "the site refuses it", 404: "the site has no such path"}


class Fault(Exception):
    """What went wrong, in words."""


class Unreachable(Fault):
    """The console can't be reached, or ended the connection."""


def words_of(status, text):
    """What an answer that isn't 200 says."""
    try:
        answer = json.loads(text)
    except ValueError:
        answer = None
    if not isinstance(answer, dict):
        return f"{status} {SITE.get(status, text[:200])}"
    parts = [str(answer[member]) for member in ("book", "rule", "member", "path") if answer.get(member)]
    if isinstance(answer.get("url"), dict):
        parts.append(str(answer["url"].get("rule")))
    meaning = MEANINGS.get(answer.get("rule"))
    return f"{status} {' '.join(parts)}" + (f": {meaning}" if meaning else "")


def login(host):
    """The header lines for a site with passwords."""
    lines, path = {"Mud-Change": "yes"}, os.environ.get("MUD_LOGIN")
    if path:
        try:
            name, _, password = netrc.netrc(path).authenticators(host) or (None, None, None)
        except (OSError, netrc.NetrcParseError) as failure:
            raise Fault(f"MUD_LOGIN can't be read: {failure}") from failure
        if name is None:
            raise Fault(f"MUD_LOGIN has no machine {host}: {path}")
        lines["Authorization"] = "Basic " + base64.b64encode(f"{name}:{password}".encode()).decode()
    return lines


def announcement(mac, url):
    """The message in which a client of DHCP announces a URL, given as octets: a request (1) over Ethernet (1) with
    addresses of 6 octets, all else 0; the cookie; the option 161."""
    head = bytes.fromhex("01010600") + bytes(24) + bytes.fromhex(mac.replace(":", "")) + bytes(202)
    return head + bytes.fromhex("63825363a1") + bytes([len(url)]) + url + b"\xff"


class Console:
    """The console, over a connection that is kept from request to request."""

    def __init__(self, wait=WAIT, place=None, say=None):
        """What is told by `say` is that the console is waited for, where it can't be reached at once."""
        self.place = place or os.environ.get("MUD_CONSOLE") or PLACE
        self.wait, self.say = wait, say
        self.connection, self.until = None, 0.0

    def close(self):
        """Gives the connection up, so that the console's other clients have their turn."""
        if self.connection:
            self.connection.close()
        self.connection = None

    def __enter__(self):
        return self

    def __exit__(self, *_):
        self.close()

    def connect(self):
        """Makes the connection."""
        try:
            at = urllib.parse.urlsplit(self.place)
            host = at.hostname or "127.0.0.1"
            if at.scheme not in ("http", "https"):
                raise ValueError
            make = http.client.HTTPSConnection if at.scheme == "https" else http.client.HTTPConnection
            connection = make(host, at.port, timeout=ANSWER)
        except ValueError as failure:
            raise Fault(f"MUD_CONSOLE is no place of a console: {self.place}") from failure
        self.above, self.lines = at.path.rstrip("/"), login(host)
        connection.connect()
        # once it has ended, a request doesn't make another one
        connection.auto_open = 0
        self.connection, self.until = connection, time.monotonic() + TURN

    def once(self, method, path, body=b""):
        """The status and the text of an answer, over the connection as it is. One that ends is an OSError or
        an HTTPException."""
        if not self.connection:
            self.connect()
        try:
            self.connection.request(method, self.above + path, body or None, self.lines)
            answer = self.connection.getresponse()
            text = answer.read().decode()
            if answer.status in (429, 502):
                raise TimeoutError
            return answer.status, text
        except (OSError, http.client.HTTPException):
            self.close()
            raise

    def patiently(self, action):
        """What the action gives; where the connection fails, it is tried again until the wait is over."""
        until, said = time.monotonic() + self.wait, not self.say
        while True:
            try:
                return action()
            except ConnectionRefusedError:
                reason = "nobody listens there"
            except TimeoutError:
                reason = "it doesn't answer"
            except (OSError, http.client.HTTPException):
                reason = "it ended the connection in the midst"
            if time.monotonic() >= until:
                raise Unreachable(f"the console at {self.place} can't be reached: {reason}")
            if not said:
                self.say(f"waiting for the console at {self.place}: {reason}")
                said = True
            time.sleep(min(1, self.wait / 10))

    def ask(self, method, path, body=b""):
        """The status and the text of an answer. A connection that had its turn is given up before, so that the
        console's other clients have theirs."""
        if time.monotonic() >= self.until:
            self.close()
        return self.patiently(lambda: self.once(method, path, body))

    def tell(self, method, path, body):
        """What a change is answered, where it is done. A body that is no octets is written as JSON."""
        octets = body if isinstance(body, bytes) else json.dumps(body).encode()
        return self.read(path, *self.ask(method, path, octets))

    def read(self, path, status, text):
        """The answer to a request that was done."""
        if status != 200:
            raise Fault(f"the console refused {path}: {words_of(status, text)}")
        try:
            return json.loads(text)
        except ValueError as failure:
            raise Fault(f"the console at {self.place} answers no JSON to {path}") from failure

    def listings(self, names):
        """What the console lists under these names, as one answer after the other over one connection, which it
        serves alone: nothing changes in between. Where that ends in the midst all is asked anew."""
        for _ in range(TRIES):
            self.close()
            self.patiently(self.connect)
            try:
                return {name: self.read(f"/{name}", *self.once("GET", f"/{name}"))[name] for name in names}
            except (OSError, http.client.HTTPException):
                continue
            finally:
                self.close()
        raise Unreachable(f"the console at {self.place} ended the connection in the midst, {TRIES} times")


def ended(program, action):
    """The status of a program: what its action gives, or 1 behind what went wrong, line by line."""
    try:
        return action() or 0
    except Fault as fault:
        for line in str(fault).split("\n"):
            print(f"{program}: {line}", file=sys.stderr)
        return 1
