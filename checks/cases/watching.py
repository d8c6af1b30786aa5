"""Tries what shows an operator how things stand: the gauges of contrib/metrics, and what bash completes.

The gauges count what a made store has, and say where no console answers; what bash completes are the commands, the
kinds, files, and the addresses of Things that the console lists.
"""
import hashlib
import json
import os
import re
import time

from checks import program, texts
from checks.case import ProgramCase, needs
from checks.program import read, run
from checks.session import announcement

MACS = ("02:00:00:00:00:01", "02:00:00:00:00:02", "02:00:00:00:00:13")
URL = "https://lighting.example.com/bulb"
DNS = "urn:ietf:params:mud:dns"
ASKED = "https://example.com/gateway"
COMPLETED = """
source "$1"
shift
COMP_WORDS=("$@")
COMP_CWORD=$(($# - 1))
_mud
printf '%s\\n' "${COMPREPLY[@]}"
"""


def usage_file(url, *matches):
    """A file with an entry for each of these members of RFC 8520, and a list that no policy names."""
    entries = [{"name": f"e{number}", "matches": {"ietf-mud:mud": one}, "actions": {"forwarding": "accept"}} for number, one in enumerate(matches)]
    unnamed = {"name": "e", "matches": {"ietf-mud:mud": {"controller": "urn:example:unnamed"}}, "actions": {"forwarding": "accept"}}
    lists = [{"name": name, "type": "ipv4-acl-type", "aces": {"ace": aces}} for name, aces in (("fr", entries), ("un", [unnamed]))]
    policy = {"from-device-policy": {"access-lists": {"access-list": [{"name": "fr"}]}}}
    head = {"mud-version": 1, "mud-url": url, "last-update": "2024-01-01T00:00:00Z", "is-supported": True, **policy}
    return json.dumps({"ietf-mud:mud": head, "ietf-access-control-list:acls": {"acl": lists}}).encode()


class Watching(ProgramCase):
    def serve(self):
        server = program.Server(1000, self.path("store.db"))
        server.__enter__()
        self.addCleanup(server.kill)
        self.place = f"http://127.0.0.1:{server.port}"
        return server

    def tell(self, path, body, method="POST"):
        ended = run("-s", "-X", method, "--data-binary", "@-", self.place + path, program="curl", input=body if isinstance(body, bytes) else json.dumps(body).encode())
        self.holds(f"{path} is done", b'"result"' in ended.out, ended.out)


@needs("curl")
class Gauges(Watching):
    def gauges(self, *words):
        """The gauges, and their form: a line on what each is, and one on its kind."""
        environment = {**os.environ, "MUD_CONSOLE": self.place, "MUD_FILES": self.path("files")}
        ended = run("--store", self.path("store.db"), *words, program="contrib/metrics", env=environment)
        self.note("status", 0, ended.status)
        text = read(words[-1], "/").decode() if words and words[-1].startswith("/") else ended.out.decode()
        form = r"# HELP (mud_\w+) [^\n]+\n# TYPE \1 gauge\n\1 ([0-9.e-]+)\n"
        self.note("its form", "", re.sub(form, "", text))
        return {name: float(value) for name, value in re.findall(form, text)}

    def test_gauges(self):
        """Each counts what the store has."""
        self.serve()
        for mac in MACS:
            self.tell("/hear/dhcp", announcement(mac, URL))
        self.tell("/hear/dhcp", announcement(MACS[0], URL + "2"))
        self.tell("/holds", {"mac": MACS[1]})
        self.tell("/names", {"name": "test.example.com", "address": "192.0.2.1", "ttl": 60})
        self.tell("/classes", {"class": DNS, "address": "192.0.2.1"})
        asks = [{"controller": DNS}, {"controller": ASKED}, {"my-controller": [None]}, {"local-networks": [None]}]
        for url, kept in ((URL, True), (URL + "2", True), (URL + "3", False), (URL + "4", None)):
            file = usage_file(url, *asks)
            if kept:
                environment = {**os.environ, "MUD_CONSOLE": self.place, "MUD_FILES": self.path("files")}
                self.note("put", 0, run(self.put("file", file), program="contrib/put", env=environment).status)
            else:
                self.tell("/files", file)
            if kept is not None:
                self.tell("/verdicts", {"url": url, "sha256": hashlib.sha256(file).hexdigest(), "verdict": "waived"})
        # unbound are the gateway's class, and the controllers of two URLs
        wanted = {"mud_up": 1, "mud_things": 3, "mud_things_held": 1, "mud_things_waiting": 1, "mud_files_waiting": 1, "mud_files_due": 0,
                  "mud_files_unread": 1, "mud_names": 1, "mud_classes_unbound": 3}
        got = self.gauges()
        self.note("gauges", wanted, {name: value for name, value in got.items() if not name.endswith("_seconds")})
        self.holds("it answers soon", 0 < got["mud_answer_seconds"] < 5)
        self.holds("it was changed just now", 0 <= got["mud_last_change_seconds"] < 30)
        self.tell("/classes", {"my-controller-of": URL, "address": "192.0.2.2"})
        os.utime(self.path("store.db-wal"), (0, time.time() - 5000))
        os.utime(self.path("store.db"), (0, time.time() - 3000))
        got = self.gauges(self.path("mud.prom"))
        self.note("one more is bound", 2, got["mud_classes_unbound"])
        self.holds("the later of both files counts", 3000 <= got["mud_last_change_seconds"] < 3030)
        self.note("who reads the file", 0o644, os.stat(self.path("mud.prom")).st_mode & 0o777)

    def test_no_console(self):
        """Where none answers that is said, and what it would list isn't."""
        server = self.serve()
        server.kill()
        self.note("gauges", ["mud_answer_seconds", "mud_last_change_seconds", "mud_up"], sorted(got := self.gauges("--wait", "0.2")))
        self.note("mud_up", 0, got["mud_up"])
        ended = run("--wait", "0.2", self.path("no/folder"), program="contrib/metrics", env={**os.environ, "MUD_CONSOLE": self.place})
        self.note("a file that can't be written", 1, ended.status)


@needs("curl", "bash")
class Completion(Watching):
    def completed(self, *words):
        """What bash completes behind these words, the last of which is begun."""
        environment = {**os.environ, "MUD_CONSOLE": self.place}
        ended = run("-c", COMPLETED, "bash", os.path.abspath("contrib/mud.bash-completion"), "mud", *words, program="bash", env=environment, cwd=self.folder)
        return ended.out.decode().split()

    def test_completion(self):
        self.serve()
        usage = texts.read("crates/run_words/src/usage.rt")
        commands = sorted(set(re.findall(r"^  ([a-z]+)(?= )", usage.partition("STORE is")[0], re.M)) - {"usage"})
        self.note("commands", commands, sorted(self.completed("")))
        self.note("a command that is begun", ["report", "replay"], sorted(self.completed("rep"), reverse=True))
        self.note("kinds", re.search(r"KIND is ([a-z, ]+)\.", usage)[1].replace(",", "").replace("or ", "").split(), self.completed("report", "s.db", ""))
        self.note("what is heard", ["dhcp", "lldp"], self.completed("hear", ""))
        self.note("a port", ["8080"], self.completed("serve", "s.db", ""))
        self.put("store.copy", b"")
        os.mkdir(self.path("folder"))
        self.note("a store", ["store.copy"], self.completed("judge", "store.c"))
        self.note("a folder", ["folder"], self.completed("import", "s.db", ""))
        self.note("an input", ["store.copy"], self.completed("check", "<", "store.c"))
        for mac in MACS:
            self.tell("/hear/dhcp", announcement(mac, URL))
        self.note("addresses", list(MACS), self.completed("export", "s.db", ""))
        self.note("an address that is begun", list(MACS), self.completed("export", "s.db", "02"))
        self.note("behind a colon", ["01", "02", "13"], self.completed("export", "s.db", "02", ":", "00", ":", "00", ":", "00", ":", "00", ":"))
        self.note("in its last pair", ["01", "02"], self.completed("export", "s.db", "02", ":", "00", ":", "00", ":", "00", ":", "00", ":", "0"))
        self.place = "http://127.0.0.1:1"
        self.note("where no console answers", [], self.completed("export", "s.db", ""))
