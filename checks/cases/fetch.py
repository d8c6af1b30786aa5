"""Looks at contrib/fetch, against makers' servers of its own (checks/makers.py).

Files come, are checked and wait with what came of their signatures; a server that lies, is slow, is huge, sends
elsewhere or is none leaves the store as it was, and can't touch another URL; verdicts are the operator's unless he
said otherwise; no server is asked twice in an hour.
"""
import hashlib
import ipaddress
import json
import os
import subprocess
import sys
import time
import unittest

from checks import program
from checks.case import Case, ProgramCase, needs
from checks.makers import OTHER, SERVER, Makers, can_be_made, usage_file
from checks.session import announcement

sys.dont_write_bytecode = True
sys.path.append(os.path.join(program.HERE, "contrib"))
import https_get  # noqa: E402 (it stands in contrib/)

MOST = 262144
SIGNED = "https://{0}/thing.p7s"


def mac(number):
    return "02:00:00:00:%02x:%02x" % divmod(number, 256)


def digest(octets):
    return hashlib.sha256(octets).hexdigest()


def url_of(host):
    return f"https://{host}/thing"


class Heads(Case):
    def test_place(self):
        """Where a head sends on to, in little time whatever stands in it; what is no URL is said."""
        began = time.process_time()
        for line, wanted in ((b"Location: https://a.example/x", "https://a.example/x"), (b"LOCATION:/x \r", "/x"), (b"Location: a b", None),
                             (b"location:" + b" " * 60000 + b"\x80", None), (b"X-Location: /x", None)):
            self.note(repr(line[:40]), wanted, https_get.location_of(b"HTTP/1.1 302 Found\n" + line))
        self.holds("in little time", time.process_time() - began < 1)

    def test_addresses(self):
        """Which addresses are those of servers in the Internet."""
        for text, wanted in (("9.9.9.9", True), ("2620:fe::fe", True), ("10.0.0.1", False), ("100.64.0.1", False), ("169.254.169.254", False), ("::1", False),
                             ("fe80::1", False), ("fd00::1", False), ("::ffff:127.0.0.1", False), ("::7f00:1", False), ("2002:7f00:1::", False),
                             ("64:ff9b::7f00:1", False), ("64:ff9b::909:909", True), ("224.0.0.1", False), ("0.0.0.0", False)):
            self.note(text, wanted, https_get.is_public(ipaddress.ip_address(text)))


@needs("nginx", "htpasswd", "nft", "systemd-sysusers", "curl", "ip", "nsenter", "openssl", "getent")
@unittest.skipIf(not can_be_made(), "only root makes network namespaces")
class OnSite(ProgramCase):
    """A case with makers' servers of its own."""

    def setUp(self):
        super().setUp()
        site = Makers(self.folder)
        try:
            site.__enter__()
        except (OSError, subprocess.CalledProcessError) as failure:
            self.skipTest(f"no namespaces can be made ({failure})")
        self.site = site
        self.addCleanup(site.__exit__)

    def store(self, urls, rows=()):
        """A store in which a Thing has announced each URL, and behind that these requests were told."""
        octets = b"".join(program.request("POST", "/hear/dhcp", announcement(mac(number), url)) for number, url in enumerate(urls))
        octets += b"".join(program.request(*row) for row in rows)
        ended = program.run("replay", self.path("store.db"), input=octets)
        self.note("the store is made", {200}, {answer.status for answer in program.answers(ended.out)})
        self.console = self.site.serve()

    def fetched(self, *words, **said):
        status, lines, errors = self.site.fetch(*words, **said)
        self.note("the run's status and errors", (0, ""), (status, errors))
        return lines

    def says(self, lines, url, wanted):
        """One line was said of the URL, and has these words."""
        said = lines.get(url, [])
        self.holds(f"{url}: {wanted}", len(said) == 1 and wanted in said[0], f"it says {said}")


class Servers(OnSite):
    HOSTS = {
        # host: what nginx does beside serving the file, what is said, and whether the file is posted
        "good.example": ("", "new", True),
        "query.example": ("", "new", True),
        "sends-on.example": ("location = /thing { return 302 /there; } location = /there { alias {served}/thing; }", "new", True),
        "wrong-host.example": ("", "alternative certificate subject name", False),
        "ended.example": ("", "certificate has expired", False),
        "elsewhere.example": ("location = /thing { return 302 https://good.example/thing; }", "the server sends elsewhere: https://good.example/thing", False),
        "other-port.example": ("location = /thing { return 302 https://other-port.example:444/thing; }", "the server sends elsewhere", False),
        "no-tls.example": ("location = /thing { return 302 http://no-tls.example/thing; }", "it is no https URL", False),
        "endless.example": ("location / { return 302 /thing$request_id; }", "the server sends on more than 3 times", False),
        "too-long.example": ("", f"it has more than {MOST} octets", False),
        "most.example": ("", "new", True),
        "no-length.example": ("sub_filter never-there always; location = /thing { alias {served}/huge; }", f"it has more than {MOST} octets", False),
        "slow.example": ("limit_rate 1;", "timed out", False),
        "missing.example": ("location = /thing { return 404; }", "the server answers 404", False),
        "nested.example": ("", "isn't posted: fault Json", False),
        "of-another.example": ("", "isn't posted: it is the file of https://good.example/thing", False),
        "to-come.example": ("", "isn't posted: it says that it was made on 2100-01-01, which is to come", False),
        "html.example": ("", "isn't posted: fault Json", False),
        "many-heads.example": ("add_header X-Long $request_id always;" * 3, "new", True),
    }
    NAMES = {
        "local.example": ([["127.0.0.1"]], "127.0.0.1, which is of a private network"),
        "metadata.example": ([["169.254.169.254"]], "169.254.169.254, which is of a private network"),
        "private.example": ([["192.168.1.1"]], "192.168.1.1, which is of a private network"),
        "own.example": ([["11.0.0.1"]], "11.0.0.1, which is of a private network or of this machine's"),
        "both.example": ([[SERVER, "127.0.0.1"]], "127.0.0.1, which is of a private network"),
        "nobody.example": ([[OTHER]], "connect"),
        "no-name.example": ([], "its name has no address"),
    }
    FILES = {
        "too-long.example": lambda octets: octets + b" " * (MOST + 1 - len(octets)),
        "most.example": lambda octets: octets + b" " * (MOST - len(octets)),
        "nested.example": lambda octets: b"[" * 100000,
        "of-another.example": lambda octets: usage_file(url_of("good.example"), systeminfo="of the other"),
        "to-come.example": lambda octets: usage_file(url_of("to-come.example"), **{"last-update": "2100-01-01T00:00:00Z"}),
        "html.example": lambda octets: b"<html></html>",
    }

    def test_servers(self):
        """What each server does, what is said of it, and that the store has the files of those alone that are right."""
        hosts = {host: lines.replace("{served}", self.site.path("served/" + host)) for host, (lines, _, _) in self.HOSTS.items()}
        served = {}
        for host in hosts:
            octets = usage_file(url_of(host))
            served[host] = self.site.serve_file(host, self.FILES.get(host, lambda it: it)(octets))
        with open(self.site.path("served/no-length.example/huge"), "wb") as file:
            file.truncate(100_000_000)
        self.site.make_certificate("ended.example", "root", days=(-30, -1))
        rebinding = {"rebinding.example": [[SERVER], ["127.0.0.1"]]}
        served["rebinding.example"] = self.site.serve_file("rebinding.example", usage_file(url_of("rebinding.example")))
        self.site.open({**hosts, "rebinding.example": ""}, {**{name: rows for name, (rows, _) in self.NAMES.items()}, **rebinding},
                       {"wrong-host.example": "good.example", "ended.example": "ended.example"})
        urls = [url_of(host) for host in (*served, *self.NAMES)]
        self.store(urls)
        began = time.monotonic()
        lines = self.fetched()
        self.holds("a run ends within its minute", time.monotonic() - began < 60)
        for host, (_, wanted, _) in self.HOSTS.items():
            self.says(lines, url_of(host), wanted)
        for host, (_, wanted) in self.NAMES.items():
            self.says(lines, url_of(host), wanted)
        self.says(lines, url_of("rebinding.example"), "new")
        posted = [host for host, (_, _, is_posted) in self.HOSTS.items() if is_posted] + ["rebinding.example"]
        self.note("what the store has", {url_of(host): (None, digest(served[host])) for host in posted}, self.site.held())
        asked = self.site.asked_for()
        self.note("a quarter of an hour later nothing is new", {}, self.fetched())
        self.note("nobody is asked", asked, self.site.asked_for())

    def test_no_tls(self):
        """A server of http at the port, and one that doesn't answer."""
        self.site.open({"good.example": ""}, {"plain.example": [[OTHER]]})
        self.site.start("nsenter", "-t", str(self.site.servers.pid), "-n", "python3", "-m", "http.server", "--bind", OTHER, "443")
        self.store([url_of("plain.example")])
        self.says(self.fetched(), url_of("plain.example"), "wrong version number")
        self.note("the store", {}, self.site.held())


class Signatures(OnSite):
    def test_outcomes(self):
        """Each outcome of a signature's check, on the line, beside the octets, and in the store."""
        site = self.site
        site.make_certificate("maker", None)
        site.make_certificate("stranger", None)
        for name, signs, days in (("signer", "signs", (-1, 30)), ("rsa-signer", "signs", (-1, 30)), ("old", "signs", (-30, -1)), ("early", "signs", (1, 30)), ("cipher", "enciphers", (-1, 30))):
            site.make_certificate(name, "maker", signs, days)
        site.make_certificate("foreign", "stranger", "signs")
        site.make_certificate("old-hash", "maker", "signs", digest="sha1")
        rows = {"good": ("signer", ()), "ended": ("old", ()), "not-begun": ("early", ()), "another-anchor": ("foreign", ()), "usage": ("cipher", ()),
                "weak": ("signer", ("-md", "sha1")), "weak-md5": ("rsa-signer", ("-md", "md5")), "weak-chain": ("old-hash", ()),
                "other-octets": ("signer", ()), "unreadable": (None, ()), "not-got": (None, ()), "no-anchor": ("signer", ()), "no-signature": (None, ())}
        for row, (signer, words) in rows.items():
            host = row + ".example"
            octets = site.serve_file(host, usage_file(url_of(host), **{"mud-signature": None if row == "no-signature" else SIGNED.format(host)}))
            if signer:
                site.serve_file(host, site.sign(octets + b" " if row == "other-octets" else octets, signer, *words), "thing.p7s")
            if row == "unreadable":
                site.serve_file(host, b"no CMS", "thing.p7s")
            if row != "no-anchor":
                site.trust(host, "maker")
        # this maker's file is signed by the other one, whom the operator trusts for files of its own
        site.trust("foreign.example", "stranger")
        site.open({row + ".example": "" for row in rows}, {})
        self.store([url_of(row + ".example") for row in rows])
        lines = self.fetched()
        for row in rows:
            url = url_of(row + ".example")
            sha256 = site.held()[url][1]
            with open(site.path(f"files/{sha256}.outcome"), encoding="utf-8") as file:
                said = json.load(file)
            word = row.removesuffix("-md5").removesuffix("-chain")
            self.note(f"{row}: what stands beside the octets", (url, word), (said["url"], said["word"]))
            self.says(lines, url, f"new {sha256} waits: ")
            if word == "good":
                self.note("who signed", ("CN=signer", "CN=maker"), (said["signer"], said["issuer"]))
                self.says(lines, url, "the signature is good; signed by CN=signer, whose issuer is CN=maker, until ")
        self.note("nothing is approved", {None}, {approved for approved, _ in site.held().values()})

    def one_maker(self, **members):
        """A Thing of a maker whose signature is good, or as these members say; the file's octets."""
        site = self.site
        site.make_certificate("maker", None)
        site.make_certificate("signer", "maker", "signs")
        site.trust("good.example", "maker")
        octets = site.serve_file("good.example", usage_file(url_of("good.example"), **{"mud-signature": SIGNED.format("good.example"), **members}))
        site.serve_file("good.example", site.sign(octets, "signer"), "thing.p7s")
        return octets

    def test_verdicts(self):
        """A file that has waited for an hour is got again; with 'approve = verified' its good signature brings it in force."""
        octets = self.one_maker()
        url, sha256 = url_of("good.example"), digest(octets)
        self.site.open({"good.example": ""}, {})
        self.store([url], [("POST", "/files", octets, int(time.time()) - 7200)])
        self.note("it waits", {url: (None, sha256)}, self.site.held())
        lines = self.fetched(approve="verified")
        self.holds("what waits is checked", any(line.startswith(f"same {sha256} waits: the signature is good") for line in lines[url]), lines)
        self.holds("it is approved", f"{sha256} is approved: verified" in lines[url], lines)
        self.note("it is in force", {url: (sha256, None)}, self.site.held())
        self.note("its verdict", "verified", self.site.told("/files")["files"][0]["approved"]["verdict"])
        self.site.hour_later()
        self.note("a file that isn't due isn't asked for", {}, self.fetched(approve="verified"))

    def test_due(self):
        """A file that is due is got again, and its octets count anew."""
        octets = self.one_maker(**{"cache-validity": 1})
        url, sha256, old = url_of("good.example"), digest(octets), int(time.time()) - 7200
        self.site.open({"good.example": ""}, {})
        verdict = json.dumps({"url": url, "sha256": sha256, "verdict": "waived"}).encode()
        self.store([url], [("POST", "/files", octets, old), ("POST", "/verdicts", verdict, old)])
        self.note("it is due", {"due": [url]}, self.site.told("/due"))
        self.says(self.fetched(), url, f"{sha256} counts anew")
        self.note("it isn't due any more", {"due": []}, self.site.told("/due"))
        self.note("it is in force", {url: (sha256, None)}, self.site.held())

    def test_rejected(self):
        """With 'reject = bad' a file whose signature doesn't hold isn't posted, and goes where it waits."""
        octets = self.one_maker()
        url = url_of("good.example")
        self.site.serve_file("good.example", self.site.sign(octets + b" ", "signer"), "thing.p7s")
        self.site.open({"good.example": ""}, {})
        self.store([url])
        self.says(self.fetched(reject="bad"), url, "isn't posted")
        self.note("nothing waits", {}, self.site.held())
        self.site.hour_later()
        self.says(self.fetched(), url, "new")
        self.note("by the default it waits", {url: (None, digest(octets))}, self.site.held())

    def test_taken_away(self):
        """What the operator refused isn't posted again, until he says so."""
        octets = self.one_maker()
        url, sha256 = url_of("good.example"), digest(octets)
        self.site.open({"good.example": ""}, {})
        self.store([url])
        self.fetched()
        verdict = json.dumps({"url": url, "sha256": sha256, "verdict": "failed"}).encode()
        self.site.run("curl", "-s", "--data-binary", "@-", "http://127.0.0.1:8080/verdicts", input=verdict)
        self.note("it is gone", {}, self.site.held())
        self.site.hour_later()
        self.says(self.fetched(), url, f"isn't posted: {sha256} was taken away before")
        self.note("it stays away", {}, self.site.held())
        self.site.hour_later()
        self.note("it isn't said twice", {}, self.fetched())
        self.site.hour_later()
        self.says(self.fetched("--again", url), url, f"new {sha256} waits")
        self.note("it waits again", {url: (None, sha256)}, self.site.held())


class Runs(OnSite):
    def test_two_makers(self):
        """A hostile server can't change the candidate of another URL, by no file and by no redirect."""
        good, bad = url_of("good.example"), url_of("bad.example")
        mine = self.site.serve_file("good.example", usage_file(good))
        self.site.open({"good.example": "", "bad.example": "location = /sends { return 302 https://good.example/thing; }"}, {})
        self.store([good, bad, "https://bad.example/sends"])
        hostile = {"bad.example": usage_file(good, systeminfo="hostile")}
        for text in (hostile["bad.example"], hostile["bad.example"].replace(b'"mud-version"', b'"mud-url": "%s", "mud-version"' % bad.encode(), 1),
                     usage_file("https://GOOD.example:443/thing", systeminfo="hostile"), usage_file(bad, systeminfo="its own")):
            self.site.serve_file("bad.example", text)
            lines = self.fetched()
            self.note("the other one's candidate", (None, digest(mine)), self.site.held()[good])
            self.holds("what is of another URL is told", bad not in lines or len(lines[bad]) == 1, lines)
            self.site.hour_later()
        self.note("its own is taken", {good, bad}, set(self.site.held()))

    def test_dead_server(self):
        """A dead server is asked at most once an hour, whatever URLs it has; what comes back is taken."""
        urls = [f"https://dead.example/{number}" for number in range(5)]
        self.site.open({"good.example": ""}, {"dead.example": [[OTHER], [OTHER], [SERVER]]})
        self.store(urls)
        lines = self.fetched()
        self.note("one URL is asked for", 1, len(lines))
        self.note("and then none", {}, self.fetched())

    def test_one_server_with_many(self):
        """A run ends with its minute, and the next one goes on with the URLs that are left."""
        urls = [f"https://slow.example/{number}" for number in range(8)]
        for number, url in enumerate(urls):
            self.site.serve_file("slow.example", usage_file(url), str(number))
        self.site.open({"slow.example": "limit_rate 120;"}, {})
        self.store(urls)
        began = time.monotonic()
        first = self.fetched()
        self.holds("within its minute and a moment", time.monotonic() - began < 65)
        self.holds("some are left", 0 < len(first) < len(urls), len(first))
        second = self.fetched()
        self.note("each URL's turn comes, once", (set(urls), set()), ({*first, *second}, first.keys() & second.keys()))
        self.note("all wait", set(urls), set(self.site.held()))

    def test_second_url(self):
        """A Thing that announces another URL is told, once; its file is got too."""
        first, second = url_of("good.example"), url_of("next.example")
        for url, host in ((first, "good.example"), (second, "next.example")):
            self.site.serve_file(host, usage_file(url))
        self.site.open({"good.example": "", "next.example": ""}, {})
        self.store([first], [("POST", "/hear/dhcp", announcement(mac(0), second))])
        lines = self.fetched(notify=f"sh -c 'echo \"$0\" >> {self.path('files/notes')}'")
        self.note("what is said of it", f"waits to be the URL of {mac(0)}, which has {first}", lines[second][0])
        self.note("both wait", {first, second}, set(self.site.held()))
        with open(self.path("files/notes"), encoding="utf-8") as file:
            self.note("the operator's command has each line", sum(map(len, lines.values())), len(file.readlines()))

    def test_full_cache(self):
        """The 129th URL's refusal is told once."""
        urls = [f"https://many.example/{number}" for number in range(129)]
        self.site.serve_file("many.example", usage_file(urls[128]), "128")
        self.site.open({"many.example": ""}, {})
        self.store(urls, [("POST", "/files", usage_file(url)) for url in urls[:128]])
        self.site.write("state/memory.json", json.dumps({"servers": {}, "urls": {url: {"asked": int(time.time()), "told": {}, "seen": []} for url in urls[:128]}}))
        self.says(self.fetched(), urls[128], "CacheFull")
        self.site.hour_later(3600)
        self.holds("it is told once", urls[128] not in self.fetched())

    def test_console_restarted(self):
        """A console that is started anew in the midst: the files come all the same."""
        hosts = [f"maker{number}.example" for number in range(3)]
        for host in hosts:
            self.site.serve_file(host, usage_file(url_of(host)))
        self.site.open({host: "limit_rate 200;" for host in hosts}, {})
        self.store([url_of(host) for host in hosts])
        words = self.site.within(self.site.fetch_words(), "mud-fetch")
        running = self.site.start(*words)
        time.sleep(1)
        self.site.end(self.console)
        time.sleep(3)
        self.console = self.site.serve()
        self.note("its errors", "", running.communicate(timeout=60)[1].decode())
        self.note("all wait", {url_of(host) for host in hosts}, set(self.site.held()))

    def test_no_console(self):
        """Where nobody answers, it says so within its patience, and asks no server."""
        self.site.open({"good.example": ""}, {})
        self.site.serve_file("good.example", usage_file(url_of("good.example")))
        words = self.site.fetch_words()
        words = [*words[:-1], "MUD_CONSOLE=http://127.0.0.1:9", words[-1]]
        status = self.site.run(*words, user="mud-fetch").status
        self.note("its status", 1, status)
        self.note("nobody was asked", 0, self.site.asked_for())

    def test_full_folder(self):
        """A folder that is full: nothing is posted, and it is told."""
        url = url_of("good.example")
        self.site.serve_file("good.example", usage_file(url) + b" " * 100000)
        self.site.open({"good.example": ""}, {})
        self.store([url])
        self.site.run("mount", "-t", "tmpfs", "-o", "size=16k,mode=777", "none", self.site.path("files"))
        self.says(self.fetched(), url, "can't be kept in")
        self.note("the store", {}, self.site.held())

    def test_words(self):
        """Wrong words and a wrong configuration: 2, and nothing is asked; a dry run asks the console alone."""
        url = url_of("good.example")
        self.site.serve_file("good.example", usage_file(url))
        self.site.open({"good.example": ""}, {})
        self.store([url])
        self.note("a dry run", {url: ["would be asked for"]}, self.fetched("--dry-run"))
        for said, wanted in (({"approve": "all"}, "approve is none or verified, and not 'all'"), ({"aprove": "none"}, "'aprove' is none of")):
            status, lines, errors = self.site.fetch(**said)
            self.note(f"{said}: the status", (2, {}), (status, lines))
            self.holds(f"{said}: what is said", wanted in errors, errors)
        self.note("a word too many", 2, self.site.fetch("all")[0])
        self.note("nobody was asked", 0, self.site.asked_for())
        self.says(self.fetched(), url, "new")
