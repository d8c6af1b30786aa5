"""What 'fetch' remembers from run to run: whom it asked and when, which files it saw, and what it told.

It is one file of JSON in /var/lib/mud-fetch, or in the folder that STATE_DIRECTORY names, as systemd does.
"""
import contextlib
import fcntl
import json
import os
import sys

import console
import kept_files

PLACE = "/var/lib/mud-fetch"
HOUR = 3600
# so many of a URL's files are remembered, and so many URLs that no Thing has any more
MOST_SEEN = 64
MOST_LEFT = 1024
FORM = {"asked": int, "told": dict, "seen": list}


class Memory:
    """The memory, which one run has at a time."""

    def __init__(self):
        self.folder = os.environ.get("STATE_DIRECTORY") or PLACE
        self.path = os.path.join(self.folder, "memory.json")
        self.servers, self.urls = {}, {}
        try:
            os.makedirs(self.folder, exist_ok=True)
            self.lock = open(os.path.join(self.folder, "lock"), "a", encoding="ascii")
            fcntl.flock(self.lock, fcntl.LOCK_EX | fcntl.LOCK_NB)
            self.give(self.lock.name)
            with contextlib.suppress(FileNotFoundError):
                self.read()
        except BlockingIOError:
            raise console.Fault("another run is under way") from None
        except OSError as failure:
            raise console.Fault(f"nothing can be remembered in {self.folder}: {failure.strerror}") from failure

    def give(self, path):
        """Gives what root has written to the folder's owner, whose next run writes it again."""
        if os.geteuid() == 0:
            owner = os.stat(self.folder)
            os.chown(path, owner.st_uid, owner.st_gid)

    def read(self):
        """What the last run kept."""
        with open(self.path, encoding="utf-8") as file:
            try:
                held = json.load(file)
                servers, urls = dict(held["servers"]), dict(held["urls"])
                if not all(isinstance(row[name], kind) for row in urls.values() for name, kind in FORM.items()):
                    raise ValueError
                self.servers, self.urls = servers, urls
            except (ValueError, KeyError, TypeError):
                print(f"fetch: {self.path} can't be read, so all is asked anew", file=sys.stderr)

    def keep(self):
        """Keeps all for the next run."""
        try:
            kept_files.write_whole(self.path, json.dumps({"servers": self.servers, "urls": self.urls}, indent=1).encode(), 0o600)
            self.give(self.path)
        except OSError as failure:
            raise console.Fault(f"what was asked can't be remembered in {self.folder}: {failure.strerror}") from failure

    def of(self, url):
        """What is remembered of a URL."""
        return self.urls.setdefault(url, {"asked": 0, "told": {}, "seen": []})

    def forget_but(self, urls, now):
        """Forgets the servers that may be asked again, and of the URLs that nobody has any more all but the last ones."""
        self.servers = {place: moment for place, moment in self.servers.items() if now - HOUR < moment <= now}
        left = sorted((url for url in self.urls if url not in urls), key=self.asked)
        for url in left[:-MOST_LEFT]:
            del self.urls[url]

    def asked(self, url):
        """When the URL was asked for, or 0."""
        return self.of(url)["asked"]

    def may_ask(self, url, place, now):
        """Whether an hour has gone since the URL was asked for, and since its server was found dead."""
        moments = (self.asked(url), self.servers.get("%s:%d" % place, 0))
        return all(moment > now or moment + HOUR <= now for moment in moments)

    def was_asked(self, url, place, now, dead):
        """The URL was asked for now, and its server is dead or alive."""
        self.of(url)["asked"] = now
        self.servers.pop("%s:%d" % place, None)
        if dead:
            self.servers["%s:%d" % place] = now

    def tells(self, url, kind, line):
        """Whether this is another line about the URL, of its kind, than the last one; it is the last one now."""
        told = self.of(url)["told"]
        is_new = told.get(kind) != line
        told[kind] = line
        return is_new

    def saw(self, url, digests):
        """These files of the URL are held now, whoever posted them."""
        seen = self.of(url)["seen"]
        seen[:] = [one for one in seen if one not in digests] + [one for one in digests if one]
        del seen[:-MOST_SEEN]

    def went(self, url, sha256, held):
        """Whether the URL's file of this digest was held once, and isn't now that these are."""
        return sha256 in self.of(url)["seen"] and sha256 not in held
