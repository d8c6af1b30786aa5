"""A site of its own for checks: the console, nginx before it and the rules on who may connect, as contrib/ has them.

All of it is in a network namespace, with the users of contrib/mud.sysusers beside the machine's, so nothing of the
machine is changed and the ports are free. It needs root, nginx, htpasswd, nft, systemd-sysusers, curl and ip.
"""
import json
import os
import shutil
import subprocess

from checks import program, texts
from checks.program import HERE, PROGRAM, read, run

PORT, SITE = 8080, 8088
PASSWORD = {"anna": "a secret of hers", "dnsmasq": "of the script"}
MAIN = """\
user www-data;
daemon off;
pid {0}/nginx.pid;
error_log {0}/error.log;
events {{ }}
http {{
  include /etc/nginx/mime.types;
  client_body_temp_path {0}/body;
  proxy_temp_path {0}/proxy;
  include {0}/nginx-mud.conf;
}}
"""


class Site:
    """The site in this folder: with Site(folder) as site: .. site.asked("GET", "/api/things") .."""

    def __init__(self, folder):
        self.folder = folder
        self.started = []
        self.scheme = "http"

    def path(self, name):
        return os.path.join(self.folder, name)

    def write(self, name, text):
        with open(self.path(name), "w", encoding="utf-8") as file:
            file.write(text)
        return self.path(name)

    def start(self, *words, **more):
        one = subprocess.Popen(words, stdin=subprocess.DEVNULL, stdout=subprocess.PIPE, stderr=subprocess.PIPE, **more)
        self.started.append(one)
        return one

    def end(self, one):
        """Ends what was started, and gives what it wrote as an error."""
        one.terminate()
        self.started.remove(one)
        return one.communicate()[1].decode()

    def within(self, words, user=None):
        """The words by which a command runs in the site's namespaces, as this user of it or as root."""
        as_user = ["setpriv", "--reuid", user, "--regid", self.users[user].split(":")[3], "--clear-groups"] if user else []
        return ["nsenter", "-t", str(self.holder.pid), "-n", "-m", "env", "-C", HERE, *as_user, *words]

    def run(self, *words, user=None, **more):
        nsenter, *rest = self.within(words, user)
        return run(*rest, program=nsenter, **more)

    def __enter__(self):
        os.chmod(self.folder, 0o755)
        os.makedirs(self.path("root/etc"))
        for name in ("passwd", "group"):
            shutil.copy("/etc/" + name, self.path("root/etc/" + name))
        made = run("--root=" + self.path("root"), "-", program="systemd-sysusers", input=read("contrib/mud.sysusers"))
        if made.status != 0:
            raise AssertionError(made.errors.decode())
        with open(self.path("root/etc/passwd"), encoding="utf-8") as table:
            self.users = {line.split(":")[0]: line for line in table}
        binds = " && ".join(f"mount --bind '{self.path('root/etc/' + name)}' /etc/{name}" for name in ("passwd", "group"))
        self.holder = self.start("unshare", "--net", "--mount", "sh", "-c", f"{binds} && ip link set lo up && echo made && exec sleep 100000")
        if self.holder.stdout.readline() != b"made\n":
            raise OSError(self.end(self.holder))
        return self

    def __exit__(self, *_):
        for one in reversed(self.started):
            one.terminate()
            one.communicate()

    def listens(self, port):
        with open(f"/proc/{self.holder.pid}/net/tcp", encoding="ascii") as table:
            rows = [line.split() for line in list(table)[1:]]
        return any(row[1].endswith(f":{port:04X}") and row[3] == "0A" for row in rows)

    def waiting(self, port):
        """How many clients are connected to the port."""
        with open(f"/proc/{self.holder.pid}/net/tcp", encoding="ascii") as table:
            rows = [line.split() for line in list(table)[1:]]
        return sum(row[2].endswith(f":{port:04X}") and row[3] == "01" for row in rows)

    def load_rules(self):
        return self.run("nft", "-D", f"port={PORT}", "-f", "contrib/mud-console.nft")

    def serve(self):
        one = self.start(*self.within([PROGRAM, "serve", self.path("store.db"), str(PORT), "1000000"]))
        if not program.until(lambda: self.listens(PORT)):
            raise AssertionError("no console: " + self.end(one))
        return one

    def configure(self, **changed):
        """Writes nginx's configuration over this folder, with what an operator changed in it; its path."""
        text = texts.read("contrib/nginx-mud.conf").replace("/var/log/mud", self.path("log")).replace("/etc/nginx/mud.users", self.path("mud.users"))
        text = text.replace("/usr/local/share/mud", os.path.join(HERE, "contrib")).replace("/var/lib/mud-files", self.path("files"))
        for old, new in changed.items():
            text = text.replace(old, new)
        self.write("nginx-mud.conf", text)
        return self.write("nginx.conf", MAIN.format(self.folder))

    def open_site(self, **changed):
        """The logs' folder, the passwords, and nginx, with what an operator changed."""
        os.mkdir(self.path("log"))
        shutil.chown(self.path("log"), "www-data", "adm")
        os.chmod(self.path("log"), 0o2750)
        self.write("mud.users", "")
        os.chmod(self.path("mud.users"), 0o640)
        shutil.chown(self.path("mud.users"), None, "www-data")
        for name, word in PASSWORD.items():
            run("-i", "-B", self.path("mud.users"), name, program="htpasswd", input=word.encode())
        self.nginx = self.start(*self.within(["nginx", "-c", self.configure(**changed)]))
        if not program.until(lambda: self.listens(SITE)):
            raise AssertionError("no nginx: " + self.end(self.nginx))

    def asked(self, method, path, body=None, *words, user="anna", password=None, change=True, local="nobody"):
        """The status and the text of the site's answer to a request, as curl gives it to a local user."""
        said = ["-u", f"{user}:{password or PASSWORD[user]}"] if user else []
        said += ["-H", "Mud-Change: yes"] if change else []
        said += ["--data-binary", "@-"] if body is not None else []
        ended = self.run("curl", "-s", "--max-time", "60", "-X", method, "-w", "\n%{http_code}", *said, *words,
                         f"{self.scheme}://127.0.0.1:{SITE}{path}", user=local, input=body or b"")
        text, _, status = ended.out.rpartition(b"\n")
        return int(status), text.decode("utf-8", "replace")

    def told(self, path):
        """What the console itself lists, to root."""
        return json.loads(self.run("curl", "-s", f"http://127.0.0.1:{PORT}{path}").out)

    def tables(self):
        """All that the console lists."""
        return [self.told("/" + name) for name in ("things", "files", "classes", "locals", "names")]

    def log(self, name):
        """The lines of a log, each as an object whose octets are those of ISO 8859-1."""
        with open(self.path("log/" + name), encoding="latin-1") as file:
            return [json.loads(line) for line in file]
