"""Looks at the version, the licences, and what 'make install' and 'make deb' give: their files, and the program out of them."""
import glob
import os
import re
import shutil
import subprocess
import unittest

from checks import program, texts
from checks.case import Case, ProgramCase, needs
from checks.program import read, run

MESSAGE = "examples/dhcp/dhclient-dnsmasq-01-discover.bin"
COPIED = "Makefile VERSION CHANGELOG.md docs man contrib examples packaging".split()
MOVED = {"fetch.conf": "etc/mud/fetch.conf", "mud.bash-completion": "usr/share/bash-completion/completions/mud", "mud.logrotate": "etc/logrotate.d/mud", "mud.sysusers": "usr/lib/sysusers.d/mud.conf"}
UNITS = ["mud-capture@.service", "mud-day.service", "mud-day.timer", "mud-fetch.service", "mud-fetch.timer", "mud-listen@.service", "mud-metrics.service", "mud-metrics.timer", "mud-rules.service", "mud-rules.timer", "mud.service"]
EXPLAINED = tuple("I: gonnavir: " + tag for tag in ("hardening-no-fortify-functions", "package-supports-alternative-init-but-no-init.d-script",
                                                    "spelling-error-in-binary", "package-contains-documentation-outside-usr-share-doc [usr/share/mud/page/index.html]"))


# in a root of its own over the machine's: a package of before, the store as a dynamic user leaves it, and then this
# package, twice, the one of before, and this one
UPGRADES = """
mount -t tmpfs none "$1" && mkdir "$1/upper" "$1/work" "$1/root" || exit 99
mount -t overlay overlay -o "lowerdir=/,upperdir=$1/upper,workdir=$1/work" "$1/root" || exit 99
cp "$2" "$1/root/older.deb"
cp "$3" "$1/root/newer.deb"
rm -rf "$1/root/run/systemd/system" "$1/root/var/log/mud" "$1/root/var/lib/mud" "$1/root/var/lib/private/mud"
mount --bind /dev "$1/root/dev"
chroot "$1/root" sh -eu -c '
  installed() { dpkg --no-triggers --force-depends --force-downgrade --force-unsafe-io -i "$1" >/dev/null; }
  private() {
    if [ -d /var/lib/mud ]; then mv /var/lib/mud /var/lib/private/mud; fi
    chown -R 61234:61234 /var/lib/private/mud
    ln -s private/mud /var/lib/mud
  }
  look() {
    stat -c "%U %G %F %n" /var/lib/mud /var/lib/mud/mud.db
    cat /var/lib/mud/mud.db
    [ -e /var/lib/private/mud ] || echo link gone
  }
  installed /older.deb
  mkdir -p /var/lib/private/mud
  echo kept >/var/lib/private/mud/mud.db
  private
  for package in newer newer older newer; do
    installed /$package.deb
    if [ $package = older ]; then private; else look; fi
  done
  stat -c "%U %G %a" /var/log/mud'
"""


class Texts(Case):
    def test_version(self):
        """The file VERSION has the version, and what says it says the same."""
        version = texts.read("VERSION").strip()
        self.holds("its form", re.fullmatch(r"\d+\.\d+\.\d+", version), version)
        self.holds("the manual page", f'"Gonnavir {version}"' in texts.lines("man/mud.1")[1])
        self.note("the first change", version, re.search(r"^## ([\d.]+)", texts.read("CHANGELOG.md"), re.M)[1])
        usage = re.search(r'USAGE: &str = "\\\n(.*)', texts.read("crates/run_words/src/usage.rt"))[1]
        self.note("the usage text's first line", f"mud {version}", usage)

    @needs("rt")
    def test_copyright(self):
        made = subprocess.run([os.path.join(texts.HERE, "packaging/make-copyright")], stdout=subprocess.PIPE, check=True).stdout
        self.note("packaging/copyright is what packaging/make-copyright makes", made.decode(), texts.read("packaging/copyright"))


def files_below(folder):
    """The files below a folder, each with its mode."""
    found = [path for path in glob.glob(folder + "/**", recursive=True, include_hidden=True) if os.path.isfile(path)]
    return sorted((os.path.relpath(path, folder), oct(os.stat(path).st_mode & 0o777)[2:]) for path in found)


def of_contrib():
    """The files of contrib/, each with its mode."""
    paths = [path.removeprefix("contrib/") for path in texts.files("contrib/*", "contrib/*/*") if os.path.isfile(path)]
    return [(path, "755" if os.access("contrib/" + path, os.X_OK) else "644") for path in paths]


def of_examples(folder):
    return [(f"{folder}/{path}", "644") for path in texts.files("examples/**")]


@needs("make")
class Package(ProgramCase):
    def copied(self, name):
        """A copy of what is packaged, in a folder of this name, with the program that is tried."""
        os.makedirs(self.path(name + "/out"))
        for path in COPIED:
            (shutil.copytree if os.path.isdir(path) else shutil.copy)(path, self.path(f"{name}/{path}"))
        return shutil.copy(program.PROGRAM, self.path(name + "/out/mud"))

    def make(self, name, *words):
        ended = run("-s", "-C", self.path(name), *words, program="make")
        self.note(f"make {words[0]}, status", (0, b""), (ended.status, ended.errors))
        return ended.out.decode()

    def package(self, name):
        """The path of the package that is made in such a copy."""
        self.copied(name)
        return self.path(name + "/" + self.make(name, "deb").split()[-1])

    def test_install(self):
        self.copied("copy")
        folder = "DESTDIR=" + self.path("installed")
        self.make("copy", "install", "PREFIX=/usr", folder)
        share = "usr/share/mud"
        pages = [(f"{share}/{name}", "644") for name in ("CHANGELOG.md", "CLAIMS.md", "GUIDE.md", "REFERENCE.md", "page.png")]
        wanted = [("usr/bin/mud", "755"), ("usr/share/man/man1/mud.1", "644")] + pages
        wanted += [(f"{share}/{name}", mode) for name, mode in of_contrib()] + of_examples(share)
        self.note("files", sorted(wanted), files_below(self.path("installed")))
        units = "".join(read(f"{share}/{unit}", self.path("installed")).decode() for unit in UNITS)
        self.note("the units' programs", ["/usr/share/mud/capture %i", "/usr/share/mud/mud-day --in %t/mud-day", "/usr/share/mud/fetch", "/usr/share/mud/listen %i", "/usr/share/mud/metrics /var/lib/prometheus/node-exporter/mud.prom",
                                          "/usr/share/mud/nft-rules --load", "/usr/bin/mud serve /var/lib/mud/mud.db ${PORT} 1000000"],
                  re.findall("^ExecStart=(.*)", units, re.M))
        self.make("copy", "uninstall", "PREFIX=/usr", folder)
        self.note("what 'make uninstall' leaves", [], files_below(self.path("installed")))

    @needs("dpkg-deb", "strip")
    def test_deb(self):
        package = self.package("copy")
        self.assertEqual(run("-x", package, self.path("unpacked"), program="dpkg-deb").status, 0)
        self.assertEqual(run("-e", package, self.path("unpacked/DEBIAN"), program="dpkg-deb").status, 0)
        share, pages = "usr/share/mud", "usr/share/doc/gonnavir"
        names = ("CHANGELOG.md", "CLAIMS.md", "GUIDE.md", "README.md", "REFERENCE.md", "changelog.gz", "copyright", "page.png")
        wanted = [("usr/bin/mud", "755"), ("usr/share/man/man1/mud.1.gz", "644")] + [(f"{pages}/{name}", "644") for name in names]
        wanted += [(f"lib/systemd/system/{unit}", "644") for unit in UNITS] + of_examples(pages)
        wanted += [(f"{share}/{name}", mode) for name, mode in of_contrib() if name not in [*UNITS, *MOVED, "README.md"]]
        wanted += [(path, "644") for path in MOVED.values()]
        wanted += [(f"DEBIAN/{name}", "644") for name in ("conffiles", "control", "md5sums")]
        wanted += [(f"DEBIAN/{name}", "755") for name in ("postinst", "postrm", "prerm")]
        self.note("files", sorted(wanted), files_below(self.path("unpacked")))
        unpacked = self.path("unpacked/usr/bin/mud")
        self.note("the program", run("hear", "dhcp", input=MESSAGE), run("hear", "dhcp", input=MESSAGE, program=unpacked))
        unit = read("unpacked/lib/systemd/system/mud.service", self.folder).decode()
        self.holds("the unit", unit.startswith("[Unit]\n") and "\nExecStart=/usr/bin/mud serve " in unit)
        control = read("unpacked/DEBIAN/control", self.folder).decode()
        self.note("the version", texts.read("VERSION").strip(), re.search(r"^Version: ([\d.]+)\+\d{8}$", control, re.M)[1])
        self.hardened(unpacked)
        self.with_lintian(package)

    def hardened(self, path):
        """Its code may lie anywhere (PIE), what is linked is read-only once it runs (RELRO), no stack is run (NX)."""
        said = run("-hdlW", path, program="readelf").out.decode()
        self.holds("PIE", re.search(r"Type: +DYN \(Position-Independent Executable", said))
        self.holds("RELRO", "GNU_RELRO" in said and "BIND_NOW" in said)
        self.holds("NX", re.search(r"GNU_STACK .* RW +", said))

    def with_lintian(self, package):
        if not shutil.which("lintian"):
            self.left_out("lintian", "there is no lintian")
            return
        ended = run("--allow-root", "--display-info", "--fail-on", "error,warning", package, program="lintian")
        rows = [line for line in ended.out.decode().splitlines() if not line.startswith(EXPLAINED)]
        self.note("lintian, but for what docs/DECISIONS.md explains", (0, []), (ended.status, rows))

    def older(self, package):
        """A package of before, with no users and no scripts, of the files of this one."""
        older = self.path("older")
        run("-R", package, older, program="dpkg-deb")
        for name in ("postinst", "prerm", "postrm", "conffiles"):
            os.unlink(f"{older}/DEBIAN/{name}")
        shutil.rmtree(f"{older}/etc")
        control = read("DEBIAN/control", older).decode()
        with open(f"{older}/DEBIAN/control", "w", encoding="utf-8") as file:
            file.write(re.sub("^Version: .*", "Version: 0.9", control, flags=re.M))
        run("-b", older, self.path("older.deb"), program="dpkg-deb")
        return self.path("older.deb")

    @needs("dpkg-deb", "dpkg", "strip", "systemd-sysusers", "unshare")
    @unittest.skipIf(os.geteuid() != 0, "only root installs a package")
    def test_upgrade(self):
        """Where no systemd runs a store behind a link goes to the manager's user at each upgrade, whole, and where it
        was done nothing is; an earlier package takes it over."""
        package = self.package("copy")
        os.mkdir(self.path("root"))
        ended = run("--mount", "sh", "-eu", "-c", UPGRADES, "sh", self.path("root"), self.older(package), package, program="unshare")
        if ended.status == 99:
            self.left_out("upgrades", "no overlay can be mounted")
            return
        moved = "mud mud directory /var/lib/mud\nmud mud regular file /var/lib/mud/mud.db\nkept\nlink gone\n"
        self.note("upgrade, again, downgrade, upgrade", (0, moved * 3 + "www-data adm 2750\n"), (ended.status, ended.out.decode()))

    @needs("dpkg-deb", "strip")
    def test_two_folders(self):
        """In folders of different names the same octets come of it."""
        self.holds("the packages are the same", read(self.package("a")) == read(self.package("another-folder")))
