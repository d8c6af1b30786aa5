"""What the operator says to 'fetch' in /etc/mud/fetch.conf, or in the file that MUD_FETCH_CONF names."""
import configparser
import ipaddress
import json
import os
import shlex
import subprocess
import sys

import https_get

PLACE = "/etc/mud/fetch.conf"
SECTION = "fetch"
SECONDS = 10
# each word that may be said, with what it is where nothing is said
DEFAULTS = {"private": "no", "trust": "", "proxy": "", "language": "en", "approve": "none", "reject": "none", "notify": ""}
VALUES = {"private": ("no", "yes"), "approve": ("none", "verified"), "reject": ("none", "bad")}


class Misconfigured(Exception):
    """What is wrong with the configuration, in words."""


def said():
    """What the file says, and the defaults for the rest."""
    path = os.environ.get("MUD_FETCH_CONF") or PLACE
    parser = configparser.ConfigParser(interpolation=None)
    try:
        with open(path, encoding="utf-8") as file:
            parser.read_file(file, path)
    except FileNotFoundError:
        return dict(DEFAULTS)
    except (OSError, ValueError, configparser.Error) as failure:
        raise Misconfigured(f"{path} can't be read: {' '.join(str(failure).split())}") from failure
    found = dict(parser[SECTION]) if parser.has_section(SECTION) else {}
    for section in parser.sections():
        if section != SECTION:
            raise Misconfigured(f"{path}: there is no section [{section}]")
    for name, value in found.items():
        if name not in DEFAULTS:
            raise Misconfigured(f"{path}: '{name}' is none of {', '.join(DEFAULTS)}")
        if value not in VALUES.get(name, (value,)):
            raise Misconfigured(f"{path}: {name} is {' or '.join(VALUES[name])}, and not '{value}'")
    return {**DEFAULTS, **found}


class Settings:
    """The settings of a run."""

    def __init__(self):
        words = said()
        self.rules = https_get.Rules(words["private"] == "yes", (), words["trust"] or None, words["proxy"] or None, words["language"])
        if words["trust"] and not os.path.isfile(words["trust"]):
            raise Misconfigured(f"trust is a file of anchors, and {words['trust']} is none")
        self.approves_verified = words["approve"] == "verified"
        self.rejects_bad = words["reject"] == "bad"
        self.program = os.environ.get("MUD") or "mud"
        try:
            self.command = shlex.split(words["notify"])
        except ValueError as failure:
            raise Misconfigured(f"notify can't be read: {failure}") from failure

    def is_near(self, locals_told):
        """The networks that the machine is in: those that the manager was told, and those of its own interfaces."""
        try:
            said = json.loads(subprocess.run(["ip", "-j", "addr"], capture_output=True, timeout=SECONDS, check=False).stdout)
        except (OSError, ValueError, subprocess.SubprocessError):
            said = []
        own = [f"{it['local']}/{it['prefixlen']}" for row in said for it in row.get("addr_info", []) if "local" in it]
        self.rules = self.rules._replace(near=tuple(ipaddress.ip_network(text, strict=False) for text in [*locals_told, *own]))

    def notify(self, line):
        """Calls the operator's command with the line as its last word."""
        if not self.command:
            return
        try:
            subprocess.run([*self.command, line], stdin=subprocess.DEVNULL, timeout=SECONDS, check=True)
        except (OSError, subprocess.SubprocessError) as failure:
            print(f"fetch: notify: {failure}", file=sys.stderr)
