"""The check of a usage file's signature (RFC 8520, section 13), by openssl, for the programs beside this file.

A signature is a detached CMS in DER. Whose it has to be is said by the anchors of the URL's own host alone: the file
/etc/mud/makers.d/HOST.pem, or the folder that MUD_MAKERS names. So one maker can't sign for another. The signing
certificate has to have the key usage digitalSignature; MD5, SHA-1 and short keys are refused.
"""
import collections
import json
import os
import re
import subprocess
import tempfile

PLACE = "/etc/mud/makers.d"
MEDIA = "application/pkcs7-signature"
MOST = 262144
SECONDS = 10
# what openssl says of a chain that doesn't hold, and what it is called here
CHAINS = {"certificate has expired": "ended", "certificate is not yet valid": "not-begun", "too weak": "weak", "too small": "weak",
          "unable to get local issuer certificate": "another-anchor", "self-signed certificate": "another-anchor",
          "unable to get issuer certificate": "another-anchor", "unable to verify the first certificate": "another-anchor"}
OLD = re.compile(r"^[ \t]*[a-z ]{0,30}algorithm: [^\n]{0,80}?(md[245]|sha-?1\b|sha1with|with-sha1\b)", re.I | re.M)
with open(os.path.join(os.path.dirname(os.path.realpath(__file__)), "sentences.json"), encoding="utf-8") as table:
    MEANINGS = json.load(table)["outcome"]
# there is a signature and an anchor, and it doesn't hold
BAD = ("other-octets", "ended", "not-begun", "another-anchor", "weak", "usage", "unreadable")

# what came of a check: one of MEANINGS, why a signature can't be got, and of a certificate that signed its subject, its
# issuer and its end
Outcome = collections.namedtuple("Outcome", "word why signer issuer ends", defaults=("", None, None, None))


def anchors_of(host):
    """The path of a host's anchors, or None."""
    if not re.fullmatch(r"[a-z0-9]([a-z0-9.-]*[a-z0-9])?", host):
        return None
    path = os.path.join(os.environ.get("MUD_MAKERS") or PLACE, host + ".pem")
    return path if os.path.isfile(path) else None


class Unchecked(Exception):
    """Why nothing can be said of a signature: the fault isn't the maker's."""


def openssl(*words):
    """A run of openssl: whether it was done, and what it wrote."""
    try:
        ended = subprocess.run(["openssl", *words], stdin=subprocess.DEVNULL, stdout=subprocess.PIPE, stderr=subprocess.STDOUT,
                               timeout=SECONDS, check=False)
    except (OSError, subprocess.TimeoutExpired) as failure:
        raise Unchecked(f"openssl: {failure}") from None
    return ended.returncode == 0, ended.stdout.decode("utf-8", "replace")


def chain_of(said):
    """What the outcome is where openssl doesn't verify."""
    failure = re.search(r"Verify error: ?(.*)", said)
    if failure:
        return next((word for words, word in CHAINS.items() if words in failure[1]), "another-anchor")
    return "other-octets" if "verification failure" in said or "digest" in said else "unreadable"


def signers_of(path):
    """What the certificates that signed say: subject, issuer and end of the first, and whether each may sign."""
    with open(path, encoding="ascii") as file:
        texts = re.findall(r"-----BEGIN CERTIFICATE-----.*?-----END CERTIFICATE-----", file.read(), re.S)
    said, may_sign = [], bool(texts)
    for text in texts:
        with tempfile.NamedTemporaryFile("w", encoding="ascii") as one:
            one.write(text)
            one.flush()
            words = ("-noout", "-subject", "-issuer", "-enddate", "-ext", "keyUsage", "-nameopt", "sep_comma_plus_space,esc_ctrl,esc_msb")
            lines = openssl("x509", "-in", one.name, *words)[1].splitlines()
        said.append([line.partition("=")[2].strip() for line in lines[:3]])
        may_sign = may_sign and "Digital Signature" in " ".join(lines[3:])
    return said[0] if said and len(said[0]) == 3 else [None] * 3, may_sign


def check(octets, signature, host):
    """The outcome of a check of the file's octets by the signature's, with the anchors of this host."""
    anchors = anchors_of(host)
    if not anchors:
        return Outcome("no-anchor")
    try:
        if not openssl("x509", "-in", anchors, "-noout")[0]:
            raise Unchecked(f"{anchors} has no certificate in PEM that can be read")
        return checked(octets, signature, anchors)
    except (Unchecked, OSError) as failure:
        return Outcome("not-checked", str(failure))


def checked(octets, signature, anchors):
    """The same with the anchors of a file."""
    with tempfile.TemporaryDirectory() as folder:
        paths = {name: os.path.join(folder, name) for name in ("file", "signature", "signer")}
        for name, content in (("file", octets), ("signature", signature)):
            with open(paths[name], "wb") as file:
                file.write(content)
        readable, printed = openssl("cms", "-cmsout", "-print", "-noout", "-inform", "DER", "-in", paths["signature"])
        if not readable:
            return Outcome("unreadable")
        done, said = openssl("cms", "-verify", "-binary", "-inform", "DER", "-in", paths["signature"], "-content", paths["file"],
                             "-purpose", "any", "-auth_level", "2", "-CAfile", anchors, "-no-CApath", "-no-CAstore",
                             "-out", os.devnull, "-signer", paths["signer"])
        if not done:
            return Outcome(chain_of(said))
        signer, may_sign = signers_of(paths["signer"])
        return Outcome("weak" if OLD.search(printed) else "good" if may_sign else "usage", "", *signer)
