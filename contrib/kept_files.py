"""The folder of usage files, for the programs that stand beside this file.

A store's files can't be read while it is served: the console lists their digests alone. So whoever posts a file
keeps its octets in a folder, each under its SHA-256: /var/lib/mud-files, or where MUD_FILES says. The manager
neither writes nor reads there. Whoever reads computes the digest: octets of another one count as missing.
"""
import hashlib
import os
import shutil
import tempfile

PLACE = "/var/lib/mud-files"
# a usage file has no more octets
MOST = 262144


def folder():
    """Where the files are."""
    return os.environ.get("MUD_FILES") or PLACE


def digest(octets):
    """The SHA-256 of the octets, as a verdict names it."""
    return hashlib.sha256(octets).hexdigest()


def path_of(sha256):
    """Where the file of a digest is."""
    return os.path.join(folder(), sha256 + ".json")


def octets_of(sha256):
    """The octets of this digest, or None where they aren't there."""
    try:
        with open(path_of(sha256), "rb") as file:
            octets = file.read(MOST + 1)
    except OSError:
        return None
    return octets if digest(octets) == sha256 else None


def write_whole(path, source, mode=None):
    """Writes octets, or what a file has, to a file that is there whole or not at all, with these rights or with
    those that the umask leaves."""
    place, name = os.path.split(os.path.abspath(path))
    number, beside = tempfile.mkstemp(prefix=f".{name}.", dir=place)
    try:
        with open(number, "wb") as file:
            if isinstance(source, bytes):
                file.write(source)
            else:
                shutil.copyfileobj(source, file)
            file.flush()
            os.fsync(file.fileno())
        mask = os.umask(0)
        os.umask(mask)
        os.chmod(beside, 0o666 & ~mask if mode is None else mode)
        os.replace(beside, path)
    except BaseException:
        os.unlink(beside)
        raise


def keep(octets):
    """Keeps the octets in the folder, which is made where there is none, and says their digest. Anybody may read
    there, as what looks after rules does with a user of its own."""
    sha256 = digest(octets)
    if octets_of(sha256) is None:
        if not os.path.isdir(folder()):
            os.makedirs(folder())
            os.chmod(folder(), 0o755)
        write_whole(path_of(sha256), octets, 0o644)
    return sha256


def drop(sha256):
    """Takes the octets of this digest away."""
    os.unlink(path_of(sha256))
