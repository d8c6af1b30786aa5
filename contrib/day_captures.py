"""The captures of a day, and what is heard in them, for 'mud-day', which stands beside this.

They are the files of a folder, /var/lib/mud-captures or where MUD_CAPTURES says. A day's run is made of those that have
packets of the day or of the day before, one behind the other as one capture. Of a file that is cut what is whole counts.
"""
import collections
import errno
import glob
import hashlib
import operator
import os
import struct
import time

import captures
from console import Fault

PLACE = "/var/lib/mud-captures"
DAY = 86400
# of a file the octets that count, of these the SHA-256, its packets, and the seconds of the first and the last
Piece = collections.namedtuple("Piece", "path octets sha256 packets first last")
# what was heard: the packet's number in the run, its second, the console's route, and the message or frame
Message = collections.namedtuple("Message", "number second path body")
HEAD = struct.Struct("<IHHIIII")
# of a record the second, its fraction and how much was captured; its head has so many octets
RECORD, HEAD_OF_RECORD = struct.Struct("<3I"), 16
MAGIC = b"\xd4\xc3\xb2\xa1"
# the first octet of the kind and the protocol, of frames that are all but IPv6, tagged, LLDP or UDP
QUIET = frozenset(bytes([captures.IPV4 >> 8, protocol]) for protocol in range(256) if protocol != captures.UDP)
# so many octets of a file are read at once
PART = 1 << 22
# by so many seconds the packets of one file may be out of order, and two files may overlap, before it is told
SLACK = 2


class Part(collections.namedtuple("Part", "octets starts seconds gap end")):
    """Frames by thousands: the octets, where in them each frame begins, and the seconds. Between two frames is a gap of so
    many octets, and the last one ends there."""

    __slots__ = ()

    def end_of(self, at):
        return self.starts[at + 1] - self.gap if at + 1 < len(self.starts) else self.end

    def frame(self, at):
        return self.octets[self.starts[at]:self.end_of(at)]

    def first(self, count):
        """So many frames of it."""
        return self if count >= len(self.starts) else self._replace(starts=self.starts[:count], seconds=self.seconds[:count], end=self.end_of(count - 1))


def folder():
    """Where the captures are."""
    return os.environ.get("MUD_CAPTURES") or PLACE


def clock(second):
    """A second in local time."""
    return time.strftime("%Y-%m-%d %H:%M:%S", time.localtime(second))


def bounds(date):
    """The first second of a local day, and that of the next one. A day has 23, 24 or 25 hours."""
    try:
        at = time.strptime(date, "%Y-%m-%d")
        return tuple(int(time.mktime((at.tm_year, at.tm_mon, at.tm_mday + more, 0, 0, 0, 0, 0, -1))) for more in (0, 1))
    except (ValueError, OverflowError) as failure:
        raise Fault(f"no day: {date}; one is as 2026-11-30") from failure


def day_before(date):
    """The date of the day before."""
    return time.strftime("%Y-%m-%d", time.localtime(bounds(date)[0] - DAY // 2))


class Captures:
    """The files of a day and the day before. 'pieces' are those that count, in order, 'remarks' says what is wrong with
    the others; 'messages' is what was heard of DHCP and LLDP, 'answers' each name and address that a server told to a
    hardware address."""

    def __init__(self, date, servers, show):
        self.start, self.end = bounds(date)
        self.before = bounds(day_before(date))[0]
        self.servers, self.show = servers, show
        self.pieces, self.remarks, self.messages, self.answers = [], [], [], {}
        self.number = 0

    def read(self):
        """Reads the files that have packets of the two days."""
        chosen = self.chosen()
        # of each interface the last file may be under way
        last = {interface_of(path): path for _, path in chosen}
        for at, (first, path) in enumerate(chosen, 1):
            self.show("reading the captures", f"{at} of {len(chosen)}, of {clock(first)}", at / len(chosen))
            try:
                self.take(path, path in last.values())
            except (OSError, captures.Unread) as failure:
                self.remarks.append(f"{path} is left out: {failure}")
        if not any(piece.last >= self.start and piece.first < self.end for piece in self.pieces):
            lines = self.remarks + [f"no capture in {folder()} has a packet of {clock(self.start)} to {clock(self.end)}"]
            raise Fault("\n".join(lines))

    def chosen(self):
        """The files, each with its first second, that may have packets of the two days, in the order of these."""
        found = []
        for path in sorted(glob.glob(os.path.join(glob.escape(folder()), "*.pcap*"))):
            try:
                with open(path, "rb") as file:
                    found += [(second, path) for second, _ in [next(captures.frames(file.read), (None, None))] if second is not None]
            except captures.Cut:
                self.remarks.append(f"{path} has no whole packet")
            except (OSError, captures.Unread) as failure:
                self.remarks.append(f"{path} is left out: {failure}")
        # of those that begin alike the longest goes first, as another one may be its beginning
        found.sort(key=lambda row: (row[0], -size_of(row[1]), row[1]))
        kept, following, after = [], {}, self.end
        for second, path in reversed(found):
            # a file ends where the next one of its interface begins; the last one may go on behind others
            ends = following.get(interface_of(path)) or max(after, changed(path))
            if second < self.end and ends >= self.before:
                kept.append((second, path))
            following[interface_of(path)] = after = second
        return kept[::-1]

    def take(self, path, is_last):
        """Takes a file in: what is heard in it, and what is wrong with it."""
        earlier = next((piece for piece in self.pieces if self.is_twice(piece, path)), None)
        if earlier:
            self.remarks.append(f"{path} has what {earlier.path} has: the hour is there twice, and counts once")
            return
        size, packets, first, last, self.latest = HEAD.size, 0, None, None, 0
        try:
            for part in parts_in(path):
                first, last = part.seconds[0] if first is None else first, part.seconds[-1]
                self.look_at_clock(path, part.seconds)
                self.hear_part(self.number + packets + 1, part)
                packets += len(part.seconds)
                size += part.end
        except captures.Cut:
            if not is_last or os.path.getmtime(path) < time.time() - 60:
                self.remarks.append(f"{path} is cut behind {packets} packet{'' if packets == 1 else 's'}, at {clock(last)}")
        except captures.Unread as failure:
            self.remarks.append(f"{path} can't be read behind packet {packets}: {failure}")
        if not packets:
            return
        size = size if is_plain(path) else os.path.getsize(path)
        piece = Piece(path, size, digest(path, size), packets, first, max(self.latest, last))
        before = self.pieces[-1] if self.pieces else None
        if before and first < before.last - SLACK:
            self.remarks.append(f"{path} begins at {clock(first)}, before {before.path} ends: the clock was set back, or two captured; both count")
        self.pieces.append(piece)
        self.number += packets

    def look_at_clock(self, path, seconds):
        """Tells where the clock was set back."""
        if seconds[0] >= self.latest - SLACK and seconds == sorted(seconds):
            self.latest = max(self.latest, seconds[-1])
            return
        for second in seconds:
            if second < self.latest - SLACK:
                self.remarks.append(f"{path}: at {clock(self.latest)} the clock was set back to {clock(second)}")
                self.latest = second
            self.latest = max(self.latest, second)

    def take_again(self, pieces):
        """Takes in the pieces of an earlier run, as they were."""
        for piece in pieces:
            number = self.number + 1
            for part in parts_of(piece):
                self.hear_part(number, part)
                number += len(part.seconds)
            self.pieces.append(piece)
            self.number += piece.packets

    def is_twice(self, piece, path):
        """Whether a file has the packets of one that was taken: it begins with the same octets behind its head."""
        size = min(piece.octets, os.path.getsize(path), 1 << 16)
        with open(piece.path, "rb") as one, open(path, "rb") as other:
            return one.read(size) == other.read(size)

    def hear_part(self, number, part):
        """Keeps what is heard in frames, the first of this number."""
        for at in [at for at, start in enumerate(part.starts) if part.octets[start + 12:start + 24:11] not in QUIET]:
            frame = part.frame(at)
            if of_interest(frame):
                self.hear(number + at, part.seconds[at], frame)

    def hear(self, number, second, frame):
        """Keeps a message of DHCP, a frame of LLDP, and the names of an answer by a server that is bound."""
        packet = captures.Packet(frame)
        if packet.kind == captures.LLDP:
            self.messages.append(Message(number, second, "/hear/lldp", frame))
        datagram = packet.datagram()
        if datagram is None:
            return
        source, destination, message = datagram
        if {source, destination} <= {67, 68}:
            self.messages.append(Message(number, second, "/hear/dhcp", message))
        elif source == 53 and captures.address_of(packet.source) in self.servers:
            name, found = captures.answers(message)
            for address, _ in found:
                self.answers.setdefault((packet.to, name, str(address)), second)


def interface_of(path):
    """The interface, in the name that 'capture' gives."""
    return path.rpartition("-")[0]


def size_of(path):
    """How many octets a file has, or none where it went."""
    try:
        return os.path.getsize(path)
    except OSError:
        return 0


def changed(path):
    """The second in which a file was changed last, or 0 where it went."""
    try:
        return os.path.getmtime(path)
    except OSError:
        return 0


def of_interest(frame):
    """Whether something may be heard in a frame: LLDP, or a datagram of DHCP or DNS. Quick, as it is asked of each."""
    kind = frame[12:14]
    if kind == b"\x08\x00":
        if len(frame) < 38 or frame[23] != captures.UDP:
            return False
        return frame[14] != 0x45 or frame[34:36] in (b"\0\x35", b"\0\x43", b"\0\x44")
    if kind == b"\x86\xdd":
        return len(frame) > 58 and (frame[20] in (0, 43, 44, 60) or frame[20] == captures.UDP and frame[54:56] == b"\0\x35")
    return kind in (b"\x88\xcc", b"\x81\x00", b"\x88\xa8")


def parts_in(path):
    """The frames of a file, by parts. Those that stand before a fault come before it is raised."""
    with open(path, "rb") as file:
        if file.read(4) != MAGIC or file.read(20)[16:] != b"\1\0\0\0":
            file.seek(0)
            yield from parts_of_frames(captures.frames(file.read))
            return
        held = b""
        while more := file.read(PART):
            held += more
            part = records_in(held)
            if part.seconds:
                yield part
            held = held[part.end:]
            if len(held) >= HEAD_OF_RECORD and RECORD.unpack_from(held)[2] > captures.MOST:
                raise captures.Unread("a packet of the capture is too long")
        if held:
            raise captures.Cut


def records_in(held):
    """The records of the usual form that stand whole in the octets, up to one that is too long."""
    starts, seconds, numbers, at, last = [], [], RECORD.unpack_from, 0, len(held) - HEAD_OF_RECORD
    while at <= last:
        second, _, captured = numbers(held, at)
        at += HEAD_OF_RECORD
        starts.append(at)
        seconds.append(second)
        at += captured
    part = Part(held, starts, seconds, HEAD_OF_RECORD, at)
    if at > len(held):
        part = part._replace(starts=starts[:-1], seconds=seconds[:-1], end=starts[-1] - HEAD_OF_RECORD)
    sizes = map(operator.sub, [*part.starts[1:], part.end + HEAD_OF_RECORD], part.starts)
    long = next((at for at, size in enumerate(sizes) if size > captures.MOST + HEAD_OF_RECORD), None) if len(held) > captures.MOST else None
    return part if long is None else part._replace(starts=part.starts[:long], seconds=part.seconds[:long], end=part.starts[long] - HEAD_OF_RECORD)


def parts_of_frames(frames):
    """The same of frames that come one by one."""
    held, size, starts, seconds, fault = [], 0, [], [], None
    while fault is None:
        try:
            second, frame = next(frames)
        except StopIteration:
            break
        except captures.Unread as failure:
            fault = failure
            break
        held.append(frame)
        starts.append(size)
        seconds.append(second)
        size += len(frame)
        if size > PART:
            yield Part(b"".join(held), starts, seconds, 0, size)
            held, size, starts, seconds = [], 0, [], []
    if seconds:
        yield Part(b"".join(held), starts, seconds, 0, size)
    if fault:
        raise fault


def parts_of(piece):
    """The frames of a piece, by parts."""
    left = piece.packets
    if not os.path.exists(piece.path):
        raise Fault(f"{piece.path} went while the day was made")
    for part in parts_in(piece.path):
        yield part.first(left)
        left -= len(part.seconds)
        if left <= 0:
            return


def heads_of(pieces):
    """The seconds and the hardware addresses of the run's frames, by parts: twelve octets, or the whole of a shorter frame."""
    for piece in pieces:
        for part in parts_of(piece):
            octets, starts = part.octets, part.starts
            if min(map(operator.sub, [*starts[1:], part.end + part.gap], starts)) < 12 + part.gap:
                yield part.seconds, [part.frame(at)[:12] for at in range(len(starts))]
            else:
                yield part.seconds, [octets[start:start + 12] for start in starts]


def is_plain(path):
    """Whether a file's records can be taken into the run as they are."""
    with open(path, "rb") as file:
        return file.read(4) == MAGIC


def digest(path, size):
    """The SHA-256 of the first octets of a file."""
    sha = hashlib.sha256()
    with open(path, "rb") as file:
        while size and (part := file.read(min(size, 1 << 20))):
            sha.update(part)
            size -= len(part)
    return sha.hexdigest()


def check(pieces):
    """What of the captures isn't there as it was, in words, or None."""
    gone = [piece.path for piece in pieces if not os.path.exists(piece.path)]
    if gone:
        return f"{len(gone)} of {len(pieces)} captures are gone, as {gone[0]}"
    changed = [piece.path for piece in pieces if digest(piece.path, piece.octets) != piece.sha256]
    return f"{changed[0]} isn't what it was" if changed else None


def write_joined(pieces, sink):
    """Writes the pieces as one capture in the classic format in this order of octets."""
    sink.write(HEAD.pack(0xA1B2C3D4, 2, 4, 0, 0, 262144, captures.ETHERNET))
    for piece in pieces:
        if is_plain(piece.path):
            sink.flush()
            send(piece, sink)
            continue
        for part in parts_of(piece):
            for at, second in enumerate(part.seconds):
                frame = part.frame(at)
                sink.write(struct.pack("<4I", second, 0, len(frame), len(frame)) + frame)
    sink.flush()


def send(piece, sink):
    """Writes the records of a piece as they are, by the kernel where it can."""
    with open(piece.path, "rb") as file:
        at = HEAD.size
        try:
            while at < piece.octets and (sent := os.sendfile(sink.fileno(), file.fileno(), at, piece.octets - at)):
                at += sent
        except OSError as failure:
            if failure.errno != errno.EINVAL:
                raise
            file.seek(at)
            while at < piece.octets and (part := file.read(min(piece.octets - at, 1 << 18))):
                sink.write(part)
                at += len(part)
