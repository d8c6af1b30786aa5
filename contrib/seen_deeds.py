"""What a Thing did in a capture, for 'draft', which stands beside this file.

A deed is what was seen of one kind with one address: connections that one side began to one port, datagrams of one
server's port, one type of ICMP, or another protocol. A Reader takes frame by frame, and keeps for each deed how often
and when it was seen. What belongs to a connection is told as the manager tells it: by its first SYN, until a reset
or a long silence. An error of ICMP is a deed, too, and belongs to what it quotes.
"""
import re
import time

import captures

FROM, TO = "from-device", "to-device"
# behind a longer silence the manager doesn't know a connection any more
SILENCE = 7440
# behind a pause of so many seconds what goes on is seen for another time
PAUSE = 600
SLOT = 900
NIGHT = range(0, 6)
DNS, NTP, DHCP = 53, 123, 67
SYN, RST, ACK = 2, 4, 16
# types of ICMP: by IP version a ping and its answer, and what says that a packet wasn't delivered
PING, PONG = {4: (8, 0), 6: (128, 0)}, {4: (0, 0), 6: (129, 0)}
UNDELIVERED = {4: 3, 6: 1}
# which errors say that a packet is too large for its way
TOO_LARGE = {(4, (3, 4)), (6, (2, 0))}
RESET, UNREACHABLE = "reset", "unreachable"
# of what is seen from several ports of the side that isn't the server's
SEVERAL = -1
# what an error quotes that has no deed
DEFAULTS = "default"
# how many connections are remembered before those that are silent are forgotten, and how many packets in fragments
ROOM, PIECES = 1 << 18, 1 << 12
# behind so many deeds an address isn't told from others any more
DEEDS = 1 << 16
LABEL = "[a-z0-9_](?:[a-z0-9_-]{0,61}[a-z0-9_])?"
HOST = re.compile(rf"{LABEL}(?:\.{LABEL})*")


class Deed:
    """How often and when something was seen, and `sent` how many of its packets the Thing sent. Of what was seen with
    several addresses `peers` is these, each with whether it answered, and `unbegun` how many segments stand beside it
    that no SYN began. Of what was seen with one, `found` is with what others it stands in the file, and `server` who was
    seen to answer a SYN. `refused` says by what it was refused, `quotes` of which deeds it tells, `pieces` how many later
    fragments belong to it, and `client` from which port the side spoke that isn't the server's."""

    __slots__ = ("packets", "sent", "times", "first", "last", "slots", "slot", "answered", "peers", "unbegun", "found", "server",
                 "refused", "quotes", "pieces", "client")

    def __init__(self, now):
        self.packets, self.sent, self.times, self.first, self.last = 0, 0, 0, now, now
        self.slots, self.slot, self.answered, self.peers, self.unbegun = set(), None, False, {}, 0
        self.found, self.server, self.pieces, self.client = None, None, 0, None
        self.refused, self.quotes = frozenset(), frozenset()

    def sight(self, now, is_sent):
        """A packet of it."""
        self.packets += 1
        self.sent += is_sent
        self.last = now
        slot = now // SLOT
        if slot != self.slot:
            self.slot = slot
            self.slots.add(slot)

    def speaks(self, port):
        """The side that isn't the server's speaks from this port."""
        self.client = port if self.client in (None, port) else SEVERAL

    def add(self, other, peer):
        """Takes in another one, with one address."""
        self.packets += other.packets
        self.sent += other.sent
        self.times += other.times
        self.first, self.last = min(self.first, other.first), max(self.last, other.last)
        self.slots |= other.slots
        self.answered |= other.answered
        self.refused |= other.refused
        self.quotes |= other.quotes
        self.pieces += other.pieces
        if other.client is not None:
            self.speaks(other.client)
        self.peers[peer] = self.peers.get(peer, False) or other.answered

    def days(self):
        """The days on which it was seen."""
        return {time.localtime(slot * SLOT)[:3] for slot in self.slots}

    def is_nightly(self):
        """Whether it was seen at night alone."""
        return all(time.localtime(slot * SLOT).tm_hour in NIGHT for slot in self.slots)


def rank(port):
    """Of two ports the one with the lower rank is rather the server's."""
    return 0 if port < 1024 else 1 if port < 32768 else 2


class Reader:
    """What was seen of the Thing with a hardware address. `dns` and `ntp` are the addresses of the servers, in octets,
    that the manager's default entries let it ask, and `servers` those of a port that it used. Of each address `names` has
    the first name and `latest` the last."""

    def __init__(self, mac, dns=(), ntp=()):
        self.mac = bytes.fromhex(mac.replace(":", ""))
        self.dns, self.ntp = frozenset(dns), frozenset(ntp)
        self.deeds, self.streams, self.datagrams, self.room = {}, {}, {}, ROOM
        self.wholes, self.vlans = {}, set()
        self.names, self.latest, self.resolvers = {}, {}, set()
        self.now = self.first = None
        self.slots, self.servers = set(), {DNS: set(), NTP: set()}
        self.counts = dict.fromkeys(("sent", "received", "tagged", "link", "default", "fragment", "unreadable"), 0)

    def take(self, seconds, frame):
        """Takes a frame; answers the deed that it is of, or the word by which it is counted, or None where it isn't the
        Thing's."""
        is_sent = frame[6:12] == self.mac
        if not is_sent and frame[:6] != self.mac:
            return None
        self.counts["sent" if is_sent else "received"] += 1
        if self.first is None:
            self.first = self.now = seconds
        self.now = max(self.now, seconds)
        self.slots.add(self.now // SLOT)
        packet = captures.Packet(frame)
        if packet.vlans:
            self.counts["tagged"] += 1
            self.vlans.update(packet.vlans)
        word = self.word_of(packet) or (DEFAULTS if self.is_default(packet, is_sent) else None)
        if not is_sent and packet.layer == "udp" and packet.pair[0] == DNS:
            self.hear_names(packet)
        if word:
            self.counts[word] += 1
            return word
        deed = self.deed_of(packet, is_sent)
        deed.sight(self.now, is_sent)
        if packet.whole:
            self.remember(packet.whole, deed)
        return deed

    def word_of(self, packet):
        """By what a packet is counted that no entry speaks of."""
        if packet.part:
            return "unreadable"
        if packet.later and packet.whole in self.wholes:
            self.wholes[packet.whole].pieces += 1
        return "link" if packet.is_link else "fragment" if packet.later else None

    def remember(self, whole, deed):
        """Remembers of which deed the first fragment of a packet was."""
        self.wholes[whole] = deed
        if len(self.wholes) > PIECES:
            del self.wholes[next(iter(self.wholes))]

    def is_default(self, packet, is_sent):
        """Whether the default entries let it pass."""
        if packet.layer != "udp":
            return False
        peer, port = (packet.destination, packet.pair[1]) if is_sent else (packet.source, packet.pair[0])
        is_so = (port == DNS and peer in self.dns) or (port == NTP and peer in self.ntp)
        if is_so:
            self.servers[port].add(peer)
        return is_so

    def hear_names(self, packet):
        """Takes the names of an answer of a DNS server to the Thing."""
        datagram = packet.datagram()
        if datagram is None or (self.dns and packet.source not in self.dns):
            return
        name, found = captures.answers(datagram[2])
        if not HOST.fullmatch(name) or len(name) > 253:
            return
        for address, _ in found:
            self.resolvers.add(packet.source)
            self.latest[address.packed] = name
            self.names.setdefault(address.packed, name)

    def deed_at(self, version, peer, *what):
        """The deed of what was seen with a peer under its present name."""
        key = (version, peer, self.latest.get(peer), *what)
        deed = self.deeds.get(key)
        if deed is None and len(self.deeds) >= DEEDS:
            key = (version, None, *key[2:])
            deed = self.deeds.get(key)
        if deed is None:
            deed = self.deeds[key] = Deed(self.now)
        return deed

    def deed_of(self, packet, is_sent):
        """The deed that a packet is of."""
        pair, version = packet.pair, packet.version
        own, peer = (packet.source, packet.destination) if is_sent else (packet.destination, packet.source)
        if is_sent and packet.frame[0] & 1:
            what = ("udp", FROM, pair[1]) if packet.layer == "udp" else self.plain(packet, is_sent)
            return self.at_times(self.deed_at(version, peer, "group", *what))
        if packet.layer in ("tcp", "udp"):
            ends = (own, peer, *(pair if is_sent else pair[::-1]))
            if len(self.streams) + len(self.datagrams) > self.room:
                self.forget()
            take = self.segment if packet.layer == "tcp" else self.datagram
            return take(version, ends, is_sent, packet.flags if packet.layer == "tcp" else 0)
        deed = self.at_times(self.deed_at(version, peer, "", *self.plain(packet, is_sent)))
        if packet.layer == "icmp":
            self.tie(packet, deed, peer, is_sent)
        return deed

    def tie(self, packet, deed, peer, is_sent):
        """Ties an answer to a ping, or an error, to what it is of."""
        side, other = (FROM, TO) if is_sent else (TO, FROM)
        if packet.pair == PONG[packet.version]:
            ping = self.deeds.get((packet.version, peer, self.latest.get(peer), "", "icmp", other, PING[packet.version]))
            if ping:
                ping.answered = True
        elif packet.is_error():
            told, began = self.told_of(packet.quoted(), is_sent)
            deed.quotes |= {told} - {None}
            is_refusal = packet.pair[0] == UNDELIVERED[packet.version] and (packet.version, packet.pair) not in TOO_LARGE
            if told and is_refusal and began not in (None, side):
                told.refused |= {UNREACHABLE}

    def told_of(self, quoted, is_sent):
        """The deed of the packet that an error quotes, and who began it; of what is left to the defaults a word."""
        if quoted is None:
            return None, None
        # who sends the error has received the packet, or was on its way
        if self.is_default(quoted, not is_sent):
            return DEFAULTS, None
        own, peer = (quoted.destination, quoted.source) if is_sent else (quoted.source, quoted.destination)
        if quoted.layer == "icmp":
            began = TO if is_sent else FROM
            return self.deeds.get((quoted.version, peer, self.latest.get(peer), "", "icmp", began, quoted.pair)), began
        table = self.streams if quoted.layer == "tcp" else self.datagrams
        flow = table.get((own, peer, *(quoted.pair[::-1] if is_sent else quoted.pair)))
        return flow[:2] if flow else (None, None)

    def plain(self, packet, is_sent):
        """What a packet without ports is of; where a group is sent TCP, that is told as a protocol."""
        side = FROM if is_sent else TO
        return ("icmp", side, packet.pair) if packet.layer == "icmp" else ("protocol", side, packet.protocol)

    def at_times(self, deed):
        """The deed, seen for another time where there was a pause."""
        if not deed.packets or self.now - deed.last >= PAUSE:
            deed.times += 1
        return deed

    def segment(self, version, ends, is_sent, flags):
        """The deed of a TCP segment."""
        stream = self.streams.get(ends)
        if flags & (SYN | RST | ACK) == SYN:
            began = FROM if is_sent else TO
            # a SYN that comes again begins no other connection
            if stream is None or stream[3] or stream[1] != began:
                deed = self.deed_at(version, ends[1], "", "tcp", began, ends[3] if is_sent else ends[2])
                deed.times += 1
                self.streams[ends] = stream = [deed, began, self.now, False]
            stream[2] = self.now
            return stream[0]
        if stream is None or self.now - stream[2] > SILENCE:
            self.streams.pop(ends, None)
            return self.stray(version, ends, is_sent, flags)
        deed, began, _, _ = stream
        stream[2], stream[3] = self.now, True
        if not flags & RST:
            # whoever goes on behind the first SYN had an answer, or gives it
            deed.answered = True
            return deed
        if is_sent == (began == TO):
            deed.refused |= {RESET}
        del self.streams[ends]
        return deed

    def stray(self, version, ends, is_sent, flags):
        """The deed of a segment whose connection nobody was seen to begin."""
        deed = self.at_times(self.deed_at(version, ends[1], "", "tcp", None, ends[2:]))
        if flags & (SYN | ACK) == SYN | ACK:
            deed.server = TO if is_sent else FROM
        if flags & RST:
            deed.refused |= {RESET}
        else:
            deed.answered = True
        return deed

    def datagram(self, version, ends, is_sent, _):
        """The deed of a datagram. The server is whom the first one is for, unless the sender's port rather is one."""
        flow = self.datagrams.get(ends)
        if flow is None:
            sender, receiver = ends[2:] if is_sent else ends[:1:-1]
            began = FROM if is_sent == (rank(receiver) <= rank(sender)) else TO
            deed = self.deed_at(version, ends[1], "", "udp", began, ends[3] if began == FROM else ends[2])
            deed.speaks(ends[2] if began == FROM else ends[3])
            self.datagrams[ends] = flow = [deed, began, None]
        deed, began, last = flow
        if last is None or self.now - last >= PAUSE:
            deed.times += 1
        flow[2] = self.now
        if is_sent == (began == TO):
            deed.answered = True
        return deed

    def forget(self):
        """Forgets the connections that the manager wouldn't know either."""
        for table in (self.streams, self.datagrams):
            for ends in [ends for ends, flow in table.items() if self.now - flow[2] > SILENCE]:
                del table[ends]
        self.room = max(ROOM, 2 * (len(self.streams) + len(self.datagrams)))
