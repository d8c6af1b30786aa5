"""The built program: runs of it, its console, and what is sent to it. MUD names another one."""
import collections
import contextlib
import os
import re
import shutil
import socket
import struct
import subprocess
import threading
import time

from checks.texts import HERE



def built():
    """The program of ./build, or else the one that the gate left."""
    left = os.path.join(HERE, "crates/mud/out/mud")
    made = os.path.join(HERE, "out/mud")
    return made if os.path.exists(made) or not os.path.exists(left) else left


PROGRAM = os.path.abspath(os.environ.get("MUD") or built())
CLOSED = object()
SECONDS = 120

# a run: its status, the octets of standard output and of standard error, and how many of its input's file are left
Ended = collections.namedtuple("Ended", "status out errors left")


def run(*words, input=b"", out=None, program=PROGRAM, **more):
    """Runs the program to its end. The input is octets, the path of a file, or CLOSED; what it writes goes to the
    file at the path 'out', or nowhere where that is CLOSED. More are words of subprocess.Popen."""
    closed = [number for number, stream in ((0, input), (1, out)) if stream is CLOSED]
    more = {"preexec_fn": lambda: list(map(os.close, closed)), **more} if closed else more
    with contextlib.ExitStack() as opened:
        file = opened.enter_context(open(input, "rb") if not os.path.isdir(input) else folder_at(input)) if isinstance(input, str) else None
        taker = subprocess.PIPE if out is None else None if out is CLOSED else opened.enter_context(open(out, "wb"))
        given = file if file else None if input is CLOSED else subprocess.PIPE
        ran = subprocess.Popen([program, *words], stdin=given, stdout=taker, stderr=subprocess.PIPE, **more)
        try:
            written, errors = ran.communicate(input if isinstance(input, bytes) else None, timeout=SECONDS)
        except subprocess.TimeoutExpired:
            ran.kill()
            ran.communicate()
            raise AssertionError(f"it goes on after {SECONDS} seconds: {words}") from None
        is_file = file and os.path.isfile(input)
        left = os.path.getsize(input) - os.lseek(file.fileno(), 0, os.SEEK_CUR) if is_file else None
    return Ended(ran.returncode, written, errors, left)


def run_by_reads(pieces, *words, program=PROGRAM, errors=subprocess.PIPE):
    """The same of an input of which each read gives one of these pieces: a socket of this kind gives one packet a read.
    What of a packet a reader has no room for is lost."""
    ours, theirs = socket.socketpair(socket.AF_UNIX, socket.SOCK_SEQPACKET)
    with ours:
        with theirs:
            ran = subprocess.Popen([program, *words], stdin=theirs, stdout=subprocess.PIPE, stderr=errors)
        giver = threading.Thread(target=send_all, args=(ours, pieces))
        giver.start()
        try:
            written, said = ran.communicate(timeout=SECONDS)
        except subprocess.TimeoutExpired:
            ran.kill()
            return Ended(None, *ran.communicate(), None)
        finally:
            giver.join()
    return Ended(ran.returncode, written, said, None)


def send_all(port, pieces):
    """Sends pieces while somebody takes them, and that there is no more."""
    with contextlib.suppress(OSError):
        for piece in pieces:
            port.send(piece)
        port.shutdown(socket.SHUT_WR)


@contextlib.contextmanager
def folder_at(path):
    """A descriptor of a folder."""
    number = os.open(path, os.O_RDONLY)
    try:
        yield number
    finally:
        os.close(number)


# ---- Requests and answers

def request(method, target, body=b"", moment=1000):
    """A request of the console; one without a moment has no header of it, and a GET no length."""
    body = body if isinstance(body, bytes) else body.encode()
    head = f"{method} {target} HTTP/1.1\r\n" + (f"Mud-Moment: {moment}\r\n" if moment is not None else "")
    return (head + (f"Content-Length: {len(body)}\r\n" if method != "GET" else "") + "\r\n").encode() + body


Answer = collections.namedtuple("Answer", "status closes body octets")


def answers(octets):
    """The answers that octets have; the last one may be cut."""
    found = []
    while octets:
        head, end, rest = octets.partition(b"\r\n\r\n")
        length = int(re.search(rb"\r\nContent-Length: ([0-9]+)", head)[1]) if end else 0
        whole = octets[:len(head) + len(end) + length]
        found.append(Answer(int(head.split()[1]) if end else 0, b"\r\nConnection: close" in head, rest[:length], whole))
        octets = rest[length:]
    return found


def sent(port, octets, ends=True):
    """What comes back of a connection on which the octets are sent, up to its end."""
    with socket.create_connection(("127.0.0.1", port), timeout=SECONDS) as client:
        client.sendall(octets)
        if ends:
            client.shutdown(socket.SHUT_WR)
        return b"".join(iter(lambda: client.recv(65536), b""))


# ---- The console at a port

def free_port():
    """A port of 127.0.0.1 that is free."""
    with socket.socket() as one:
        one.bind(("127.0.0.1", 0))
        return one.getsockname()[1]


def listens(port):
    """Whether somebody does."""
    with open("/proc/net/tcp", encoding="ascii") as table:
        rows = [line.split() for line in list(table)[1:]]
    return any(row[1].endswith(f":{port:04X}") and row[3] == "0A" for row in rows)


def until(holds, seconds=10.0, pause=0.01):
    """Waits until something holds, and says whether it does."""
    end = time.monotonic() + seconds
    while not (truth := holds()) and time.monotonic() < end:
        time.sleep(pause)
    return truth


class Server:
    """The program, which serves so many connections over a store: with Server(1) as server: .. server.port .."""

    def __init__(self, count, store=":memory:", program=PROGRAM):
        self.words, self.program = (count, store), program

    def __enter__(self):
        for _ in range(9):
            self.port = free_port()
            if self.start():
                return self
            self.process.communicate()
        raise AssertionError("the program listens on no port")

    def start(self):
        """Starts it at its port. Whether it listens there."""
        count, store = self.words
        self.process = subprocess.Popen([self.program, "serve", store, str(self.port), str(count)],
                                        stdin=subprocess.DEVNULL, stdout=subprocess.PIPE, stderr=subprocess.PIPE)
        until(lambda: listens(self.port) or self.process.poll() is not None)
        return self.process.poll() is None

    def __exit__(self, *_):
        self.kill()

    def kill(self):
        """Ends it, and gives what it has printed."""
        self.process.kill()
        return self.process.communicate()[0]

    def ended(self, case, what):
        """It has served all: two comparisons of the case, that its status is 0 and that it has printed nothing."""
        with contextlib.suppress(subprocess.TimeoutExpired):
            self.process.wait(timeout=10)
        case.note(what + ", status", 0, self.process.poll())
        case.note(what + ", octets printed", b"", self.kill())


TABLES = ("things", "files", "classes", "locals", "names")


def tables_of(store):
    """The listings of a store that is opened again, and the status."""
    ended = run("replay", store, input=b"".join(request("GET", "/" + table, moment=0) for table in TABLES))
    return ended.status, ended.out


# ---- Captures and stores

def capture(packets, link=1, order="<", magic=0xA1B2C3D4):
    """A capture in the classic format of packets, each its second and its octets."""
    head = struct.pack(order + "IHHIIII", magic, 2, 4, 0, 0, 262144, link)
    return head + b"".join(struct.pack(order + "IIII", second, 0, len(octets), len(octets)) + octets for second, octets in packets)


def packets_of(octets):
    """The packets that are whole of a capture in the classic format, up to its end or its first fault: of each the offset
    behind it, its second and its octets."""
    order = {b"\xd4\xc3\xb2\xa1": "<", b"\x4d\x3c\xb2\xa1": "<", b"\xa1\xb2\xc3\xd4": ">", b"\xa1\xb2\x3c\x4d": ">"}.get(octets[:4])
    found, end = [], 24
    if len(octets) < 24 or not order or struct.unpack_from(order + "HH12xI", octets, 4) != (2, 4, 1):
        return found
    while end + 16 <= len(octets):
        second, _, size, _ = struct.unpack_from(order + "IIII", octets, end)
        if size > 262144 or end + 16 + size > len(octets):
            break
        found.append((end + 16 + size, second, octets[end + 16:end + 16 + size]))
        end += 16 + size
    return found


def packet_ends(octets):
    """The offsets behind the header of a capture and behind each packet that is whole."""
    return [24] + [end for end, _, _ in packets_of(octets)]


ITEMS = "CREATE TABLE item (kind INTEGER NOT NULL, name BLOB NOT NULL, body BLOB NOT NULL, PRIMARY KEY (kind, name)) STRICT"


def clear_store(store):
    """Takes a store's files away."""
    for end in ("", "-wal", "-shm", "-journal"):
        with contextlib.suppress(FileNotFoundError):
            os.remove(store + end)


def copy_store(store, to):
    """Copies a store with the file of its log."""
    clear_store(to)
    for end in ("", "-wal"):
        if os.path.exists(store + end):
            shutil.copy(store + end, to + end)


def read(name, folder=HERE):
    """The octets of a file, by its path below the top."""
    with open(os.path.join(folder, name), "rb") as file:
        return file.read()


def table(path):
    """The rows of a table of examples, without its first line."""
    return [line.split("\t") for line in read(path).decode().split("\n")[1:] if line]
