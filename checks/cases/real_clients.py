"""Serves the console to real clients: curl, http.client, one octet a write, some that go away, one that takes nothing, a slow one.

Each that takes answers has to get those of examples/replay/any-moment.session. Behind the client that takes nothing
the next one waits for some three minutes.
"""
import functools
import http.client
import itertools
import json
import os
import re
import socket
import struct
import subprocess
import threading
import time

from checks import program, session
from checks.case import ProgramCase, needs
from checks.program import Server, request, run, sent

CLASS = '{"address":"192.0.2.53","class":"urn:ietf:params:mud:dns"}'


def connected(port, timeout=60):
    return socket.create_connection(("127.0.0.1", port), timeout=timeout)


@functools.lru_cache(None)
def asked():
    return session.runs_of("examples/replay/any-moment.session")[0]


class Clients(ProgramCase):
    def answers(self, what, got):
        """The statuses and the bodies that came, in their order, are those that are wanted."""
        self.note(what + ", statuses", [(one[0], one[1], one[2]) for one in asked().requests],
                  [(one[0], one[1], status) for one, (status, _) in zip(asked().requests, got)])
        for number, (one, (_, body)) in enumerate(zip(asked().requests, got), 1):
            self.note(f"{what}, body of request {number}", one[4], body)

    def test_http_client(self):
        with Server(1) as server:
            connection = http.client.HTTPConnection("127.0.0.1", server.port, timeout=60)
            got = []
            for method, target, _, body, _ in asked().requests:
                connection.request(method, target, body=None if method == "GET" else body)
                answer = connection.getresponse()
                got.append((answer.status, answer.read()))
            connection.close()
            server.ended(self, "http.client")
        self.answers("http.client", got)

    def test_octets(self):
        """A client that sends one octet a write."""
        with Server(1) as server, connected(server.port) as client:
            client.setsockopt(socket.IPPROTO_TCP, socket.TCP_NODELAY, 1)
            sender = threading.Thread(target=program.send_all, args=(client, [bytes([octet]) for octet in asked().octets]))
            sender.start()
            got = b"".join(iter(lambda: client.recv(65536), b""))
            sender.join()
            server.ended(self, "one octet a write")
        self.note("one octet a write", asked().wanted, got)

    def test_going_away(self):
        """In the middle of a head, in the middle of a body, and before they read an answer. What came whole is
        carried out, and the next client is served."""
        locals_ = request("PUT", "/locals", '{"prefixes":["192.0.2.0/24"]}', None)
        classes = request("POST", "/classes", CLASS, None)
        with Server(4, self.path("store")) as server:
            for octets in (b"PUT /loc", locals_ + classes[:-40]):
                with subprocess.Popen(["bash", "-c", f"exec 3<>/dev/tcp/127.0.0.1/{server.port} && cat >&3 && : >sent && exec sleep 60"],
                                      stdin=subprocess.PIPE, cwd=self.folder) as client:
                    client.stdin.write(octets)
                    client.stdin.close()
                    program.until(lambda: os.path.exists(self.path("sent")))
                    client.kill()
                os.remove(self.path("sent"))
            with connected(server.port) as client:
                # a reset, without reading an octet
                client.setsockopt(socket.SOL_SOCKET, socket.SO_LINGER, struct.pack("ii", 1, 0))
                client.sendall(request("GET", "/locals", b"", None) + classes)
            got = sent(server.port, b"GET /locals HTTP/1.1\r\nConnection: close\r\n\r\n", ends=False)
            wanted = session.answer(200, '{"locals":["192.0.2.0/24"]}', closes=True)
            self.note("the client behind three that went away", wanted, got)
            server.ended(self, "clients that go away")

    def test_taking_nothing(self):
        """A write of which it takes no octet fails after a minute, and what it still sends is then read for a minute at
        most; so the next client is served within four."""
        with Server(2) as server, socket.socket() as stalled:
            # what it has room for is little, so that the server's answers fill it soon
            stalled.setsockopt(socket.SOL_SOCKET, socket.SO_RCVBUF, 4096)
            stalled.connect(("127.0.0.1", server.port))
            stalled.settimeout(5)
            try:
                while True:
                    stalled.sendall(b"GET /things HTTP/1.1\r\n\r\n" * 4096)
            except TimeoutError:
                began = time.monotonic()
            with connected(server.port, 300) as other:
                other.sendall(b"GET /things HTTP/1.1\r\nConnection: close\r\n\r\n")
                answer = other.recv(65536)
            self.note("the status", b"200", answer.split(b" ")[1])
            self.holds("it is four minutes at most", time.monotonic() - began <= 240, f"{time.monotonic() - began} seconds")
            stalled.close()
            server.ended(self, "a client that takes nothing")

    def test_slowly(self):
        """A client that sends an octet a second and no whole request. No read of it begins later than a minute behind the
        first one, and each takes a minute at most; so it is left within two."""
        with Server(1) as server:
            began = time.monotonic()
            with connected(server.port, 1) as client:
                for octet in itertools.chain(b"GET /", itertools.repeat(ord("a"), 300)):
                    try:
                        client.sendall(bytes([octet]))
                        if not client.recv(65536):
                            break
                    except TimeoutError:
                        continue
                    except ConnectionError:
                        break
            seconds = int(time.monotonic() - began)
            self.holds("it has a minute", seconds >= 59, f"{seconds} seconds")
            self.holds("it has two at most", seconds <= 120, f"{seconds} seconds")
            server.ended(self, "a client that sends an octet a second")

    @needs("ss")
    def test_here_alone(self):
        """The system knows one socket that listens at the port, and it is of 127.0.0.1."""
        with Server(1) as server:
            ended = run("-Hltn", f"sport = :{server.port}", program="ss")
            self.note("where it listens", [f"127.0.0.1:{server.port}"], [row.split()[3] for row in ended.out.decode().splitlines()])

    def test_taken_port(self):
        """Nothing is served, nothing written, and standard error says so."""
        with Server(1) as server:
            ended = run("serve", ":memory:", str(server.port), "1")
            self.note("status", 4, ended.status)
            self.note("what standard error is told",
                      f"mud: port {server.port} can't be listened on: Address already in use (os error 98)\n", ended.errors.decode())
            self.note("octets written", b"", ended.out)
            connected(server.port).close()
            server.ended(self, "a client that says nothing")


@needs("curl")
class Curl(Clients):
    def words(self, port, number, method, target):
        """The lines of a curl config for one request."""
        rows = [f'url = "http://127.0.0.1:{port}{target}"', f'request = "{method}"', f'output = "{self.path(f"{number}.got")}"',
                "silent", "max-time = 60", 'write-out = "%{http_code} %{num_connects}\\n"']
        if method != "GET":
            rows.append(f'data-binary = "@{self.path(f"{number}.body")}"')
        return "\n".join(rows) + "\n"

    def compare(self, what, count):
        """The requests by so many runs of curl, each of which may keep its connection."""
        with Server(count) as server:
            texts = []
            for number, (method, target, _, body, _) in enumerate(asked().requests):
                self.put(f"{number}.body", body)
                texts.append(self.words(server.port, number, method, target))
            written = [run("-K", "-", input="next\n".join(texts[n::count] if count == 1 else [texts[n]]).encode(), program="curl").out.decode()
                       for n in range(count)]
            server.ended(self, what)
        rows = [tuple(map(int, row.split())) for row in "".join(written).splitlines()]
        self.answers(what, [(status, program.read(f"{number}.got", self.folder)) for number, (status, _) in enumerate(rows)])
        self.note(what + ", connections", count, sum(connections for _, connections in rows))

    def test_one_connection(self):
        self.compare("one connection", 1)

    def test_connection_each(self):
        self.compare("a connection each", len(asked().requests))

    def curl(self, port, target, *words):
        ended = run("-s", "--max-time", "60", *words, f"http://127.0.0.1:{port}{target}", program="curl")
        return ended.out.decode(), ended.errors.decode()

    def test_leave(self):
        """It waits for leave to send what is long; what is too long for a body is refused before it is sent, and its
        answer can be read, too, by a client that doesn't wait. HTTP/1.0 is answered."""
        waiting = ("-H", "Expect: 100-continue", "--expect100-timeout", "30", "-w", " %{http_code} %{size_upload}")
        with Server(4) as server:
            long = "@" + self.put("long", bytes(300000))
            said, trace = self.curl(server.port, "/files", "-v", *waiting, "--data-binary", long)
            self.note("waiting for leave, answer", '{"path":"","refused":1,"rule":"TooLong"} 422 300000', said)
            self.note("waiting for leave, leaves", 1, len(re.findall("^< HTTP/1.1 100 Continue", trace, re.M)))
            long = "@" + self.put("long", bytes(600000))
            self.note("too long a body, answer", '{"rule":"long"} 413 0', self.curl(server.port, "/files", *waiting, "--data-binary", long)[0])
            long = "@" + self.put("long", bytes(5000000))
            words = ("-H", "Expect:", "-w", " %{http_code}", "--data-binary", long)
            self.note("too long a body at once", '{"rule":"long"} 413', self.curl(server.port, "/files", *words)[0])
            self.note("HTTP/1.0", '{"things":[]} 200', self.curl(server.port, "/things", "-0", "-w", " %{http_code}")[0])
            server.ended(self, "waiting for leave")

    def test_moment(self):
        """The moment is the machine's, whatever a header says."""
        with Server(1) as server:
            earliest = int(time.time())
            body = '{"address":"192.0.2.1","name":"a.example","ttl":60}'
            answer = json.loads(self.curl(server.port, "/names", "-H", "Mud-Moment: 5", "--data-binary", body)[0])
            self.holds("the moment", earliest + 60 <= answer["until"] <= int(time.time()) + 60, str(answer))
            server.ended(self, "the moment")
