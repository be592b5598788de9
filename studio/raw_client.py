"""For tests without a browser: a studio whose standard error is kept, requests byte by byte, and what speaks
like a page.
"""
import http.client
import json
import pathlib
import socket
import struct
import subprocess
import tempfile
import urllib.parse

from browser import PATIENCE, STUDIO, Studio
from test_protocol import masked_frame

KEY = "A" * 22 + "=="
TEXT, BINARY, CLOSE = 1, 2, 8


class WatchedStudio(Studio):
    """A studio whose standard error is kept. A line of the shell may limit it."""

    def __init__(self, limit=":", **files):
        super().__init__(**files)
        self.limit = limit
        self.folder = self.recording.with_name(self.recording.name + ".studio")
        self.errors = tempfile.TemporaryFile()

    def start(self):
        words = [STUDIO / "run", "--no-browser", self.cart, self.recording, self.font]
        shell = ["/bin/sh", "-c", f'{self.limit}; exec "$0" "$@"']
        self.process = subprocess.Popen(shell + words, stdout=subprocess.PIPE, stderr=self.errors, text=True)
        self.address = self.process.stdout.readline().strip()
        assert self.address, f"the studio didn't start: {self.said()}"
        return self

    def said(self):
        """What it wrote to standard error."""
        self.errors.seek(0)
        return self.errors.read().decode("utf-8", "replace")

    def children(self, word):
        """Ids of the processes that it has started, and whose command line has a word."""
        words = ["pgrep", "-P", str(self.process.pid)]
        found = subprocess.run(words, stdout=subprocess.PIPE, text=True, check=False).stdout.split()
        return [int(each) for each in found if word.encode() in arguments_of(each)]


def arguments_of(process):
    """The command line of a process; nothing where it has ended."""
    try:
        return pathlib.Path("/proc", process, "cmdline").read_bytes().split(b"\0")
    except OSError:
        return []


class Client:
    """Sends a studio whatever a test likes."""

    def __init__(self, studio):
        parts = urllib.parse.urlsplit(studio.address)
        self.host, self.path = parts.netloc, parts.path
        self.place = parts.hostname, parts.port

    def connect(self):
        return socket.create_connection(self.place, timeout=PATIENCE)

    def head(self, name="", method="GET", headers=(), path=None):
        """The head of a request that the studio answers, if nothing else is named."""
        lines = [f"{method} {self.path + name if path is None else path} HTTP/1.1"]
        for key, value in {"Host": self.host, **dict(headers)}.items():
            lines += [f"{key}: {each}" for each in (value if isinstance(value, list) else [value])]
        return "\r\n".join(lines).encode("latin-1") + b"\r\n\r\n"

    def answer(self, data):
        """Status, headers and body of the answer to these bytes."""
        with self.connect() as connection:
            connection.sendall(data)
            return read_answer(connection)

    def ask(self, what, method="GET", body=b"", **query):
        """Status and body of the answer to a request as a page makes it."""
        words = urllib.parse.urlencode(query)
        head = self.head(what + ("?" + words if words else ""), method, {"Content-Length": str(len(body))})
        status, _, data = self.answer(head + body)
        return status, data

    def list(self):
        """The names of the branches."""
        status, data = self.ask("branches")
        assert status == 200, data
        return {row["name"] for row in json.loads(data)}

    def open_page(self, page_id=None):
        """A page's connection."""
        return PlainSocket(self, page_id)


def read_answer(connection):
    answer = http.client.HTTPResponse(connection)
    answer.begin()
    return answer.status, answer.headers, answer.read()


class PlainSocket:
    """The connection of a page, without a page."""

    def __init__(self, client, page_id=None):
        upgrade = {"Origin": f"http://{client.host}", "Upgrade": "websocket", "Connection": "Upgrade",
                   "Sec-WebSocket-Key": KEY, "Sec-WebSocket-Version": "13"}
        self.connection = client.connect()
        name = "session" if page_id is None else f"session?page={page_id}"
        self.connection.sendall(client.head(name, headers=upgrade))
        self.stream = self.connection.makefile("rb")
        self.status = int(self.stream.readline().split()[1])
        while self.stream.readline().strip():
            pass

    def send(self, text):
        self.connection.sendall(masked_frame(text.encode()))

    def receive(self):
        """Kind and bytes of the next message; kind 0 where the connection has ended."""
        head = self.stream.read(2)
        if len(head) < 2:
            return 0, b""
        length = head[1]
        if length == 126:
            length, = struct.unpack("!H", self.stream.read(2))
        elif length == 127:
            length, = struct.unpack("!Q", self.stream.read(8))
        return head[0] & 0x0F, self.stream.read(length)

    def greeting(self):
        """What the page is told first."""
        kind, data = self.receive()
        assert kind == TEXT and data.startswith(b"hello "), data
        return json.loads(data[6:])

    def next_note(self):
        """The next note; answers before it are dropped."""
        while True:
            kind, data = self.receive()
            assert kind in (TEXT, BINARY), "the connection has ended"
            if data.startswith(b"note "):
                return data[5:].decode()

    def ask(self, order):
        """The bytes of an order's answer."""
        self.send(order)
        parts = []
        while (message := self.receive()) != (TEXT, b"end"):
            assert message[0] in (TEXT, BINARY), "the connection has ended"
            if message[0] == BINARY:
                parts.append(message[1])
        return b"".join(parts)

    def closing_code(self):
        """The code with which the other side closes."""
        while True:
            kind, data = self.receive()
            if kind == CLOSE:
                return struct.unpack("!H", data)[0] if data else None
            if kind == 0:
                return None

    def close(self):
        """Goes, as a page does that is closed."""
        self.stream.close()
        self.connection.close()

    def __enter__(self):
        return self

    def __exit__(self, *_):
        self.close()
