"""For tests without a browser: a page of the studio that gives orders and reads their answers."""
import base64
import os
import socket
import struct
import urllib.parse

PATIENCE = 60  # seconds until an answer that doesn't come is a failure
TEXT, BINARY, CLOSE = 1, 2, 8


class Gone(Exception):
    """The server has ended the connection."""


class PlainPage:
    """A connection to a studio as a page has it."""

    def __init__(self, address, name="session"):
        parts = urllib.parse.urlsplit(address)
        self.socket = socket.create_connection((parts.hostname, parts.port), PATIENCE)
        self.file = self.socket.makefile("rb")
        self.notes = []
        key = base64.b64encode(os.urandom(16)).decode()
        self.socket.sendall((
            f"GET {parts.path}{name} HTTP/1.1\r\nHost: {parts.netloc}\r\nOrigin: http://{parts.netloc}\r\n"
            f"Upgrade: websocket\r\nConnection: Upgrade\r\nSec-WebSocket-Version: 13\r\nSec-WebSocket-Key: {key}"
            "\r\n\r\n").encode())
        head = b""
        while not head.endswith(b"\r\n\r\n"):
            line = self.file.readline()
            if not line:
                raise Gone(head)
            head += line
        assert head.startswith(b"HTTP/1.1 101 "), head
        self.hello = self.next_text()
        assert self.hello.startswith("hello "), self.hello

    def give(self, *orders):
        """Gives orders in one message, and doesn't wait."""
        data = "\n".join(orders).encode()
        mask = os.urandom(4)
        if len(data) < 126:
            head = struct.pack("!BB", 0x81, 0x80 | len(data))
        elif len(data) < 1 << 16:
            head = struct.pack("!BBH", 0x81, 0xFE, len(data))
        else:
            head = struct.pack("!BBQ", 0x81, 0xFF, len(data))
        masked = bytes(byte ^ mask[at % 4] for at, byte in enumerate(data))
        self.socket.sendall(head + mask + masked)

    def message(self):
        """Kind and bytes of the next message."""
        try:
            first, length = self.exactly(2)
            if length == 126:
                length, = struct.unpack("!H", self.exactly(2))
            elif length == 127:
                length, = struct.unpack("!Q", self.exactly(8))
            return first & 0x0F, self.exactly(length)
        except ConnectionError:
            raise Gone from None

    def exactly(self, count):
        data = self.file.read(count)
        if len(data) < count:
            raise Gone
        return data

    def next_text(self):
        kind, data = self.message()
        if kind == CLOSE:
            raise Gone
        assert kind == TEXT, (kind, data[:80])
        return data.decode()

    def pieces(self):
        """The pieces of the next answer. What the user should read is kept."""
        found = []
        while True:
            kind, data = self.message()
            if kind == BINARY:
                found.append(data)
            elif data == b"end":
                return found
            elif kind == TEXT and data.startswith(b"note "):
                self.notes.append(data[5:].decode())
            else:
                raise Gone(data.decode("utf-8", "replace"))

    def ask(self, order):
        """The answer of an order."""
        self.give(order)
        return b"".join(self.pieces())

    def wait_for_note(self):
        """What the user is told next, between answers."""
        while not self.notes:
            text = self.next_text()
            assert text.startswith("note "), text
            self.notes.append(text[5:])
        return self.notes.pop(0)

    def close(self):
        self.file.close()
        self.socket.close()
