"""The part of WebSocket (RFC 6455) that the page needs: whole messages without extensions."""
import asyncio
import base64
import hashlib
import struct

TEXT, BINARY, CLOSE, PING, PONG = 1, 2, 8, 9, 10
CONTINUATION = 0
GOING_AWAY, WRONG, WRONG_KIND, NO_TEXT, TOO_LONG = 1001, 1002, 1003, 1007, 1009  # why a connection is closed
KEY_TAIL = b"258EAFA5-E914-47DA-95CA-C5AB0DC85B11"
LONGEST_MESSAGE = 1 << 22  # bytes; a recording's inputs as orders have some 2,500,000
LONGEST_CONTROL = 125
BEHIND = 1 << 16  # bytes not sent yet above which is waited for the other side; the loop's own bound
UNREAD = 10  # seconds after which a side that doesn't read is dropped


class Closed(Exception):
    """The other side is gone, or said something that isn't WebSocket: it is told why then."""

    def __init__(self, code=GOING_AWAY):
        super().__init__(code)
        self.code = code


def accept_key(key):
    """The answer to the key of a handshake."""
    return base64.b64encode(hashlib.sha1(key.encode() + KEY_TAIL).digest()).decode()


def unmasked(data, mask):
    """The bytes that a browser masked."""
    times = -(-len(data) // 4)
    number = int.from_bytes(data, "big") ^ int.from_bytes((mask * times)[:len(data)], "big")
    return number.to_bytes(len(data), "big")


def framed(kind, data):
    """A message as one frame."""
    length = len(data)
    if length < 126:
        head = struct.pack("!BB", 0x80 | kind, length)
    elif length < 1 << 16:
        head = struct.pack("!BBH", 0x80 | kind, 126, length)
    else:
        head = struct.pack("!BBQ", 0x80 | kind, 127, length)
    return head + data


class WebSocket:
    """A connection after its handshake."""

    def __init__(self, reader, writer):
        self.reader, self.writer = reader, writer

    async def send(self, kind, data):
        """Sends a message, and waits while the other side is behind. One that doesn't read is dropped."""
        if self.writer.is_closing():
            raise ConnectionResetError
        self.writer.write(framed(kind, data))
        if self.writer.transport.get_write_buffer_size() <= BEHIND:
            return
        try:
            await asyncio.wait_for(self.writer.drain(), UNREAD)
        except asyncio.TimeoutError:
            self.drop()
            raise ConnectionResetError from None

    async def send_text(self, text):
        await self.send(TEXT, text.encode("utf-8", "replace"))

    async def receive_frame(self, room):
        """Kind, whether it is the last of its message, and bytes, no more of them than there is room for."""
        first, second = await self.reader.readexactly(2)
        kind, is_last, length = first & 0x0F, bool(first & 0x80), second & 0x7F
        is_control = kind in (CLOSE, PING, PONG)
        if first & 0x70 or not second & 0x80 or is_control and (length > LONGEST_CONTROL or not is_last):
            raise Closed(WRONG)
        if length == 126:
            length, = struct.unpack("!H", await self.reader.readexactly(2))
        elif length == 127:
            length, = struct.unpack("!Q", await self.reader.readexactly(8))
        if length > room and not is_control:
            raise Closed(TOO_LONG)
        mask = await self.reader.readexactly(4)
        return kind, is_last, unmasked(await self.reader.readexactly(length), mask)

    async def receive(self):
        """The next message's bytes; Closed where none comes any more."""
        message, expected = bytearray(), TEXT
        try:
            while True:
                kind, is_last, data = await self.receive_frame(LONGEST_MESSAGE - len(message))
                if kind in (CLOSE, PING, PONG):
                    await self.take_control(kind, data)
                    continue
                if kind != expected:
                    raise Closed(WRONG_KIND if kind == BINARY else WRONG)
                message += data
                expected = CONTINUATION
                if is_last:
                    return bytes(message)
        except (EOFError, OSError):
            raise Closed from None

    async def receive_text(self):
        """The next message."""
        try:
            return (await self.receive()).decode()
        except UnicodeDecodeError:
            raise Closed(NO_TEXT) from None

    async def take_control(self, kind, data):
        """Answers what isn't part of a message."""
        if kind == CLOSE:
            raise Closed
        if kind == PING:
            await self.send(PONG, data)

    def drop(self):
        """Ends the connection at once: what the other side hasn't read is lost."""
        self.writer.transport.abort()

    def close(self, code=GOING_AWAY):
        """Ends the connection once the other side has read what it was sent; nobody waits for that here."""
        if not self.writer.is_closing():
            self.writer.write(framed(CLOSE, struct.pack("!H", code)))
            self.writer.close()
