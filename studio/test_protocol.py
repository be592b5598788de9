"""Tests of the connection between page and server: WebSocket's messages, and orders that aren't orders."""
import asyncio
import struct

import websocket

MASK = bytes([1, 2, 3, 250])


def masked_frame(data, first=0x81):
    """A frame as a browser sends it."""
    length = len(data)
    if length < 126:
        head = struct.pack("!BB", first, 0x80 | length)
    elif length < 1 << 16:
        head = struct.pack("!BBH", first, 0xFE, length)
    else:
        head = struct.pack("!BBQ", first, 0xFF, length)
    return head + MASK + bytes(byte ^ MASK[at % 4] for at, byte in enumerate(data))


class Writer:
    """Takes what is sent."""

    def __init__(self):
        self.sent = b""
        self.transport = self

    def write(self, data):
        self.sent += data

    async def drain(self):
        """Nothing waits."""

    def get_write_buffer_size(self):
        return 0

    def is_closing(self):
        return False


def received(frames, count):
    """The first messages of these bytes, and what was sent meanwhile."""
    async def receive():
        reader, writer = asyncio.StreamReader(), Writer()
        reader.feed_data(frames)
        reader.feed_eof()
        socket = websocket.WebSocket(reader, writer)
        return [await socket.receive() for _ in range(count)], writer.sent
    return asyncio.run(receive())


def test_messages_of_each_length_are_received():
    for length in (0, 1, 3, 4, 125, 126, 65535, 65536, 100_000):
        data = bytes(at % 251 for at in range(length))
        assert received(masked_frame(data), 1) == ([data], b"")


def test_messages_in_parts_and_pings():
    frames = (masked_frame(b"show ", 0x01) + masked_frame(b"beat", 0x89) + masked_frame(b"70", 0x80)
              + masked_frame(b"state 0"))
    assert received(frames, 2) == ([b"show 70", b"state 0"], b"\x8a\x04beat")


def test_what_is_no_message_ends_the_connection():
    for frames in (b"", b"\x81", masked_frame(b"show 70")[:-1], b"\x81\x02ab", masked_frame(b"", 0x88)):
        try:
            received(frames, 1)
        except websocket.Closed:
            continue
        raise AssertionError(frames)


def test_messages_of_each_length_are_sent():
    """The example of the standard, and lengths around each change of the head."""
    async def send(data):
        writer = Writer()
        await websocket.WebSocket(None, writer).send(websocket.TEXT, data)
        return writer.sent
    assert asyncio.run(send(b"Hello")) == bytes.fromhex("810548656c6c6f")
    for length, head in ((125, b"\x81\x7d"), (126, b"\x81\x7e\0\x7e"), (65535, b"\x81\x7e\xff\xff"),
                         (65536, b"\x81\x7f\0\0\0\0\0\x01\0\0")):
        assert asyncio.run(send(bytes(length))) == head + bytes(length)
    assert websocket.accept_key("dGhlIHNhbXBsZSBub25jZQ==") == "s3pPLMBiTxaQ9kYGzzhZRbK+xOo="


def test_refused_orders_leave_the_session_in_turn(studio, page):
    assert page.answer("what") == "what: no order"
    assert page.answer("show 241") == "show: no frame"
    assert page.answer("") == ""
    assert page.answer("# a comment") == ""
    assert page.answer("state 0").startswith("state 0 of 240 halt running disk 0 kept 0")


SERVER_ONLY = (test_messages_of_each_length_are_received, test_messages_in_parts_and_pings,
               test_what_is_no_message_ends_the_connection, test_messages_of_each_length_are_sent)
