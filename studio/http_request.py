"""Reads requests of HTTP/1.1 (RFC 9112). Who asks is judged before the body is read, and whatever is wrong
with a request has a status and a sentence.
"""
import asyncio
import re
import urllib.parse

from whole_files import LONGEST

IDLE = 60  # seconds that a connection may be silent between requests
BEGUN = 10  # seconds for a request that has begun
LINGERING = 2  # seconds in which what a refused request still sends is dropped
BLOCK = 1 << 16
METHODS = ("GET", "POST", "DELETE")
TOKEN = re.compile(r"[!#$%&'*+.^_`|~0-9A-Za-z-]+")
SINGLE = ("host", "origin", "content-length", "transfer-encoding", "upgrade", "sec-websocket-key")


class BadRequest(Exception):
    """A request that is answered with this status."""

    def __init__(self, status, text):
        super().__init__(text)
        self.status, self.text = status, text


class Request:
    """What a browser asked for. The body comes later."""

    def __init__(self, method, target, headers):
        self.method, self.headers, self.body = method, headers, b""
        path, _, query = target.partition("?")
        self.path = urllib.parse.unquote(path)
        self.query = dict(urllib.parse.parse_qsl(query))

    def length(self):
        """Bytes of the body."""
        if "transfer-encoding" in self.headers:
            raise BadRequest(411, "a body has to have its length before it")
        length = self.headers.get("content-length", "0")
        if not re.fullmatch("[0-9]+", length):
            raise BadRequest(400, "the length of the body is no number")
        length = length.lstrip("0") or "0"
        if len(length) > len(str(LONGEST)) or int(length) > LONGEST:
            raise BadRequest(413, f"a body has at most {LONGEST} bytes, as a recording has")
        return int(length)


def parse_headers(lines):
    """The headers by their names in small letters. One that decides something stands once."""
    headers = {}
    for line in lines:
        name, colon, value = line.partition(":")
        name = name.lower()
        if not colon or not TOKEN.fullmatch(name):
            raise BadRequest(400, "a line of the headers is none")
        if name in headers and name in SINGLE:
            raise BadRequest(400, f"there are two headers {name}")
        headers[name] = value.strip(" \t")
    return headers


def parse_head(head):
    """The request of a head's bytes."""
    first, *lines = head.decode("latin-1").removesuffix("\r\n\r\n").split("\r\n")
    words = first.split(" ")
    if len(words) != 3 or not words[1].startswith("/") or words[2] not in ("HTTP/1.1", "HTTP/1.0"):
        raise BadRequest(400, "the first line is no request of HTTP/1.1")
    if words[0] not in METHODS:
        raise BadRequest(405, f"the methods here are {', '.join(METHODS)}")
    return Request(words[0], words[1], parse_headers(lines))


async def read_rest(reader, start, judge):
    """A request that has begun with these bytes."""
    try:
        head = start + await reader.readuntil(b"\r\n\r\n")
    except asyncio.LimitOverrunError:
        raise BadRequest(431, "the headers are too long") from None
    request = parse_head(head)
    judge(request)
    request.body = await reader.readexactly(request.length())
    return request


async def read_request(reader, judge):
    """The next request of a connection, or None. `judge` may refuse it before its body is read."""
    try:
        start = await asyncio.wait_for(reader.readexactly(1), IDLE)
    except (asyncio.IncompleteReadError, asyncio.TimeoutError):
        return None
    try:
        return await asyncio.wait_for(read_rest(reader, start, judge), BEGUN)
    except asyncio.IncompleteReadError:
        raise BadRequest(400, "the request ends before it is whole") from None
    except asyncio.TimeoutError:
        raise BadRequest(408, f"the request isn't whole within {BEGUN} seconds") from None


async def drop_rest(reader):
    """Reads what still comes: where a connection is closed with bytes that nobody read, its last answer may
    be lost.
    """
    async def read_all():
        while await reader.read(BLOCK):
            pass
    try:
        await asyncio.wait_for(read_all(), LINGERING)
    except (OSError, asyncio.TimeoutError):
        pass
