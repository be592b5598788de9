"""Serves the page and its connection on 127.0.0.1, to nobody else: each address has a token, a request has to
name this host, and one from another page is refused, so that no other web site or user reaches the session.
"""
import asyncio
import hmac
import pathlib
import secrets
import socket

import http_request
from http_request import BadRequest
from pages import Pages
from refusal import Refusal

PAGE = pathlib.Path(__file__).resolve().parent / "page"
TEXT = "text/plain; charset=utf-8"
TYPES = {".html": "text/html; charset=utf-8", ".js": "text/javascript; charset=utf-8",
         ".css": "text/css; charset=utf-8", ".svg": "image/svg+xml"}
REASONS = {200: "OK", 400: "Bad Request", 403: "Forbidden", 404: "Not Found", 405: "Method Not Allowed",
           408: "Request Timeout", 409: "Conflict", 411: "Length Required", 413: "Content Too Large",
           431: "Request Header Fields Too Large", 500: "Internal Server Error"}
POLICY = ("default-src 'self'; connect-src 'self' ws://%s; frame-ancestors 'none'; base-uri 'none'; "
          "form-action 'self'")
MOST_CONNECTIONS = 64  # at once, the page's included
NO_DESCRIPTOR = 0.5  # seconds until it is tried again to accept a connection
UNREAD = 60  # seconds in which a client has to read its answer
FAREWELL = 1  # seconds that connections have for what they haven't read when the server ends


async def wait_closed(writer):
    """Waits until the other side has read what it was sent, or is gone."""
    try:
        await writer.wait_closed()
    except OSError:
        pass


class WebServer:
    """The server: its connections, and what their requests get."""

    def __init__(self, session, services):
        self.services = services
        self.pages = Pages(session, services, self.spawn)
        self.token = secrets.token_urlsafe(16)
        self.host = ""
        self.listener = None
        self.writers = set()  # of the connections that are open
        self.tasks = set()

    async def start(self, port):
        """Listens; the address of the page."""
        self.listener = socket.create_server(("127.0.0.1", port), backlog=MOST_CONNECTIONS)
        self.listener.setblocking(False)
        self.host = "127.0.0.1:%d" % self.listener.getsockname()[1]
        self.spawn(self.pages.orders.pass_on())
        self.spawn(self.accept())
        return f"http://{self.host}/{self.token}/"

    async def stop(self):
        """Ends what was asked for and all connections, also those of who doesn't read."""
        self.services.stop()
        self.pages.stop()
        for task in self.tasks:
            task.cancel()
        await asyncio.wait(self.tasks, timeout=FAREWELL)
        for writer in self.writers:
            writer.transport.abort()
        if self.tasks:
            await asyncio.wait(self.tasks)
        self.listener.close()

    def spawn(self, work):
        """Runs something beside; the set holds it, since the loop alone doesn't."""
        task = asyncio.create_task(work)
        self.tasks.add(task)
        task.add_done_callback(self.tasks.discard)

    # ---- connections

    async def accept(self):
        """Takes connections. Where no descriptor is left it waits until there may be one."""
        while True:
            try:
                connection, _ = await asyncio.get_running_loop().sock_accept(self.listener)
                if len(self.writers) < MOST_CONNECTIONS:
                    reader, writer = await asyncio.open_connection(sock=connection)
                    self.writers.add(writer)
                    self.spawn(self.serve(reader, writer))
                else:
                    connection.close()
            except OSError:
                await asyncio.sleep(NO_DESCRIPTOR)

    async def serve(self, reader, writer):
        """Carries a connection to its end."""
        try:
            await self.answer_all(reader, writer)
            writer.close()
            await asyncio.wait_for(wait_closed(writer), UNREAD)
        except (OSError, asyncio.TimeoutError):
            pass
        except asyncio.CancelledError:  # the server ends, and drops it after a while
            writer.close()
            await wait_closed(writer)
        finally:
            writer.transport.abort()
            self.writers.discard(writer)

    async def answer_all(self, reader, writer):
        """Answers the requests of a connection. One that is wrong, or somebody else's, is the last."""
        try:
            while request := await http_request.read_request(reader, self.judge):
                if not await self.answer(request, reader, writer):
                    break
        except BadRequest as fault:
            self.write(writer, fault.status, fault.text.encode("utf-8", "replace"), is_last=True)
            writer.write_eof()
            await http_request.drop_rest(reader)

    # ---- requests

    def judge(self, request):
        """Refuses a request of somebody else."""
        origin = request.headers.get("origin")
        if request.headers.get("host") != self.host or origin not in (None, f"http://{self.host}"):
            raise BadRequest(403, "this server answers its own page only")
        token = request.path.split("/")[1]
        if not hmac.compare_digest(token.encode(), self.token.encode()):
            raise BadRequest(403, "the address lacks the token that studio/run printed")

    async def answer(self, request, reader, writer):
        """Answers a request; whether the connection goes on."""
        _, _, *rest = request.path.split("/", 2)
        name = rest[0] if rest else ""
        if (request.method, name) == ("GET", "session"):
            await self.pages.open(request, reader, writer)
            return False
        status, kind, data = await self.answer_of(request, name)
        is_last = request.headers.get("connection", "").lower() == "close"
        self.write(writer, status, data, kind, is_last)
        await asyncio.wait_for(writer.drain(), UNREAD)
        await self.pages.note(self.services.new_note())
        return not is_last

    async def answer_of(self, request, name):
        """Status, type and bytes of an answer."""
        try:
            if self.services.knows(request.method, name):
                return 200, *await self.services.answer(request, name)
            return 200, *self.page_file(request, name or "index.html")
        except Refusal as refusal:
            status, text = 409, str(refusal)
        except BadRequest as fault:
            status, text = fault.status, fault.text
        except OSError as fault:
            status, text = 409, f"that can't be done now: {fault}"
        except Exception as fault:  # the page tells it, and the server goes on
            status, text = 500, f"the studio's server failed: {type(fault).__name__}: {fault}"
        return status, TEXT, text.encode("utf-8", "replace")

    def page_file(self, request, name):
        """Type and bytes of a file of the page."""
        path = next((path for path in PAGE.iterdir() if path.name == name), None)
        if request.method != "GET" or path is None or path.suffix not in TYPES:
            raise BadRequest(404, f"there is no {name[:80]}")
        return TYPES[path.suffix], path.read_bytes()

    def write(self, writer, status, data, kind=TEXT, is_last=False):
        head = [f"HTTP/1.1 {status} {REASONS[status]}", f"Content-Type: {kind}",
                f"Content-Length: {len(data)}", "Cache-Control: no-store",
                "X-Content-Type-Options: nosniff", "Referrer-Policy: no-referrer",
                f"Content-Security-Policy: {POLICY % self.host}"]
        if is_last:
            head.append("Connection: close")
        writer.write("\r\n".join(head).encode() + b"\r\n\r\n" + data)
