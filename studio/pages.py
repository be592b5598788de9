"""The page's connection: its orders go to the session, and the answers to it. There is one page at a time."""
import asyncio
import contextlib
import json
import re

import websocket
from http_request import BadRequest
from live_session import Receiver
from order_queue import OrderQueue
from refusal import Refusal

LEAVING = 2  # seconds that a page which is reloaded has for going
LOOK = 0.025  # seconds between looks whether it has gone
PAGE_ID = re.compile(r"[0-9A-Za-z_-]{1,80}")


async def tell(page, text):
    """Sends a page a text, unless it is gone."""
    with contextlib.suppress(OSError):
        await page.send_text(text)


class PageAnswers(Receiver):
    """Passes an answer to the page; once that is gone, what still comes is dropped."""

    def __init__(self, page):
        self.page = page

    async def send(self, kind, data):
        with contextlib.suppress(OSError):
            await self.page.send(kind, data)

    async def piece(self, data):
        await self.send(websocket.BINARY, data)

    async def end(self):
        await self.send(websocket.TEXT, b"end")

    async def refuse(self, why):
        """The session takes no order any more."""
        await tell(self.page, f"ended {why}")
        self.page.close()


def check_upgrade(request):
    """Refuses what is no opening of a page's connection; what the page calls itself, or None."""
    headers = request.headers
    if headers.get("upgrade", "").lower() != "websocket" or not headers.get("sec-websocket-key"):
        raise BadRequest(400, "no WebSocket")
    if "origin" not in headers:
        raise BadRequest(403, "this server answers its own page only")
    page_id = request.query.get("page")
    if page_id is not None and not PAGE_ID.fullmatch(page_id):
        raise BadRequest(400, "a page has a name of at most 80 letters, digits, - and _")
    return page_id


class Pages:
    """The page that is there, and what the one called itself that was there last."""

    def __init__(self, session, services, spawn):
        self.session, self.services, self.spawn = session, services, spawn
        self.orders = OrderQueue(session)
        self.page = self.last_page = None
        self.is_ending = False

    def stop(self):
        """Ends the page's connection. The end of the session saves."""
        self.is_ending = True
        if self.page:
            self.page.close()

    async def open(self, request, reader, writer):
        """Makes a connection a WebSocket, and carries it until the page is gone."""
        page_id = check_upgrade(request)
        key = websocket.accept_key(request.headers["sec-websocket-key"])
        writer.write(("HTTP/1.1 101 Switching Protocols\r\nUpgrade: websocket\r\nConnection: Upgrade\r\n"
                      f"Sec-WebSocket-Accept: {key}\r\n\r\n").encode())
        page = websocket.WebSocket(reader, writer)
        if not await self.other_leaves(page_id):
            await page.send_text("in use")
            page.close()
            return
        self.page = page
        try:
            await self.carry(page, page_id)
        finally:
            self.page = self.session.on_end = self.session.on_note = None
            await self.save_quietly()

    async def other_leaves(self, page_id):
        """Whether no page is there, or the one that is goes at once, as one does that is reloaded. One that
        comes again has lost its earlier connection, even if that looks open.
        """
        if self.page and page_id is not None and page_id == self.last_page:
            self.page.drop()
        waited = 0
        while self.page and waited < LEAVING:
            await asyncio.sleep(LOOK)
            waited += LOOK
        return not self.page

    async def carry(self, page, page_id):
        """Greets the page, and takes its messages."""
        last_page, self.last_page = self.last_page, page_id
        self.session.on_end = lambda why: self.spawn(tell(page, f"ended {why}"))
        self.session.on_note = lambda text: self.spawn(tell(page, f"note {text}"))
        try:
            if self.session.ended is not None:
                await self.session.start()
            await page.send_text("hello " + json.dumps({**self.services.greeting(), "last_page": last_page}))
            await self.note(self.services.look_into_folder())
            answers = PageAnswers(page)
            while True:
                await self.orders.put(await page.receive_text(), answers)
        except Refusal as refusal:
            await page.send_text(f"ended {refusal}")
            page.close()
        except websocket.Closed as closed:
            page.close(closed.code)

    async def note(self, text):
        """Tells the page what its user should read, if there is anything."""
        if text and self.page:
            await tell(self.page, f"note {text}")

    async def save_quietly(self):
        """Saves when the page goes; where that fails, the end of the session tries again."""
        if not self.is_ending:
            await self.orders.settled()
            with contextlib.suppress(Refusal):
                await self.session.save_edits()
