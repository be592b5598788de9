"""What pages have sent and the session hasn't taken yet. The program may compute for long, so the session
takes orders when it has room; the server goes on reading, since else it wouldn't see that a page is gone. Only
where more than the longest message waits, a page has to wait too.
"""
import asyncio

from refusal import Refusal
from websocket import LONGEST_MESSAGE


def lines_of(text):
    """The lines of a text, one after another, as a message may have millions of them."""
    start = 0
    while (end := text.find("\n", start)) >= 0:
        yield text[start:end]
        start = end + 1
    yield text[start:]


class OrderQueue:
    """The messages in the order in which they came, each with who gets its answers."""

    def __init__(self, session):
        self.session = session
        self.messages = asyncio.Queue()
        self.size = 0  # letters of the messages that wait
        self.has_room = asyncio.Event()

    async def put(self, message, answers):
        """Takes a message in, once there is room for it."""
        while self.size > LONGEST_MESSAGE:
            self.has_room.clear()
            await self.has_room.wait()
        self.size += len(message)
        self.messages.put_nowait((message, answers))

    async def pass_on(self):
        """Gives all orders to the session, for as long as the server runs."""
        while True:
            message, answers = await self.messages.get()
            try:
                await self.pass_message(message, answers)
            except Refusal as refusal:
                await answers.refuse(str(refusal))
            self.size -= len(message)
            self.has_room.set()
            self.messages.task_done()

    async def pass_message(self, message, answers):
        for line in lines_of(message):
            await self.session.send(line, answers)

    async def settled(self):
        """Waits until the session has all that came."""
        await self.messages.join()
