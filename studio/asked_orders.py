"""Orders that were given to the program and await their answers, and those who get these."""
import asyncio

CANNOT_WRITE = b"refused cannot write\n"


class Receiver:
    """Who gets an answer: its pieces one after another, then its end."""

    async def piece(self, data):
        """One piece of the answer."""

    async def end(self):
        """The answer is complete."""

    def give_up(self, refusal):
        """No answer will come."""


class WholeAnswer(Receiver):
    """An answer that is waited for as a whole."""

    def __init__(self):
        self.parts = []
        self.future = asyncio.get_running_loop().create_future()

    async def piece(self, data):
        self.parts.append(data)

    async def end(self):
        if not self.future.done():
            self.future.set_result(b"".join(self.parts))

    def give_up(self, refusal):
        if not self.future.done():
            self.future.set_exception(refusal)


class HeldAnswer(Receiver):
    """An answer that is passed on later, or as another one."""

    def __init__(self, receiver):
        self.receiver = receiver
        self.parts = []

    async def piece(self, data):
        self.parts.append(data)

    async def pass_on(self, parts):
        for data in parts:
            await self.receiver.piece(data)
        await self.receiver.end()

    def give_up(self, refusal):
        self.receiver.give_up(refusal)


class SaveAnswer(HeldAnswer):
    """The answer to `save`: the program wrote the draft, of which the recording is made before it is passed on."""

    def __init__(self, session, receiver):
        super().__init__(receiver)
        self.session = session

    async def end(self):
        if self.parts:
            self.session.is_open.set()
        await self.pass_on(self.parts or await self.session.publish_draft())


class HistoryAnswer(HeldAnswer):
    """The answer to `undo` or `redo`. Both need the program's history, which ends with it: so the recording that they
    lead to is what the journal begins from, before they are answered.
    """

    def __init__(self, receiver):
        super().__init__(receiver)
        self.is_complete = False

    async def end(self):
        """It is passed on by the DraftAnswer behind it."""
        self.is_complete = True


class DraftAnswer(Receiver):
    """The answer to a `save` of the server's own behind an order that needs the history."""

    def __init__(self, session, order, held):
        self.session, self.order, self.held = session, order, held
        self.parts = []

    async def piece(self, data):
        self.parts.append(data)

    async def end(self):
        self.session.begin_journal_of_draft(self.order, not self.parts)
        await self.held.pass_on(self.held.parts)


class Asked:
    """An order that was given to the program. What was passed on of its answer isn't passed on again."""

    def __init__(self, line, receiver, is_own=False):
        self.line, self.receiver = line, receiver
        self.is_own = is_own  # the server's, so that it is made anew where the program is
        self.passed = self.to_skip = 0  # pieces of the answer

    async def piece(self, data):
        if self.to_skip:
            self.to_skip -= 1
            return
        await self.receiver.piece(data)
        self.passed += 1

    def needed_again(self):
        """What another program has to be asked for it. The server makes its own orders anew, but for a draft, which
        needs the order before it again if that was answered.
        """
        if not isinstance(self.receiver, DraftAnswer):
            return [] if self.is_own else [self]
        held = self.receiver.held
        if held.is_complete:
            held.parts = []
            return [Asked(self.receiver.order, held, is_own=True), self]
        return [self]

    def ask_again(self):
        """It is given to another program; the answers are the same again."""
        self.to_skip = self.passed
