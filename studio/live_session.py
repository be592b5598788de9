"""A live `w4 serve`. Orders go in as lines, and each has exactly one answer, in turn: pieces, each with its
length in decimal and byte 10 before it, and `0` and byte 10 as the end.

The program writes a draft, of which the recording on the disk is made; where it is killed it is started anew, and gets
the orders of the journal, so that whoever waits for an answer sees a pause and nothing else.
"""
import asyncio
import collections
import contextlib
import os
import signal

import messages
from asked_orders import CANNOT_WRITE, Asked, DraftAnswer, HistoryAnswer, Receiver, SaveAnswer, WholeAnswer
from journal import edit_of
from programs import LEAVING_SIGNALS, program
from recording_files import parts_of
from refusal import Refusal
from whole_files import put_whole, regular_bytes

BUFFER = 1 << 20  # bytes of answers that are read ahead
AT_ONCE = 256  # orders that await their answers; who has more waits until there is room
FAULTS = (8, 9, 13)  # statuses of a program that may do better when it is started anew


def word_of(line):
    """The order's name where it has nothing else, else None."""
    words = line.rstrip("\r").split(" ")
    named = [word for word in words if word]
    return named[0] if len(named) == 1 else None


class LiveSession:
    """The process, and who waits for its answers."""

    def __init__(self, files, journal, saving, lock_number, guard):
        self.files, self.journal, self.saving = files, journal, saving
        self.lock_number, self.guard = lock_number, guard
        self.process = self.errors = self.carrier = None
        self.waiting = collections.deque()
        self.turn = asyncio.Lock()  # who gives an order next
        self.room = asyncio.Semaphore(AT_ONCE)
        self.is_open = asyncio.Event()  # not while a save is made, or the program is started anew
        self.ended = None  # why the process is gone, as text
        self.is_ending = self.is_killed = False
        self.died_at = None  # the order at which the program ended last
        self.is_starting = False
        self.on_end = None  # called once it is gone
        self.on_note = None  # called with what the user should read

    # ---- the program's start and end

    async def start(self):
        """Starts the program on what the journal makes. A refusal says what the program said, and of which file."""
        self.ended = self.died_at = None
        self.is_ending = False
        self.waiting.clear()
        up = WholeAnswer()
        await self.launch(up)
        self.carrier = asyncio.create_task(self.carry())
        await up.future

    async def launch(self, up):
        """Starts a program, which gets the journal's orders, an empty one that `up` waits for, and what was asked."""
        files = self.files
        self.is_open.clear()
        self.is_starting = True
        if regular_bytes(files.base) != self.journal.base:
            put_whole(files.base, self.journal.base, files.mode(), is_synchronised=False)
        put_whole(files.draft, self.journal.base, files.mode(), is_synchronised=False)  # for its rights
        self.process = await asyncio.create_subprocess_exec(
            *LEAVING_SIGNALS, program(), "serve", files.cart, files.base, files.font, files.draft, limit=BUFFER,
            stdin=asyncio.subprocess.PIPE, stdout=asyncio.subprocess.PIPE, stderr=asyncio.subprocess.PIPE,
            start_new_session=True, pass_fds=[self.lock_number], restore_signals=False)
        self.guard.watch(self.process.pid)
        self.errors = asyncio.create_task(self.process.stderr.read())
        self.ask_all(up)
        if self.is_killed:
            self.kill_process()
        if self.is_ending:
            self.process.stdin.close()

    def ask_all(self, up):
        """Gives a new program all that it has to know. The last orders of the journal may be among those asked."""
        asked = [each for waiting in self.waiting for each in waiting.needed_again()]
        unanswered = sum(edit_of(each.line) is not None for each in asked)
        known = self.journal.orders[:len(self.journal.orders) - unanswered]
        own = [Asked(order, Receiver(), is_own=True) for order in known] + [Asked("", up, is_own=True)]
        for each in asked:
            each.ask_again()
        self.waiting = collections.deque(own + asked)
        self.process.stdin.write("".join(each.line + "\n" for each in self.waiting).encode())
        if not any(isinstance(each.receiver, (SaveAnswer, DraftAnswer)) for each in asked):
            self.is_open.set()

    async def end(self):
        """Ends the input, so that the program ends after what it was asked; its status, None if it never began."""
        self.is_ending = True
        self.on_end = None
        if self.carrier is None:
            return None
        if self.process.returncode is None:
            self.process.stdin.close()
        await self.carrier
        return self.status

    @property
    def status(self):
        """How the program ended; None where it never began, or runs."""
        return self.process.returncode if self.process else None

    def kill(self):
        """Ends the program at once. The journal has what it was told."""
        self.is_ending = self.is_killed = True
        self.kill_process()

    def kill_process(self):
        """Kills the process, and what a launcher may have started; that is a group of its own."""
        if self.process and self.process.returncode is None:
            with contextlib.suppress(ProcessLookupError):
                os.killpg(self.process.pid, signal.SIGKILL)

    @property
    def at_work(self):
        """The order that the program works at, None where there is none."""
        return next((each.line for each in self.waiting if not each.is_own), None)

    # ---- orders

    async def send(self, line, receiver):
        """Asks for an order's answer, once there is room. Line breaks were parted before, as each line is an order."""
        async with self.turn:
            await self.room.acquire()
            await self.is_open.wait()
            if self.ended is not None or self.is_ending:
                self.room.release()
                raise Refusal(self.ended or "the studio is being ended")
            for asked in self.asked_of(line, receiver):
                self.waiting.append(asked)
                self.process.stdin.write(asked.line.encode() + b"\n")
            with contextlib.suppress(OSError):  # what a killed program didn't read is asked again
                await self.process.stdin.drain()

    def asked_of(self, line, receiver):
        """What the program is asked for an order. After one that saves it is asked nothing until that is done."""
        word, edit = word_of(line), edit_of(line)
        if edit is not None:
            self.journal.add(edit)
            self.tell(self.journal.take_fault())
        if word in ("save", "undo", "redo"):
            self.is_open.clear()
        if word == "save":
            return [Asked(line, SaveAnswer(self, receiver))]
        if word in ("undo", "redo"):
            held = HistoryAnswer(receiver)
            return [Asked(line, held), Asked("save", DraftAnswer(self, word, held), is_own=True)]
        return [Asked(line, receiver)]

    async def wait_for_answer(self, line):
        """The whole answer of an order, behind all that was asked for before."""
        answer = WholeAnswer()
        await self.send(line, answer)
        return await answer.future

    def tell(self, text):
        """Tells the page what the user should read; without a page, who started the studio."""
        if text:
            (self.on_note or messages.say)(text)

    # ---- saving

    async def save(self):
        """Saves the recording to its file."""
        answer = await self.wait_for_answer("save")
        if answer:
            raise Refusal(f"{self.files.recording} isn't saved: {answer.decode().strip()}")

    async def save_edits(self):
        """Saves where something was edited."""
        if self.journal.is_edited:
            await self.save()

    def draft(self):
        """The recording that the program wrote."""
        data = regular_bytes(self.files.draft)
        if data is None or parts_of(data) is None:
            raise Refusal(f"{self.files.draft} isn't what the program wrote")
        return data

    async def publish_draft(self):
        """Makes the recording on the disk the draft, where something was edited or there is none; the answer's pieces,
        none where that is done.
        """
        try:
            draft = self.draft()
            if self.journal.is_edited or self.files.read_recording() is None:
                self.tell(await asyncio.to_thread(self.saving.publish, draft))
                self.journal.begin(draft, self.saving.known)
                self.tell(self.journal.take_fault())
            return []
        except Refusal as refusal:
            self.tell(f"not saved: {refusal}")
            return [CANNOT_WRITE]
        finally:
            self.is_open.set()

    def begin_journal_of_draft(self, order, is_written):
        """After `undo` or `redo`. If there is no draft the journal has the order itself, which may be enough."""
        try:
            if not is_written:
                raise Refusal(f"{self.files.draft} can't be written")
            self.journal.begin(self.draft(), self.saving.known, is_saved=False)
        except Refusal as refusal:
            self.journal.add(order)
            self.tell(str(refusal))
        self.tell(self.journal.take_fault())
        self.is_open.set()

    # ---- answers

    async def carry(self):
        """Passes answers on, and starts the program anew where it was killed, until the session's end."""
        while True:
            await self.pass_answers()
            self.is_open.clear()
            why, status = await self.reason()
            if self.is_ending or not (status < 0 or status in FAULTS) or self.has_died_here():
                break
            try:
                await self.launch(Receiver())
            except (Refusal, OSError) as fault:
                why = str(fault)
                break
            self.tell(f"the program was ended ({why}) and started anew; nothing is lost but a search of memory")
        self.give_up(why)

    def has_died_here(self):
        """Whether the program ended at the same order before, or at its start."""
        front = next((each for each in self.waiting if not each.is_own), None)
        is_again = self.is_starting or (front is not None and front is self.died_at)
        self.died_at = front
        return is_again

    async def pass_answers(self):
        """Passes each answer to whoever asked for it, until the program ends."""
        output = self.process.stdout
        try:
            while header := await output.readline():
                length = int(header)
                if length:
                    await self.waiting[0].piece(await output.readexactly(length))
                else:
                    await self.pass_end()
        except (asyncio.IncompleteReadError, OSError, ValueError, IndexError):
            self.kill_process()  # a pipe that breaks is the end of a process as well

    async def pass_end(self):
        asked = self.waiting.popleft()
        if not asked.is_own:
            self.room.release()
        elif asked.line == "":
            self.is_starting = False
        await asked.receiver.end()

    async def reason(self):
        """Why the program has ended, as text, and its status."""
        line = (await self.errors).decode("utf-8", "replace").strip()
        status = await self.process.wait()
        # An order that was written after the end breaks the pipe; why it ended is told by the line.
        self.process.stdin.close()
        with contextlib.suppress(OSError):
            await self.process.stdin.wait_closed()
        return self.files.explained(line) if line else f"status {status}", status

    def give_up(self, why):
        """The program is gone for good: whoever waits for an answer is told why."""
        self.ended = why
        while self.waiting:
            asked = self.waiting.popleft()
            if not asked.is_own:
                self.room.release()
            asked.receiver.give_up(Refusal(why))
        self.is_open.set()
        if self.on_end:
            self.on_end(why)
