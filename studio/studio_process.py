"""The studio from its start to its end: lock, guard, session and server, and the signals that end them."""
import asyncio
import contextlib
import logging
import os
import signal

import programs
from folder_files import FolderFiles
from folder_lock import FolderLock
from guard import Guard
from journal import Journal
from live_session import LiveSession
from messages import say, write_line
from page_opener import PageOpener
from recording_files import RecordingFiles
from refusal import Refusal
from saving import Saving, put_elsewhere, replayed
from services import Services
from web_server import WebServer

QUIET = 2  # seconds that an end may take until something is said of it
HUNG_UP = 5  # seconds that the program has where the terminal is gone, and nobody can ask for more
LONGEST_SHOWN = 60  # letters of an order in a message
UNSAVED = 1  # the status where the recording isn't saved


def shown(order):
    """An order as a terminal may have it."""
    return "".join(letter if letter.isprintable() else "?" for letter in order)[:LONGEST_SHOWN]


class Ending:
    """The signals that end the studio: the first in order, the second at once."""

    def __init__(self):
        self.asked = asyncio.Event()
        self.session = None
        self.count = 0
        # An order that is written to a program which was just killed is asked again, and worth no line.
        logging.getLogger("asyncio").setLevel(logging.ERROR)
        for number in (signal.SIGINT, signal.SIGTERM, signal.SIGHUP):
            asyncio.get_running_loop().add_signal_handler(number, self.take, number)

    def take(self, number):
        self.count += 1
        self.asked.set()
        if self.count > 1:
            self.kill_session()
        if self.count > 2:
            programs.running.end()
        if number == signal.SIGHUP:
            asyncio.get_running_loop().call_later(HUNG_UP, self.kill_session)

    def kill_session(self):
        if self.session:
            self.session.kill()

    async def cuts_off(self, work):
        """Waits for work, or for a signal. Whether there was one; the work is left then."""
        task, asked = asyncio.ensure_future(work), asyncio.create_task(self.asked.wait())
        await asyncio.wait([task, asked], return_when=asyncio.FIRST_COMPLETED)
        asked.cancel()
        if not task.done():
            task.cancel()
            await asyncio.gather(task, return_exceptions=True)
            return True
        task.result()
        return self.asked.is_set()


class StudioProcess:
    """All that a studio has."""

    def __init__(self, words):
        self.words = words
        self.files = RecordingFiles(words.cart, words.recording, words.font)
        self.lock = FolderLock(self.files)
        self.journal = Journal(self.files)
        self.opener = PageOpener()
        self.ending = Ending()
        self.guard = self.saving = self.session = self.server = None

    async def run(self):
        """Runs until a signal ends it, and saves then; the status."""
        status = 0
        try:
            if not await self.ending.cuts_off(self.start()):
                await self.ending.asked.wait()
            elif self.server is None:
                say("ended before it began")
                status = UNSAVED
        finally:
            status = max(status, await self.end())
        return status

    async def start(self):
        """Opens the recording, or says why it can't be."""
        files, words = self.files, self.words
        files.check_readable()
        self.lock.claim()
        FolderFiles(files).free_own_names()
        self.saving = Saving(files, None)
        if note := await asyncio.to_thread(self.saving.save_left):
            say(f"{files.recording}: {note}")
        self.journal.remove()
        self.saving.known, opened = await asyncio.to_thread(files.prepare, words.budget)
        self.journal.begin(opened, self.saving.known)
        self.guard = Guard(files, self.lock.number)
        self.session = LiveSession(files, self.journal, self.saving, self.lock.number, self.guard)
        self.ending.session = self.session
        await self.session.start()
        await self.start_server()

    async def start_server(self):
        words, server = self.words, WebServer(self.session, Services(self.session, self.files))
        try:
            address = await server.start(words.port)
        except OSError as fault:
            raise Refusal(f"port {words.port} of 127.0.0.1 can't be had ({os.strerror(fault.errno)}): name another by "
                          "--port, or none") from None
        self.server = server
        write_line(address)
        if not words.no_browser:
            try:
                self.opener.open(address)
            except OSError as fault:
                say(f"no browser is opened ({fault}): open the address above")

    async def end(self):
        """Ends all that was started. What was edited is saved; the status."""
        programs.running.end()
        self.opener.close()
        status = 0
        try:
            if self.server:
                await self.server.stop()
        finally:
            if self.session:
                await self.end_session()
                programs.running.begin_anew()
                status = await asyncio.to_thread(self.save_last)
            if self.guard:
                self.guard.end()
            self.lock.release()
        return status

    async def end_session(self):
        """Waits for the program, which may be at work at what it was asked."""
        if self.server is None:
            self.session.kill()
        ending = asyncio.create_task(self.session.end())
        await asyncio.wait([ending], timeout=QUIET)
        if not ending.done() and self.session.at_work is not None:
            say(f"waiting for the program to finish '{shown(self.session.at_work)}'; Ctrl-C again ends it at once")
        await ending

    def save_last(self):
        """Saves what was edited since it was saved last; elsewhere where that can't be done."""
        if not self.journal.is_edited:
            self.journal.remove()
            return 0
        try:
            edited = self.edited()
        except Refusal as refusal:
            say(f"{self.files.recording} isn't saved: {refusal}. Its edits are in {self.files.journal}, and the next "
                "studio/run on it takes them up")
            return UNSAVED
        try:
            note = self.saving.publish(edited)
        except Refusal as refusal:
            self.save_elsewhere(edited, refusal)
            return UNSAVED
        self.journal.remove()
        if note:
            say(note)
        if self.ending.count > 1:
            say("the program was ended at once; no edit is lost")
        return 0

    def edited(self):
        """The recording as edited: as the program left it, or made again where that was killed."""
        if self.session.status == 0:
            with contextlib.suppress(Refusal):
                return self.session.draft()
        return replayed(self.files, self.journal.base, self.journal.orders)

    def save_elsewhere(self, edited, refusal):
        try:
            place = f"What was edited is in {put_elsewhere(self.files, edited)}"
        except Refusal as other:
            place = f"{other}. The edits are in {self.files.journal}"
        say(f"{self.files.recording} isn't saved: {refusal}. {place}; the next studio/run on it takes them up")


async def run(words):
    """Runs a studio; its status."""
    return await StudioProcess(words).run()
