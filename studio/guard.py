#!/usr/bin/env python3
"""The guard of a studio: waits for the server's end, and where that was killed, ends its program and saves its edits.

    studio/guard.py LOCK CART REC FONT

Standard input is a pipe from the server, with a line for each program that it starts, and one where it ends in order.
LOCK is the number of the lock's open file, which is held as long as this lives.
"""
import contextlib
import os
import pathlib
import select
import signal
import subprocess
import sys
import time

import journal
import messages
import programs
from folder_lock import remove_remains
from recording_files import RecordingFiles
from refusal import Refusal
from saving import Saving

PATIENCE = 2  # seconds that the program has to end by itself, since its input has ended
LOOK = 0.02  # seconds between looks whether a process is there
DONE = "done"


class Guard:
    """The server's side of it."""

    def __init__(self, files, lock_number):
        words = [sys.executable, __file__, lock_number, files.cart, files.recording, files.font]
        self.process = subprocess.Popen(
            [*programs.LEAVING_SIGNALS, *map(str, words)], stdin=subprocess.PIPE, stdout=subprocess.DEVNULL,
            start_new_session=True, pass_fds=[lock_number], restore_signals=False)

    def tell(self, line):
        """Tells it something; it may have been killed."""
        with contextlib.suppress(OSError):
            self.process.stdin.write(line.encode() + b"\n")
            self.process.stdin.flush()

    def watch(self, process_id):
        """Has it end this program after the server."""
        self.tell(str(process_id))

    def end(self):
        """The server ends in order, and saves by itself."""
        self.tell(DONE)
        with contextlib.suppress(OSError):
            self.process.stdin.close()
        try:
            self.process.wait(PATIENCE)
        except subprocess.TimeoutExpired:
            self.process.kill()
            self.process.wait()


class WatchedProgram:
    """The program, which the guard didn't start. Where the kernel has process descriptors, its id can't be mistaken
    for that of a later process.
    """

    def __init__(self, process_id):
        self.process_id, self.number = process_id, None
        with contextlib.suppress(AttributeError, OSError):
            self.number = os.pidfd_open(process_id)

    def has_ended(self, seconds):
        """Whether it ends within so many seconds."""
        if self.number is not None:
            return bool(select.select([self.number], [], [], seconds)[0])
        end = time.monotonic() + seconds
        while os.path.exists(f"/proc/{self.process_id}/exe") and time.monotonic() < end:
            time.sleep(LOOK)
        return not os.path.exists(f"/proc/{self.process_id}/exe")

    def end(self):
        """Ends it, at once where it doesn't end by itself."""
        if not self.has_ended(PATIENCE):
            with contextlib.suppress(ProcessLookupError):
                os.killpg(self.process_id, signal.SIGKILL)
            self.has_ended(PATIENCE)


def wait_for_server(lines):
    """Whether the server ended in order; if it was killed, also the last program that it started, or None."""
    watched = None
    for line in lines:
        if line.strip() == DONE:
            return True, None
        watched = WatchedProgram(int(line))
    return False, watched


def save(files):
    """Saves what the killed server left, and says so."""
    try:
        note = Saving(files, None).save_left()
    except Refusal as refusal:
        messages.say(f"the studio was killed, and its edits aren't saved yet: {refusal}. The next studio/run on "
                     f"{files.recording} tries again")
        return
    journal.Journal(files).remove()
    with contextlib.suppress(OSError):
        remove_remains(files)
    if note:
        messages.say(f"{files.recording}: {note}")


def main():
    messages.hold_standard_streams()
    _, cart, recording, font = sys.argv[1:]
    is_done, watched = wait_for_server(sys.stdin)
    if is_done:
        return
    if watched:
        watched.end()
    save(RecordingFiles(pathlib.Path(cart), pathlib.Path(recording), pathlib.Path(font)))


if __name__ == "__main__":
    main()
