"""The orders that changed a recording since it was last saved, in memory and in two files of the studio's folder. With
them an edit is never lost with a process: base and orders make the recording again (`saving.replayed`).

`base.w4rec` is the recording that the orders begin from. `journal` is a script for it: a comment, of which base and
of which recording on the disk, and then the orders as they were given to the program.
"""
import contextlib
import hashlib
import os
import re
import time

from recording_files import parts_of
from refusal import Refusal
from whole_files import put_whole, regular_bytes

AGAIN = 1  # seconds until a file that can't be written is tried again
LONGEST_LINE = 1024  # bytes of an order
LONGEST_JOURNAL = 1 << 28  # bytes that are read of one
ABSENT = "absent"
NUMBER = "([0-9]{1,10})"
INPUT = " +".join([NUMBER] * 4 + ["(-?[0-9]{1,10})"] * 2 + [NUMBER])
EDITS = [re.compile(f" *(set|insert) +{NUMBER} +{INPUT}( +reset)? *\r?"), re.compile(f" *(delete) +{NUMBER} *\r?")]
HEADER = re.compile(r"# base ([0-9a-f]{64}) recording ([0-9a-f]{64}|absent) (saved|edited)")
RANGES = [(0, (1 << 32) - 1)] + [(0, 255)] * 4 + [(-(1 << 15), (1 << 15) - 1)] * 2 + [(0, 255)]


def edit_of(line):
    """The edit that an order is, as a script has it; None for any other order, and for what is none."""
    if len(line.encode()) > LONGEST_LINE:
        return None
    for form in EDITS:
        if found := form.fullmatch(line):
            kind, *words = found.groups()
            numbers = [int(word) for word in words if word and word.strip() != "reset"]
            if all(low <= number <= high for number, (low, high) in zip(numbers, RANGES)):
                last = ["reset"] if words[-1] and words[-1].strip() == "reset" else []
                return " ".join([kind, *map(str, numbers), *last])
    return None


def digest_of(data):
    """What tells a recording's bytes from others; None stands for a file that isn't there."""
    return ABSENT if data is None else hashlib.sha256(data).hexdigest()


class Journal:
    """What the session has that the recording on the disk may not have."""

    def __init__(self, files):
        self.files = files
        self.base = b""
        self.orders = []
        self.is_saved = True  # the base has nothing that the recording on the disk hasn't
        self.known = None  # the recording on the disk as it was last read or written
        self.number = None  # of the journal's open file; None where the files are behind
        self.fault = self.told = None
        self.next_try = 0.0

    @property
    def is_edited(self):
        """Whether there is something to save."""
        return bool(self.orders) or not self.is_saved

    def begin(self, base, known, is_saved=True):
        """Begins anew with the recording that all orders so far have made."""
        self.base, self.known, self.is_saved = base, known, is_saved
        self.orders = []
        self.write_whole()

    def add(self, order):
        """Takes an order in, before the program gets it."""
        self.orders.append(order)
        if self.number is None:
            if time.monotonic() >= self.next_try:
                self.write_whole()
            return
        data = order.encode() + b"\n"
        try:
            if os.write(self.number, data) != len(data):
                self.close("no space is left")
        except OSError as fault:
            self.close(fault.strerror)

    def write_whole(self):
        """Writes both files. The base is first: orders of an earlier base are known by its digest, and left out."""
        self.close(None)
        mode, path = self.files.mode(), self.files.journal
        state = "saved" if self.is_saved else "edited"
        lines = [f"# base {digest_of(self.base)} recording {digest_of(self.known)} {state}", *self.orders, ""]
        try:
            put_whole(self.files.base, self.base, mode, is_synchronised=False)
            put_whole(path, "\n".join(lines).encode(), mode, is_synchronised=False)
            self.number = os.open(path, os.O_WRONLY | os.O_APPEND | os.O_NOFOLLOW | os.O_CLOEXEC)
            self.told = None
        except Refusal as refusal:
            self.close(str(refusal))
        except OSError as fault:
            self.close(fault.strerror)

    def close(self, fault):
        """The file is written no more; the next order writes it whole, as all of it is in memory."""
        if fault:
            self.next_try = time.monotonic() + AGAIN
            self.fault = f"{self.files.journal} can't be written ({fault}): if the studio is killed, edits are lost"
        if self.number is not None:
            os.close(self.number)
            self.number = None

    def take_fault(self):
        """What went wrong, once for as long as it does."""
        fault, self.fault = self.fault, None
        if fault is None or self.told:
            return None
        self.told = fault
        return fault

    def remove(self):
        """Removes the files: nothing is left to save. The journal is first, as orders need a base."""
        self.close(None)
        for path in (self.files.journal, self.files.base, self.files.draft):
            with contextlib.suppress(OSError):
                path.unlink()


class LeftJournal:
    """What a studio that was killed has left: a base, orders, and of which recording on the disk they are."""

    def __init__(self, base, known_digest, is_saved, orders):
        self.base, self.known_digest, self.is_saved, self.orders = base, known_digest, is_saved, orders

    @property
    def is_edited(self):
        return bool(self.orders) or not self.is_saved

    def known_of(self, current):
        """The recording on the disk where it still is the one that the studio knew; else None."""
        return current if digest_of(current) == self.known_digest else None


def read_left(files):
    """What is left in a folder; None where nothing is. A line that was cut off was never given to the program."""
    text = regular_bytes(files.journal, LONGEST_JOURNAL)
    base = regular_bytes(files.base)
    if text is None:
        return None
    header, *lines = text.decode("utf-8", "replace").split("\n")[:-1] or [""]
    found = HEADER.fullmatch(header)
    if not found:
        return None
    if base is None or parts_of(base) is None:
        raise Refusal(f"{files.journal} has edits that were never saved, and {files.base}, which they begin from, is "
                      f"gone or damaged: move {files.folder} away, and look into it")
    if found[1] != digest_of(base):  # of an earlier base, which has become this one by these orders
        return LeftJournal(base, found[2], False, [])
    return LeftJournal(base, found[2], found[3] == "saved", [order for order in map(edit_of, lines) if order])
