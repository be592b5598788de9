"""How a recording is saved: it is replaced whole, only where it differs from what is to be saved, and never where
another program has changed it without that one being kept. Of a program that was killed, its journal makes it again.
"""
import os
import pathlib
import tempfile

from folder_files import FolderFiles
from journal import read_left
from programs import run_program
from recording_files import is_same
from refusal import Refusal
from whole_files import put_whole

LONGEST_SCRIPT = 1 << 20  # bytes that `w4 edit` takes


def scripts_of(orders):
    """The orders as texts, none longer than a script may be."""
    texts, lines, length = [], [], 0
    for order in orders:
        if length + len(order) + 1 > LONGEST_SCRIPT:
            texts.append("".join(lines))
            lines, length = [], 0
        lines.append(order + "\n")
        length += len(order) + 1
    return [*texts, "".join(lines)]


def replayed(files, base, orders):
    """The recording that orders make of another. `w4 edit` runs no frame for orders that only edit."""
    if not orders:
        return base
    try:
        with tempfile.TemporaryDirectory(prefix="w4-studio-") as room:
            recording, script = pathlib.Path(room, "base.w4rec"), pathlib.Path(room, "script")
            recording.write_bytes(base)
            for text in scripts_of(orders):
                script.write_text(text, encoding="utf-8")
                status, _, line = run_program("edit", files.cart, recording, files.font, script, recording)
                if status:
                    raise Refusal(files.explained(line) if line else f"w4 was ended (status {status})")
            return recording.read_bytes()
    except OSError as fault:
        raise Refusal(f"there is no room for a script: {fault}") from None


def put_elsewhere(files, data):
    """Writes the recording into a folder for temporary files, as its own can't be; the new file."""
    try:
        number, name = tempfile.mkstemp(prefix=f"{files.recording.stem}-", suffix=".w4rec")
        with open(number, "wb") as file:
            file.write(data)
            file.flush()
            os.fsync(number)
    except OSError as fault:
        raise Refusal(f"{tempfile.gettempdir()} can't be written either: {fault.strerror}") from None
    return pathlib.Path(name)


class Saving:
    """The recording on the disk."""

    def __init__(self, files, known):
        self.files = files
        self.known = known  # its bytes as last read or written here; None where it isn't there
        self.has_kept_opened = False

    def publish(self, recording):
        """Replaces the recording on the disk where it is another one; what the user should read of that, or None."""
        current, note = self.files.read_recording(), None
        if current is not None and is_same(current, recording):
            self.known = current
            return None
        if current is not None and (self.known is None or not is_same(current, self.known)):
            name = FolderFiles(self.files).keep("found", current)
            note = (f"another program had changed {self.files.recording}: that recording is the branch {name}, and "
                    "the file has what is edited here")
        elif current is not None and not self.has_kept_opened:
            FolderFiles(self.files).keep("opened", current)
        room = self.files.folder if self.files.folder.is_dir() else None
        put_whole(self.files.recording, recording, self.files.mode(), room)
        self.known, self.has_kept_opened = recording, True
        return note

    def save_left(self):
        """Saves what a studio that was killed has left; what the user should read of that, None where nothing was."""
        left = read_left(self.files)
        if left is None or not left.is_edited:
            return None
        try:
            edited = replayed(self.files, left.base, left.orders)
        except Refusal as refusal:
            raise Refusal(f"{self.files.journal} has edits that an earlier studio hadn't saved, and they can't be "
                          f"made again: {refusal}. Without them it opens once the file is moved away") from None
        self.known = left.known_of(self.files.read_recording())
        note = self.publish(edited)
        return "edits that an earlier studio had left unsaved are saved now" + (f"; {note}" if note else "")
