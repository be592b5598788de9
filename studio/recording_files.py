"""The files of a studio: cart, recording and font, and the names of its own in the folder beside the recording."""
import os
import stat
import struct

from programs import program, run_program  # noqa: F401: the names by which others know them
from refusal import Refusal
from whole_files import regular_bytes

HEAD = 47  # bytes of a recording without disk and frames


def parts_of(data):
    """Cart's digest, budget, disk and inputs of a recording's bytes, each input as the numbers of a `set` order; None
    where they are none.
    """
    if data[:4] != b"W4RC" or data[4:5] not in (b"\1", b"\2") or len(data) < HEAD:
        return None
    width = 8 + data[4]
    budget, disk = struct.unpack_from("<IH", data, 37)
    if len(data) < HEAD + disk or len(data) != HEAD + disk + width * struct.unpack_from("<I", data, 43 + disk)[0]:
        return None
    inputs = []
    for at in range(HEAD + disk, len(data), width):
        numbers = struct.unpack_from("<4BhhB", data, at)
        inputs.append(" ".join(map(str, numbers)) + (" reset" if data[at + 9:at + width] == b"\1" else ""))
    return data[5:37], budget, data[43:43 + disk], inputs


def is_same(one, other):
    """Whether two recordings are the same but for the version of their form."""
    return one == other or (parts_of(one) is not None and parts_of(one) == parts_of(other))


def parse_recording(data):
    """The budget and the inputs of a recording's bytes."""
    parts = parts_of(data)
    if parts is None:
        raise Refusal("that isn't a recording")
    return parts[1], parts[3]


def usual_mode():
    """The rights that a new file gets."""
    mask = os.umask(0o077)
    os.umask(mask)
    return 0o666 & ~mask


class RecordingFiles:
    """The files as the command line names them. Links and `..` are resolved, so that each name of a recording leads to
    the same folder.
    """

    def __init__(self, cart, recording, font):
        self.cart, self.font = cart, font
        try:
            self.recording = recording.resolve()
        except (OSError, RuntimeError):
            raise Refusal(f"{recording} is a link that leads to itself: name another recording") from None
        self.folder = self.recording.with_name(self.recording.name + ".studio")
        self.base, self.draft = self.folder / "base.w4rec", self.folder / "draft.w4rec"
        self.journal = self.folder / "journal"
        self.budget = 0
        self.last_mode = usual_mode()

    def mode(self):
        """The rights of the recording; once it is gone, those that it had."""
        try:
            facts = os.lstat(self.recording)
        except OSError:
            return self.last_mode
        if stat.S_ISREG(facts.st_mode):
            self.last_mode = facts.st_mode & 0o777
        return self.last_mode

    def check_readable(self):
        """The program says only that it can't read a file; this says which one, and why."""
        for path in (self.cart, self.font):
            try:
                with open(path, "rb"):
                    pass
            except OSError as fault:
                raise Refusal(f"{path} can't be read: {fault.strerror}") from None

    def read_recording(self):
        """The bytes of the recording; None where there is none."""
        try:
            os.lstat(self.recording)
        except FileNotFoundError:
            return None
        except OSError as fault:
            raise Refusal(f"{self.recording} can't be read: {fault.strerror}") from None
        data = regular_bytes(self.recording)
        if data is None:
            raise Refusal(f"{self.recording} can't be read, or isn't a plain file of the length of a recording: "
                          "move it away, or name another")
        return data

    def prepare(self, budget):
        """The recording as it is on the disk, None where there is none; and what is edited: an empty one then."""
        on_disk = self.read_recording()
        opened = self.blank(budget) if on_disk is None else on_disk
        if parts_of(opened) is None:
            raise Refusal(f"{self.recording} isn't a recording: name another file, or one that isn't there yet")
        self.budget, _ = parse_recording(opened)
        return on_disk, opened

    def blank(self, budget):
        """A recording without frames."""
        status, output, line = run_program("blank", self.cart, budget)
        if status:
            raise Refusal(self.explained(line))
        return output

    def explained(self, line):
        """What the program said of a file, with the file's name and what can be done."""
        meanings = {
            "w4: cart:": f"{self.cart} can't be played ({line}): docs/FORMATS.md says what a cart may have",
            "w4: recording: wrong cart": f"{self.recording} is of another cart than {self.cart} ({line}): name its "
                                         "cart, or make it one of this cart by 'w4 rebind'",
            "w4: recording:": f"{self.recording} isn't a recording ({line}): name another file",
            "w4: font:": f"{self.font} is no font ({line}): name one, or none for the usual one",
            "w4: cannot read": f"{self.cart}, {self.font} or {self.base} can't be read ({line}): it may have been "
                               "moved meanwhile",
            "w4: usage": "this w4 doesn't know the command serve: the studio needs a later one",
        }
        return next((text for start, text in meanings.items() if line.startswith(start)), line)
