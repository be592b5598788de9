"""Files that may stand in a folder out of an archive or of another user: only plain ones are read, and a file is
replaced in one piece, so that neither a full disk nor a crash leaves half of one.
"""
import contextlib
import os
import stat
import tempfile

from refusal import Refusal

LONGEST = 361_071  # bytes of a recording


def regular_bytes(path, most=LONGEST):
    """The bytes of a plain file that has at most so many; None for anything else, as a link, a pipe or a folder."""
    try:
        number = os.open(path, os.O_RDONLY | os.O_NOFOLLOW | os.O_NONBLOCK | os.O_CLOEXEC)
    except OSError:
        return None
    facts = os.fstat(number)
    if not stat.S_ISREG(facts.st_mode) or facts.st_size > most:
        os.close(number)
        return None
    with open(number, "rb") as file:
        data = file.read(most + 1)
    return data if len(data) <= most else None


def rights_in_place_of(path, number, mode):
    """The rights of a new file: the group's go where the file that it replaces has another owner or group."""
    new = os.fstat(number)
    try:
        old = os.lstat(path)
    except FileNotFoundError:
        old = new
    is_same = (old.st_uid, old.st_gid) == (new.st_uid, new.st_gid)
    return mode & (0o777 if is_same else 0o707)


def synchronise_folder(folder):
    """So that a power failure doesn't bring the replaced file back; a folder that can't be read is left out."""
    with contextlib.suppress(OSError):
        number = os.open(folder, os.O_RDONLY | os.O_DIRECTORY | os.O_CLOEXEC)
        try:
            os.fsync(number)
        finally:
            os.close(number)


def put_whole(path, data, mode, room=None, is_synchronised=True):
    """Makes or replaces a file in one piece; what stood there stays where that fails. The new file is written in the
    folder `room`, beside the old one if none is named.
    """
    name = None
    try:
        number, name = tempfile.mkstemp(prefix=f".{path.name}.", dir=room or path.parent)
        with open(number, "wb") as file:
            os.fchmod(number, rights_in_place_of(path, number, mode))
            file.write(data)
            file.flush()
            if is_synchronised:
                os.fsync(number)
        os.replace(name, path)
    except OSError as fault:
        if name:
            with contextlib.suppress(OSError):
                os.unlink(name)
        raise Refusal(f"{path} can't be written: {fault.strerror}") from None
    if is_synchronised:
        synchronise_folder(path.parent)
