"""The lock of a studio's folder. The server holds it, and the program and the guard that it started, as long as one of
them lives; so no second studio opens beside what a killed one has left.
"""
import contextlib
import fcntl
import os
import pathlib
import re
import stat

from refusal import Refusal


def arguments_of(process):
    """The command line of a process, as bytes."""
    try:
        return (process / "cmdline").read_bytes().split(b"\0")[:-1]
    except OSError:
        return []


def has_open(process, number):
    """Whether a process has the file open that we have open by this number; not of one that can't be looked at."""
    wanted = os.fstat(number)
    try:
        names = os.listdir(process / "fd")
    except OSError:
        return False
    for name in names:
        with contextlib.suppress(OSError):
            if os.path.samestat(os.stat(process / "fd" / name), wanted):
                return True
    return False


def holders(number):
    """Those other processes that have a file open: of each its id and its command line."""
    found = []
    for process in pathlib.Path("/proc").iterdir():
        if process.name.isdecimal() and int(process.name) != os.getpid() and has_open(process, number):
            found.append((int(process.name), arguments_of(process)))
    return found


def is_server(arguments):
    """Whether such a process is a studio's server, not its program or its guard."""
    return b"serve" not in arguments and not any(word.endswith(b"guard.py") for word in arguments)


def remove_remains(files):
    """Removes what a killed studio has left of files that it was about to replace. Only who holds the lock may."""
    names = "|".join(map(re.escape, ("journal", "watches.json", files.recording.name)))
    remains = re.compile(rf"\.({names}|.+\.w4rec)\.[a-z0-9_]{{8}}|draft\.w4rec\.new[0-9]{{1,4}}")
    for path in list(files.folder.iterdir()):
        if remains.fullmatch(path.name):
            with contextlib.suppress(OSError):
                path.unlink()


class FolderLock:
    """The folder of a recording, once it is this studio's own."""

    def __init__(self, files):
        self.files, self.folder = files, files.folder
        self.path = files.folder / "lock"
        self.number = None
        self.has_made_folder = False

    def claim(self):
        """Makes the folder where there is none, and locks it; refused where another studio has it."""
        while self.number is None:
            self.make_folder()
            number = self.open_lock()
            try:
                fcntl.flock(number, fcntl.LOCK_EX | fcntl.LOCK_NB)
            except OSError:
                text = self.held_text(number)
                os.close(number)
                raise Refusal(text) from None
            if self.is_in_place(number):
                self.number = number
            else:  # the studio that had it has just ended, and removed its folder
                os.close(number)
        remove_remains(self.files)

    def make_folder(self):
        """Whoever may read the recording may read what is in the folder."""
        mode = self.files.mode()
        try:
            os.mkdir(self.folder, 0o700)
            self.has_made_folder = True
            os.chmod(self.folder, 0o700 | mode | (mode & 0o444) >> 2)
        except FileExistsError:
            if not stat.S_ISDIR(os.lstat(self.folder).st_mode):
                raise Refusal(f"{self.folder} isn't a folder: move it away, as the studio keeps its files there") \
                    from None
        except OSError as fault:
            raise Refusal(f"{self.folder}, where the studio keeps its files, can't be made: {fault.strerror}") from None

    def open_lock(self):
        """The lock's file, open; it may have been put there by others, as a link or a pipe."""
        flags = os.O_RDWR | os.O_CREAT | os.O_NOFOLLOW | os.O_NONBLOCK | os.O_CLOEXEC
        mode = 0o600 | self.files.mode()
        try:
            number = os.open(self.path, flags, mode)
        except OSError as fault:
            raise Refusal(f"{self.path} can't be opened ({fault.strerror}): move it away") from None
        if not stat.S_ISREG(os.fstat(number).st_mode):
            os.close(number)
            raise Refusal(f"{self.path} isn't a plain file: move it away")
        with contextlib.suppress(OSError):  # another user's stays as it is
            os.fchmod(number, mode)
        return number

    def is_in_place(self, number):
        """Whether the locked file still is the one that others would lock."""
        try:
            return os.path.samestat(os.stat(self.path, follow_symlinks=False), os.fstat(number))
        except OSError:
            return False

    def held_text(self, number):
        """Who has the recording open, and how that is ended."""
        found = holders(number)
        for process, arguments in found:
            if is_server(arguments):
                return (f"another studio has {self.files.recording} open, process {process}: end it by Ctrl-C in its "
                        f"terminal, or by 'kill {process}'")
        if not found:
            return f"another studio, of another user, has {self.files.recording} open: it has to be ended first"
        ids = " ".join(str(process) for process, _ in found)
        return (f"a studio that was killed had {self.files.recording} open, and its edits are being saved by process "
                f"{ids}: try again in some seconds. 'kill -9 {ids}' ends that at once, and the next start saves them")

    def release(self):
        """Lets others in. A folder that was made and has nothing but the lock goes."""
        if self.number is None:
            self.remove_empty_folder()
            return
        with contextlib.suppress(OSError):
            if self.has_made_folder and os.listdir(self.folder) == [self.path.name]:
                self.path.unlink()
        self.remove_empty_folder()
        fcntl.flock(self.number, fcntl.LOCK_UN)
        os.close(self.number)
        self.number = None

    def remove_empty_folder(self):
        if self.has_made_folder:
            with contextlib.suppress(OSError):
                self.folder.rmdir()
