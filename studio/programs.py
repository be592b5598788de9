"""The programs that the studio starts, w4 first of all. Those that run beside the session are ended with the studio."""
import contextlib
import os
import pathlib
import subprocess
import threading

TOP = pathlib.Path(__file__).resolve().parent.parent
# A signal that reaches the studio and what it started, as from a terminal or at a logout, leaves these; a file that
# may not grow (XFSZ) is a failed write for them, as is a pipe that nobody reads.
LEAVING_SIGNALS = ["/bin/sh", "-c", "trap '' HUP INT PIPE TERM XFSZ; exec \"$0\" \"$@\""]


class Running:
    """The programs that run beside the session."""

    def __init__(self):
        self.lock = threading.Lock()
        self.processes = set()
        self.are_ended = False

    def add(self, process):
        """Counts a program in; one that comes after the end is ended at once."""
        with self.lock:
            self.processes = {each for each in self.processes if each.poll() is None} | {process}
            if self.are_ended:
                process.kill()

    def end(self):
        """Ends all of them, and those that are still to come."""
        with self.lock:
            self.are_ended = True
            for process in self.processes:
                with contextlib.suppress(OSError):
                    process.kill()

    def begin_anew(self):
        """What is started from now on runs."""
        with self.lock:
            self.are_ended = False


running = Running()


def program():
    """Where w4 is: one setting for the whole studio."""
    return os.environ.get("W4") or str(TOP / "w4")


def start(words, **streams):
    """A program that runs beside the session. Python ignores XFSZ and PIPE, and so does what is started here."""
    process = subprocess.Popen([str(word) for word in words], restore_signals=False, **streams)
    running.add(process)
    return process


def run_program(*words):
    """Status, output and the line on standard error of a command of w4."""
    with start([program(), *words], stdin=subprocess.DEVNULL, stdout=subprocess.PIPE, stderr=subprocess.PIPE) as ran:
        output, errors = ran.communicate()
    return ran.returncode, output, errors.decode("utf-8", "replace").strip()
