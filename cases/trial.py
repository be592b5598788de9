"""One run of the program in a room of its own, and how what it did differs from what its case wants."""
import fcntl
import os
import pathlib
import shlex
import shutil
import signal
import stat
import subprocess
import threading

import case_files
from case_files import CASES, Sum

PATIENCE = 120  # seconds until a run is ended
TIMED_OUT = 124
SHORTEST_MEASURE = 0.1  # seconds of processor time
FURNITURE = {"inputs": CASES / "inputs", "examples": CASES.parent / "examples"}
UNDER_A_LIMIT = ["sh", "-c", 'ulimit -f "$1" && shift && exec "$@"', "sh"]
NOBODY = 65534


class Unable(Exception):
    """What a case asks for can't be made here."""


class Runs:
    """Runs of a program. The processes are known, so that all can be ended."""

    measures_time = True

    def __init__(self, program):
        self.program = program
        self.lock = threading.Lock()
        self.pids = set()

    def command(self, words):
        """What starts the program with these words in a process of its own."""
        return [self.program, *words]

    def run_words(self, words, folder, source, out, err):
        """Runs the program in a folder, its standard streams being files of these names. Returns what `run` does."""
        return self.run(self.command(words), folder, source, out, err)

    def run(self, command, folder, source, out, err):
        """How a program ends, as a shell says it, and the processor time that it took with those that it waited for."""
        # a folder can't be opened as a file by Python, and is given to some runs
        source_number = os.open(source, os.O_RDONLY)
        try:
            with open(out, "wb") as out_file, open(err, "wb") as err_file:
                return self.wait_for(command, cwd=folder, stdin=source_number, stdout=out_file, stderr=err_file)
        finally:
            os.close(source_number)

    def wait_for(self, command, **how):
        """As `run`. The program has the signals as the launcher leaves them, since cases/run has them so."""
        with self.lock:
            process = subprocess.Popen(command, restore_signals=False, **how)
            self.pids.add(process.pid)
        timed_out = threading.Event()
        watch = threading.Timer(PATIENCE, lambda: (timed_out.set(), os.kill(process.pid, signal.SIGKILL)))
        watch.start()
        _, status, usage = os.wait4(process.pid, 0)
        watch.cancel()
        with self.lock:
            self.pids.discard(process.pid)
        process.returncode = os.waitstatus_to_exitcode(status)
        ended = process.returncode if process.returncode >= 0 else 128 - process.returncode
        return TIMED_OUT if timed_out.is_set() else ended, usage.ru_utime + usage.ru_stime

    def end_all(self):
        with self.lock:
            for pid in self.pids:
                os.kill(pid, signal.SIGKILL)


class Measures:
    """The processor time that the program takes with the words by which others are measured, each measured once."""

    def __init__(self, runs, room):
        self.runs, self.room = runs, room
        self.lock = threading.Lock()
        self.seconds = {}

    def take(self, words):
        with self.lock:
            if words not in self.seconds:
                folder = furnished(pathlib.Path(self.room, f"measure-{len(self.seconds)}"))
                status, seconds = self.runs.run_words(case_files.words_of(words), folder, *[os.devnull] * 3)
                self.seconds[words] = seconds if status == 0 else 0
            return self.seconds[words]


def furnished(room):
    """A new room's folder in which the program runs: it finds inputs and examples there, and may make OUT."""
    at = room / "at"
    at.mkdir(parents=True)
    (room / "far").mkdir()
    for name, target in FURNITURE.items():
        (at / name).symlink_to(target)
    return at


def look(path):
    """All that a run could change of a file, a link, a folder or a pipe."""
    info = path.lstat()
    content = None
    if path.is_symlink():
        content = os.readlink(path)
    elif path.is_dir():
        content = [(each.name, look(each)) for each in sorted(path.iterdir())]
    elif path.is_file() and os.access(path, os.R_OK):
        content = path.read_bytes()
    return info.st_mode, info.st_nlink, info.st_uid, info.st_gid, info.st_ino, info.st_mtime_ns, content


class Trial:
    """A run of a case: the text of its line `args`, and the number of that line."""

    def __init__(self, case, line, text, runs, measures):
        self.case, self.line, self.text = case, line, text
        self.runs, self.measures = runs, measures

    def result(self, room):
        """What is wrong, or nothing, after a run in this room; Unable where it can't be tried."""
        self.room = room
        self.at = furnished(room)
        self.made = room / "far/kept" if self.case.old_is_link else self.at / "OUT"
        self.locks = []
        try:
            self.prepare()
            before = self.things()
            self.status, seconds = self.run()
            return self.faults(before, seconds)
        finally:
            for file in self.locks:
                file.close()

    def prepare(self):
        """Puts there what is there before a run: OUT, what stands beside it, what a client sends."""
        case = self.case
        if case.old_is_link:
            (self.at / "OUT").symlink_to("../far/kept")
        if case.old is not None:
            write(self.made, case.old, case.old_mode)
        for kind, name, data, mode in case.beside:
            self.put(kind, self.at / name, data, mode)
        if case.sent is not None:
            write(self.room / "sent", case.sent, case_files.MODE)

    def put(self, kind, path, data, mode):
        """Makes a thing beside OUT, and in another folder what it leads to."""
        other = self.room / "far" / f"other-{path.name}"
        if kind in ("link", "hard-link"):
            write(other, data, mode)
        if kind in ("link", "dead-link"):
            path.symlink_to(f"../far/{other.name}")
        elif kind == "hard-link":
            os.link(other, path)
        elif kind == "fifo":
            os.mkfifo(path, mode)
        elif kind == "folder":
            path.mkdir()
            write(path / "within", data, mode)
        else:
            write(path, data, mode)
        if kind == "locked":
            self.locks.append(path.open("rb"))
            fcntl.flock(self.locks[-1], fcntl.LOCK_EX)
        if kind == "foreign":
            if os.geteuid() != 0:
                raise Unable("a file of another user, which only root can make")
            os.chown(path, NOBODY, NOBODY)

    def things(self):
        """What stands in the room's folders but for the furniture and OUT, each as it is."""
        return {path.name: look(path) for folder in (self.at, self.room / "far") for path in folder.iterdir()
                if path.name not in FURNITURE and path.name not in ("OUT", "kept")}

    def run(self):
        """Runs the program, by a client where its case sends lines. Returns how it ended, and what it took."""
        case, words = self.case, case_files.words_of(self.text)
        for name in ("out", "err", "saved"):
            (self.room / name).touch()
        streams = case.in_file or os.devnull, case.out_to or self.room / "out", case.err_to or self.room / "err"
        if case.file_limit is None and case.sent is None:
            return self.runs.run_words(words, self.at, *streams)
        command = self.runs.command(words)
        if case.file_limit is not None:
            command = [*UNDER_A_LIMIT, str(case.file_limit), *command]
        if case.sent is not None:
            command = [CASES / "live_client", self.room / "sent", str(case.hangs_up), self.room / "saved", *command]
        return self.runs.run(command, self.at, *streams)

    def faults(self, before, seconds):
        case, faults = self.case, []
        if self.status != case.status:
            faults.append(f"status {self.status}, not {case.status}")
        faults += [self.difference(name, self.room / name) for name in ("out", "err")]
        faults += self.changes(before)
        if "left" not in case.wanted:
            faults.append("OUT was made" if self.made.exists() else "")
        elif self.made.is_file():
            faults.append(self.difference("left", self.made))
        else:
            faults.append("OUT was not made")
        if "saved" in case.wanted:
            faults.append(self.difference("saved", self.room / "saved"))
        if case.within and self.runs.measures_time:
            faults.append(self.too_long(seconds))
        return [fault for fault in faults if fault]

    def difference(self, name, path):
        """How a file differs from what is wanted of it."""
        wanted, got = self.case.wanted[name], path.read_bytes()
        if isinstance(wanted, Sum):
            return "" if wanted.is_of(got) else f"{name} has {len(got)} bytes and not the SHA-256 {wanted.text}"
        if wanted == got:
            return ""
        shorter = min(len(wanted), len(got))
        at = next((k for k in range(shorter) if wanted[k] != got[k]), shorter) + 1
        begins = "".join(chr(byte) if 32 <= byte < 127 else "?" for byte in got[:80])
        return f'{name} has {len(got)} bytes of {len(wanted)}, differs at byte {at}, and begins "{begins}"'

    def changes(self, before):
        """What became of OUT besides its bytes, and of what stood beside it."""
        case, after, faults = self.case, self.things(), []
        if case.old_is_link and not (self.at / "OUT").is_symlink():
            faults.append("OUT is no link any more")
        if (case.old is not None or case.left_mode is not None) and self.made.exists():
            mode = stat.S_IMODE(self.made.stat().st_mode)
            wanted = case.old_mode if case.left_mode is None else case.left_mode
            if mode != wanted:
                faults.append(f"OUT has the permissions {mode:o}, not {wanted:o}")
        faults += [f"{name} was left" for name in sorted(after.keys() - before.keys())]
        faults += [f"{name} is there still" for name in sorted(case.gone & after.keys())]
        for name in sorted(before.keys() - case.gone):
            if name not in after:
                faults.append(f"{name} is gone")
            elif after[name] != before[name]:
                faults.append(f"{name} was changed")
        return faults

    def too_long(self, seconds):
        times, words = self.case.within
        measured = self.measures.take(words)
        if measured < SHORTEST_MEASURE:
            return f"w4 {words} is no measure"
        if seconds <= times * measured:
            return ""
        return f"it took {seconds:.2f} seconds, more than {times} times the {measured:.2f} of w4 {words}"

    def keep(self, folder, faults):
        """Puts into a folder what was wanted and what came, the files that were read, and how to run it again."""
        shutil.copytree(self.room, folder / "got", symlinks=True, ignore=self.left_out)
        (folder / "wanted").mkdir()
        for name, wanted in self.case.wanted.items():
            if isinstance(wanted, Sum):
                (folder / "wanted" / f"{name}.sha256").write_text(wanted.text + "\n")
            else:
                (folder / "wanted" / name).write_bytes(wanted)
        words = case_files.words_of(self.text)
        named = [self.at / os.fsdecode(word) for word in words if b"\0" not in word and word] + [self.case.in_file]
        (folder / "inputs").mkdir()
        for path in named:
            if path and path.is_file() and path.stat().st_size:
                shutil.copy(path, folder / "inputs")
        again = " ".join(shlex.quote(os.fsdecode(word)) for word in self.runs.command(words))
        (folder / "what").write_text(
            f"{self.case.shows}\n{'; '.join(faults)}\nstatus {self.status}, wanted {self.case.status}\n\n"
            f"in got/at, after putting OUT as it was before:\n    {again}\n", errors="backslashreplace")

    @staticmethod
    def left_out(folder, names):
        """Pipes and the like, which no copy can be made of."""
        return [name for name in names if not stat.S_IFMT(os.lstat(os.path.join(folder, name)).st_mode) in
                (stat.S_IFREG, stat.S_IFDIR, stat.S_IFLNK)]


def write(path, data, mode):
    path.write_bytes(data)
    path.chmod(mode)
