"""The program as a WebAssembly module, in processes of node that stay: each runs one command after another, and keeps
the compiled module. A fresh process would take longer to start than most runs."""
import json
import os
import queue
import re
import shutil
import subprocess
import threading

import trial
from case_files import CASES

OLDEST_NODE = 18
RESIDENT = CASES.parent / "ports/resident.mjs"
LEFT_OUT = CASES / "not-in-node.txt"
MOST_LEFT_OUT = 25
ROW = re.compile(r"(\S+\.case): (.*?) -- (.*)")


def has_node():
    """Whether there is a node that is new enough."""
    if not shutil.which("node"):
        return False
    said = subprocess.run(["node", "--version"], stdout=subprocess.PIPE, text=True, check=False).stdout
    version = re.match(r"v(\d+)\.", said)
    return version is not None and int(version[1]) >= OLDEST_NODE


def left_out():
    """Of the runs that node can't do by its nature the reason, by file and words."""
    lines = [line for line in LEFT_OUT.read_text(encoding="utf-8").splitlines() if line and not line.startswith("#")]
    rows = [ROW.fullmatch(line) for line in lines]
    if None in rows or len(rows) > MOST_LEFT_OUT:
        raise SystemExit(f"cases/run: {LEFT_OUT} may have {MOST_LEFT_OUT} lines, each FILE.case: WORDS -- REASON")
    return {(row[1], row[2]): f"not in node: {row[3]}" for row in rows}


def sent_words(words):
    """Words of a run as node gets them from a system: what isn't UTF-8 is no text there."""
    return [word.decode("utf-8", "replace") for word in words]


class Resident:
    """A process that runs the module, one run after another."""

    def __init__(self, module):
        self.process = subprocess.Popen(["node", RESIDENT, module], stdin=subprocess.PIPE, stdout=subprocess.PIPE,
                                        text=True, encoding="utf-8", start_new_session=True)

    def run(self, words, folder, source, out, err):
        """The status of a run and its processor time; a run that takes too long ends the process."""
        asked = {"words": sent_words(words), "folder": str(folder), "streams": [str(source), str(out), str(err)]}
        timed_out = threading.Event()
        watch = threading.Timer(trial.PATIENCE, lambda: (timed_out.set(), self.process.kill()))
        watch.start()
        try:
            self.process.stdin.write(json.dumps(asked) + "\n")
            self.process.stdin.flush()
            line = self.process.stdout.readline()
        except OSError:
            line = ""
        watch.cancel()
        if line:
            said = json.loads(line)
            return said["status"], said["seconds"]
        return (trial.TIMED_OUT if timed_out.is_set() else 128 + 6), 0

    def has_ended(self):
        return self.process.poll() is not None

    def end(self):
        self.process.kill()
        self.process.wait()
        self.process.stdin.close()
        self.process.stdout.close()


class Residents(trial.Runs):
    """Runs of the module. Those that need a process of their own, as under a client, get one."""

    measures_time = False  # node compiles as it goes, so that what a run takes says little

    def __init__(self, module):
        super().__init__(module)
        self.idle = queue.SimpleQueue()
        self.all = []

    def command(self, words):
        return ["node", RESIDENT, self.program, "--", *words]

    def take(self):
        try:
            return self.idle.get_nowait()
        except queue.Empty:
            made = Resident(self.program)
            with self.lock:
                self.all.append(made)
            return made

    def run_words(self, words, folder, source, out, err):
        if any(b"\0" in os.fsencode(word) for word in words):
            return self.run(self.command(words), folder, source, out, err)
        one = self.take()
        answer = one.run(words, folder, source, out, err)
        if not one.has_ended():
            self.idle.put(one)
        return answer

    def end_all(self):
        super().end_all()
        for one in self.all:
            one.end()
