"""The folder beside a recording: branches, which are other recordings, and watches. It may come out of an
archive, or be another user's: what isn't what it should be there is left alone, and told.
"""
import contextlib
import json
import os
import re
import stat
import time

from recording_files import parse_recording
from refusal import Refusal
from whole_files import LONGEST, put_whole, regular_bytes

OWN_NAMES = ("base", "draft")  # recordings there that are the studio's own, and no branches
NAME = re.compile(r"\w[\w .,+-]{0,79}")
LONGEST_NAME = 200  # bytes, so that a file of the name can be replaced
LONGEST_WATCHES = 1 << 20  # bytes
WIDTHS, MEMORY = (1, 2, 4), 65_536
TOLD = 5  # files that a note names


def is_watch(row):
    """Whether a row of the watches is an address, a width and a name."""
    if not isinstance(row, dict):
        return False
    address, width = row.get("address"), row.get("width")
    return (type(address) is int and type(width) is int and width in WIDTHS and 0 <= address <= MEMORY - width
            and isinstance(row.get("name"), str))


def parse_watches(text):
    """The rows of JSON that are watches, and whether there is anything else."""
    try:
        rows = json.loads(text)
    except (ValueError, RecursionError):
        return [], True
    if not isinstance(rows, list):
        return [], True
    watches = [{key: row[key] for key in ("address", "width", "name")} for row in rows if is_watch(row)]
    return watches, len(watches) < len(rows)


class FolderFiles:
    """What the page keeps in the folder of a studio's files."""

    def __init__(self, files):
        self.files, self.folder = files, files.folder
        self.watches_file = self.folder / "watches.json"
        self.left_out = {}  # names of files that aren't branches, and why
        self.watch_fault = None  # what is wrong with the watches

    def need_folder(self):
        """Refuses where the folder was removed, or another thing was put into its place."""
        try:
            is_there = stat.S_ISDIR(os.lstat(self.folder).st_mode)
        except OSError:
            is_there = False
        if not is_there:
            raise Refusal(f"the folder {self.folder} is gone, where branches and watches are kept: end the "
                          "studio, and start it again")

    def note(self):
        """What the user should read of files that were left out; None where there is nothing."""
        names = [f"{name} ({cause})" for name, cause in sorted(self.left_out.items())]
        more = f" and {len(names) - TOLD} more" if len(names) > TOLD else ""
        left_out = f"no branches, and left alone in {self.folder}: {', '.join(names[:TOLD])}{more}"
        return "; ".join(filter(None, (left_out if names else None, self.watch_fault))) or None

    # ---- branches

    def branch_file(self, name):
        """The file of a branch. A name is plain, so that it can't lead out of the folder."""
        if not NAME.fullmatch(name) or len(name.encode("utf-8", "replace")) > LONGEST_NAME:
            raise Refusal(f"a branch can't have the name '{name[:80]}': one has letters, digits, spaces and "
                          f". , + - _, at most 80, and {LONGEST_NAME} bytes")
        if name in OWN_NAMES:
            raise Refusal(f"a branch can't have the name {name}, which is the studio's own: choose another")
        return self.folder / f"{name}.w4rec"

    def look_at(self, path):
        """The recording of a branch's file, or why it is none: exactly one of them is None."""
        try:
            self.branch_file(path.stem)
            facts = os.lstat(path)
            if stat.S_ISLNK(facts.st_mode):
                return None, "a link"
            if not stat.S_ISREG(facts.st_mode):
                return None, "no plain file"
            if facts.st_size > LONGEST:
                return None, "longer than a recording"
            data = regular_bytes(path)
            if data is None:
                return None, "can't be read"
            parse_recording(data)
        except OSError:
            return None, "can't be read"
        except Refusal:
            return None, "no recording" if NAME.fullmatch(path.stem) else "no name of a branch"
        return data, None

    def branch_bytes(self, name):
        """The recording of a branch."""
        self.need_folder()
        path = self.branch_file(name)
        if not os.path.lexists(path):
            raise Refusal(f"there is no branch {name}: {path} is gone")
        data, cause = self.look_at(path)
        if cause:
            raise Refusal(f"{path} is no branch ({cause})")
        return data

    def branch_list(self):
        """Names, frames and times of the branches, the newest first. What else has such a name is noted."""
        self.need_folder()
        self.left_out, rows = {}, []
        for path in self.branch_paths():
            data, cause = self.look_at(path)
            if cause:
                self.left_out[path.name] = cause
                continue
            with contextlib.suppress(FileNotFoundError):
                rows.append({"name": path.stem, "frames": len(parse_recording(data)[1]),
                             "time": os.lstat(path).st_mtime})
        return sorted(rows, key=lambda row: -row["time"])

    def branch_paths(self):
        """Files that are named as branches are."""
        names = sorted(name for name in os.listdir(self.folder) if name.endswith(".w4rec"))
        return [self.folder / name for name in names if name.removesuffix(".w4rec") not in OWN_NAMES]

    def branch_text(self, name):
        """A branch as the lines that the order `inputs` would write."""
        _, inputs = parse_recording(self.branch_bytes(name))
        return "".join(f"set {number} {text}\n" for number, text in enumerate(inputs))

    def new_branch_file(self, name):
        """The file of a branch that is to be made; whatever has its name stays."""
        self.need_folder()
        path = self.branch_file(name)
        if os.path.lexists(path):
            raise Refusal(f"there is a branch {name} already, or another file named {path}: choose another "
                          "name")
        return path

    def put_branch(self, name, recording):
        """Makes a branch, which those may read who may read the recording."""
        put_whole(self.new_branch_file(name), recording, self.files.mode())

    def keep(self, kind, recording):
        """Makes a branch of a recording unless one has its bytes; its name, of the kind and the time."""
        for path in self.branch_paths():
            if regular_bytes(path) == recording:
                return path.stem
        name = self.free_name(time.strftime(f"{kind} %Y-%m-%d %H.%M.%S"))
        self.put_branch(name, recording)
        return name

    def free_name(self, wanted):
        """This name, or where it isn't free, with the first number behind it that makes it so."""
        name, number = wanted, 1
        while name in OWN_NAMES or os.path.lexists(self.branch_file(name)):
            number += 1
            name = f"{wanted} {number}"
        return name

    def free_own_names(self):
        """Renames branches that have the studio's own names, as an earlier version let them. Only before the
        studio has recordings of its own there; with a journal they are those of one that was killed.
        """
        if os.path.lexists(self.folder / "journal"):
            return
        for name in OWN_NAMES:
            path = self.folder / f"{name}.w4rec"
            if regular_bytes(path) is not None:
                os.rename(path, self.branch_file(self.free_name(name)))

    def remove_branch(self, name):
        """Removes a branch, and nothing else that may have its name."""
        self.need_folder()
        path = self.branch_file(name)
        if os.path.lexists(path):
            self.branch_bytes(name)
            path.unlink()

    # ---- watches

    def read_watches(self):
        """The watches that are stored; what is wrong with the file is noted."""
        self.watch_fault = None
        if not os.path.lexists(self.watches_file):
            return []
        text = regular_bytes(self.watches_file, LONGEST_WATCHES)
        if text is None:
            self.watch_fault = (f"{self.watches_file} is no plain file of watches, and is left alone: move "
                                "it away, so that watches can be stored")
            return []
        watches, has_others = parse_watches(text)
        if has_others:
            self.watch_fault = f"{self.watches_file} has something else than watches, which is left out"
        return watches

    def watches(self):
        """The watches as JSON."""
        return json.dumps(self.read_watches()).encode()

    def store_watches(self, text):
        """Replaces the watches. A file that had something else is kept beside them."""
        self.need_folder()
        watches, has_others = parse_watches(text)
        if has_others:
            raise Refusal("no watches are stored: each has an address of the memory, 1, 2 or 4 bytes, and a "
                          "name")
        data = (json.dumps(watches, indent=1) + "\n").encode()
        if len(data) > LONGEST_WATCHES:
            raise Refusal(f"no watches are stored: {self.watches_file} would have more than "
                          f"{LONGEST_WATCHES} bytes")
        self.make_way_for_watches()
        put_whole(self.watches_file, data, self.files.mode())

    def make_way_for_watches(self):
        """Sets a file aside that has more than watches; refused where there is no plain one."""
        self.read_watches()
        if self.watch_fault is None:
            return
        if regular_bytes(self.watches_file, LONGEST_WATCHES) is None:
            raise Refusal(self.watch_fault)
        aside = self.folder / "watches.json.old"
        if not os.path.lexists(aside):
            os.rename(self.watches_file, aside)
