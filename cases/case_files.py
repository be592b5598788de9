"""The form of the files *.case, as README.md tells it."""
import hashlib
import pathlib
import re

CASES = pathlib.Path(__file__).resolve().parent
ESCAPE = re.compile(rb"\\(x[0-9a-fA-F]{2}|.?)")
ESCAPED = {b"\\": b"\\", b"n": b"\n", b"r": b"\r", b"t": b"\t"}
MANY = re.compile(r"(.*)\{(\d+)\.\.(\d+)\}(.*)")
KINDS_BESIDE = ("file", "link", "dead-link", "hard-link", "fifo", "folder", "locked", "foreign")
UNTOUCHED = b"as it was\n"
MODE = 0o640  # of a file that is there before a run, where no line says another


class Mistake(ValueError):
    """A line that no case may have."""


class Sum:
    """The SHA-256 of bytes that are wanted."""

    def __init__(self, text):
        if not re.fullmatch("[0-9a-f]{64}", text):
            raise Mistake(f"{text} is no SHA-256")
        self.text = text

    def is_of(self, data):
        return hashlib.sha256(data).hexdigest() == self.text


class Case:
    """What the lines of a case say, where they say nothing what goes without saying."""

    def __init__(self, shows, line):
        self.shows = shows
        self.line = line
        self.runs = []  # the number and the text of each line `args`
        self.status = 0
        self.wanted = {"out": b"", "err": b""}  # bytes or a Sum of each stream, of OUT (left) and OUT at a save (saved)
        self.out_to = self.err_to = self.in_file = None
        self.sent = None
        self.hangs_up = "never"
        self.within = None
        self.file_limit = None
        self.old = None
        self.old_is_link = False
        self.old_mode = MODE
        self.left_mode = None
        self.beside = []
        self.gone = set()


def unescaped(text):
    """The bytes of a text in which \\xHH, \\n, \\r, \\t and \\\\ stand for a byte."""
    def byte(match):
        escape = match[1]
        if escape.startswith(b"x"):
            return bytes.fromhex(escape[1:].decode())
        if escape not in ESCAPED:
            raise Mistake(f"\\{escape.decode(errors='replace')} stands for no byte; \\xHH, \\n, \\r, \\t and \\\\ do")
        return ESCAPED[escape]

    return ESCAPE.sub(byte, text.encode("utf-8", "surrogateescape"))


def words_of(text):
    """The program's arguments: what stands between spaces, of which '' is an empty one."""
    return [b"" if word == "''" else unescaped(word) for word in text.split()]


def path_of(text):
    path = CASES / text
    if not path.exists():
        raise Mistake(f"there is no file {text}")
    return path


def bytes_of(text):
    return path_of(text).read_bytes()


def line_of(text):
    return text.encode("utf-8", "surrogateescape") + b"\n"


def measure_of(text):
    """How many times what the program takes with which words."""
    times, words = text.split(" ", 1)
    return int(times), words


def names_of(text):
    """The names for which one with {A..B} stands."""
    many = MANY.fullmatch(text)
    if not many:
        return [text]
    front, first, last, back = many.groups()
    return [f"{front}{number}{back}" for number in range(int(first), int(last) + 1)]


def things_beside(text):
    """What stands beside OUT: kind, name, bytes and permissions of each."""
    kind, name, file, mode = (text.split() + [None] * 3)[:4]
    if kind not in KINDS_BESIDE or name is None:
        raise Mistake(f"beside stands before one of {', '.join(KINDS_BESIDE)}, and a name")
    data = bytes_of(file) if file else UNTOUCHED
    return [(kind, each, data, int(mode, 8) if mode else MODE) for each in names_of(name)]


def keeps(field, value_of=str):
    """A line that says one thing of its case."""
    return lambda case, text: setattr(case, field, value_of(text))


def adds(field, value_of):
    """A line that may stand several times."""
    return lambda case, text: setattr(case, field, (getattr(case, field) or type(value_of(text))()) + value_of(text))


def wants(stream, value_of):
    """A line of what is wanted of a stream: bytes, behind those of the lines before, or their sum."""
    def take(case, text):
        value = value_of(text)
        before = case.wanted.get(stream)
        case.wanted[stream] = value if isinstance(value, Sum) or before is None else before + value

    return take


LINES = {
    "status": keeps("status", int),
    "within": keeps("within", measure_of),
    "file-limit": keeps("file_limit", int),
    "out-to": keeps("out_to"),
    "err-to": keeps("err_to"),
    "in-file": keeps("in_file", path_of),
    "hangs-up": keeps("hangs_up", int),
    "send": adds("sent", lambda text: unescaped(text) + b"\n"),
    "send-last": adds("sent", unescaped),
    "send-file": adds("sent", bytes_of),
    "old-file": keeps("old", bytes_of),
    "old-link": keeps("old_is_link", lambda _: True),
    "old-mode": keeps("old_mode", lambda text: int(text, 8)),
    "left-mode": keeps("left_mode", lambda text: int(text, 8)),
    "beside": adds("beside", things_beside),
    "gone": lambda case, text: case.gone.update(names_of(text)),
    "out": wants("out", line_of),
    "err": wants("err", line_of),
    **{f"{stream}-file": wants(stream, bytes_of) for stream in ("out", "err", "left", "saved")},
    **{f"{stream}-sha256": wants(stream, Sum) for stream in ("out", "err", "left")},
}


def take(case, number, key, text):
    """Takes a line of a case that has begun."""
    if case is None:
        raise Mistake("a case begins with a line shows")
    if key == "args":
        words_of(text)
        case.runs.append((number, text))
    elif key in LINES:
        LINES[key](case, text)
    else:
        raise Mistake(f"no line of a case begins with {key}")


def read(file):
    """The cases of a file, and the mistakes in it: for each the number of its line, and what is wrong."""
    cases, mistakes = [], []
    lines = file.read_text(encoding="utf-8", errors="surrogateescape").split("\n")
    for number, line in enumerate(lines, 1):
        key, _, text = line.partition(" ")
        if not line or line.startswith("#"):
            continue
        if key == "shows":
            cases.append(Case(text, number))
            continue
        try:
            take(cases[-1] if cases else None, number, key, text)
        except ValueError as error:
            mistakes.append((number, str(error) if isinstance(error, Mistake) else f"{line} can't be read: {error}"))
    mistakes += [(case.line, f"{case.shows}: it has no line args") for case in cases if not case.runs]
    if not cases:
        mistakes.append((0, "there is no case in it"))
    return cases, sorted(mistakes)
