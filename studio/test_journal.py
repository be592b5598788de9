"""Tests of the journal: which orders are edits, and what is read of one that a killed studio has left."""
import contextlib
import hashlib
import os
import pathlib
import resource
import tempfile

from browser import FONT, GARDEN
from journal import Journal, edit_of, read_left
from recording_files import RecordingFiles
from recordings import recording
from refusal import Refusal
from saving import scripts_of
from trials import EDIT, FRAMES

LARGEST = "set 0 255 0 0 0 -32768 32767 255"
INPUT = "1 2 3 4 -5 6 7"
BASE = recording(FRAMES)


def sha256(data):
    return hashlib.sha256(data).hexdigest()


@contextlib.contextmanager
def files_in_a_room():
    """The files of a studio whose folder is there."""
    with tempfile.TemporaryDirectory() as room:
        files = RecordingFiles(GARDEN / "cart.wasm", pathlib.Path(room, "game.w4rec"), FONT)
        files.folder.mkdir()
        yield files


def test_which_orders_are_edits():
    for line, edit in (
            (f"set 0 {INPUT}", f"set 0 {INPUT}"), (f"insert 36000 {INPUT} reset", f"insert 36000 {INPUT} reset"),
            ("delete 4294967295", "delete 4294967295"), (f"  set  007  {INPUT}  ", f"set 7 {INPUT}"),
            (f"set 0 {INPUT} reset\r", f"set 0 {INPUT} reset"), (LARGEST, LARGEST),
            (f"set 0 {INPUT} again", None), ("set 0 256 0 0 0 0 0 0", None), ("set 0 1 2 3 4 -32769 0 0", None),
            ("set 0 1 2 3 4 0 32768 0", None), ("set 0 1 2 3 4 0 0", None), ("set -1 1 2 3 4 0 0 0", None),
            ("delete 4294967296", None), ("delete 12345678901", None), ("delete", None), ("undo", None), ("", None),
            ("state 0", None), ("keep 3", None), ("# set 0", None), ("SET 0 1 2 3 4 0 0 0", None),
            ("delete\t1", None), ("delete ١", None), ("delete 1" + " " * 1017, None)):
        assert edit_of(line) == edit, line


def test_a_line_that_was_cut_off_is_left_out():
    with files_in_a_room() as files:
        files.base.write_bytes(BASE)
        files.journal.write_text(f"# base {sha256(BASE)} recording absent saved\n{EDIT}\ndelete 1", encoding="utf-8")
        left = read_left(files)
        assert (left.base, left.orders, left.is_edited, left.known_digest) == (BASE, [EDIT], True, "absent")


def test_orders_of_an_earlier_base_are_in_the_later_one():
    with files_in_a_room() as files:
        files.base.write_bytes(BASE)
        files.journal.write_text(f"# base {sha256(b'earlier')} recording {sha256(b'old')} saved\n{EDIT}\n",
                                 encoding="utf-8")
        left = read_left(files)
        assert (left.base, left.orders, left.is_edited) == (BASE, [], True)
        assert left.known_of(b"old") == b"old" and left.known_of(b"other") is None and left.known_of(None) is None


def test_a_journal_in_which_nothing_was_edited_leaves_nothing_to_save():
    with files_in_a_room() as files:
        assert read_left(files) is None
        journal = Journal(files)
        journal.begin(BASE, BASE)
        assert not read_left(files).is_edited
        journal.add(EDIT)
        assert read_left(files).orders == [EDIT]
        journal.begin(BASE, BASE, is_saved=False)
        assert read_left(files).is_edited and read_left(files).orders == []
        journal.remove()
        assert read_left(files) is None and not list(files.folder.iterdir())


def test_a_journal_that_cannot_be_written_is_told_once_and_caught_up():
    with files_in_a_room() as files:
        journal = Journal(files)
        journal.begin(BASE, BASE)
        hard = resource.getrlimit(resource.RLIMIT_FSIZE)
        try:
            resource.setrlimit(resource.RLIMIT_FSIZE, (os.lstat(files.journal).st_size + len(EDIT) + 5, hard[1]))
            notes = []
            for order in (EDIT, "delete 1", "delete 2"):
                journal.add(order)
                notes.append(journal.take_fault())
        finally:
            resource.setrlimit(resource.RLIMIT_FSIZE, hard)
        assert notes[0] is None and str(files.journal) in notes[1] and notes[2] is None, notes
        assert read_left(files).orders == [EDIT]
        journal.next_try = 0
        journal.add("delete 3")
        assert read_left(files).orders == [EDIT, "delete 1", "delete 2", "delete 3"] == journal.orders


def test_a_base_that_is_no_recording_is_told():
    with files_in_a_room() as files:
        files.base.write_bytes(BASE[:-1])
        files.journal.write_text(f"# base {sha256(BASE[:-1])} recording absent saved\n{EDIT}\n", encoding="utf-8")
        try:
            read_left(files)
            raise AssertionError("it was taken")
        except Refusal as refusal:
            assert str(files.journal) in str(refusal) and str(files.base) in str(refusal)


def test_a_long_journal_is_several_scripts():
    orders = [EDIT] * 100_000
    texts = scripts_of(orders)
    assert "".join(texts) == (EDIT + "\n") * 100_000
    assert len(texts) > 1 and max(map(len, texts)) <= 1_048_576
    assert all(text.endswith("\n") for text in texts)
