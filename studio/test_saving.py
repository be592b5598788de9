"""Tests of what is written and what isn't: the recording, its folder, and what stands in the way."""
import contextlib
import os
import pathlib
import resource
import shutil
import subprocess
import tempfile
import urllib.request

from browser import GARDEN, Missing, Studio
from plain_page import PlainPage
from recordings import RIGHT, frame, recording
from trials import EDIT, EDITED, FRAMES, SOON, elsewhere, end_all, mode_of, refusal_of

OTHER = recording(FRAMES[:7] + [frame(2)])


def inputs_elsewhere(studio, said):
    """The recording that was put into that folder, and named."""
    [place] = pathlib.Path(studio.room.name, "elsewhere").iterdir()
    assert str(place) in said and mode_of(place) == 0o600, said
    return place.read_bytes()


def end_of(studio):
    """Ends a studio; its status, and what it said of that."""
    studio.process.terminate()
    _, said = studio.process.communicate(timeout=SOON)
    return studio.process.returncode, said


@contextlib.contextmanager
def begun(studio, **more):
    """A studio that says on a pipe what it has to say."""
    try:
        yield studio.start(stderr=subprocess.PIPE, **more)
    finally:
        end_all(studio)


# ---- one recording is one studio's

def test_one_recording_under_two_names_is_one(studio):
    link = studio.recording.with_name("link.w4rec")
    link.symlink_to(studio.recording.name)
    around = studio.recording.parent / "inner" / ".." / studio.recording.name
    (studio.recording.parent / "inner").mkdir()
    for name in (link, around, studio.recording):
        line = refusal_of(studio.cart, name)
        process = studio.process.pid
        assert line == (f"studio: another studio has {studio.recording.resolve()} open, process {process}: end it by "
                        f"Ctrl-C in its terminal, or by 'kill {process}'"), line
    assert sorted(path.name for path in studio.recording.parent.iterdir()) == [
        studio.recording.name, studio.folder.name, "inner", "link.w4rec"]


def test_a_link_to_a_recording_stays_a_link():
    studio = Studio()
    link = studio.recording.with_name("link.w4rec")
    link.symlink_to(studio.recording.name)
    target, studio.recording = studio.recording, link
    with studio:
        assert PlainPage(studio.address).ask(EDIT) == b""
        assert studio.stop() == 0
        assert link.is_symlink() and target.read_bytes() == recording(EDITED)


# ---- nothing edited, nothing written

def facts_of(path):
    facts = os.lstat(path)
    return facts.st_ino, facts.st_mtime_ns, facts.st_ctime_ns, path.read_bytes()


def test_where_nothing_is_edited_nothing_is_written():
    with Studio() as studio:
        before = facts_of(studio.recording)
        page = PlainPage(studio.address)
        assert page.ask("save") == b"" and page.ask("state 3").startswith(b"state 3 of 240 ")
        assert urllib.request.urlopen(f"{studio.address}recording", timeout=SOON).read() == recording(FRAMES)
        page.close()
        assert studio.stop() == 0
        assert facts_of(studio.recording) == before
        assert not studio.folder.exists()


def test_an_edit_that_is_taken_back_leaves_the_version():
    with Studio() as studio:
        before = facts_of(studio.recording)
        page = PlainPage(studio.address)
        old = page.ask("inputs 60 61").decode().strip()
        for order in (EDIT, old, "save"):
            assert page.ask(order) == b""
        assert studio.stop() == 0
        assert facts_of(studio.recording) == before


def test_a_new_recording_is_there_once_it_is_edited():
    with Studio(recording=None) as studio:
        assert studio.stop() == 0
        assert not list(studio.recording.parent.iterdir())
        studio.start()
        assert PlainPage(studio.address).ask(f"insert 0 {RIGHT} 0 0 0 32767 32767 0") == b""
        assert studio.stop() == 0
        assert studio.recording.read_bytes() == recording([frame(RIGHT)], budget=1_000_000)


# ---- another program replaces the recording

def test_a_recording_that_was_replaced_becomes_a_branch(studio):
    page = PlainPage(studio.address)
    assert page.ask(EDIT) == b""
    studio.recording.write_bytes(OTHER)
    assert page.ask("save") == b""
    assert studio.recording.read_bytes() == recording(EDITED)
    [found] = studio.folder.glob("found *.w4rec")
    assert found.read_bytes() == OTHER
    assert found.stem in page.wait_for_note()
    assert page.ask("save") == b"" and not page.notes
    assert len(list(studio.folder.glob("found *.w4rec"))) == 1


def test_a_recording_that_was_replaced_stays_where_nothing_is_edited(studio):
    studio.recording.write_bytes(OTHER)
    page = PlainPage(studio.address)
    assert page.ask("save") == b""
    assert urllib.request.urlopen(f"{studio.address}recording", timeout=SOON).read() == recording(FRAMES)
    assert studio.stop() == 0
    assert studio.recording.read_bytes() == OTHER and not studio.folder.exists()


def test_a_recording_that_is_gone_is_written_anew(studio):
    page = PlainPage(studio.address)
    assert page.ask(EDIT) == b""
    studio.recording.unlink()
    assert page.ask("save") == b""
    assert studio.recording.read_bytes() == recording(EDITED)


# ---- rights

def test_what_is_made_has_the_rights_of_the_recording():
    for mode, folder in ((0o600, 0o700), (0o640, 0o750), (0o664, 0o775)):
        studio = Studio()
        studio.recording.chmod(mode)
        with studio:
            page = PlainPage(studio.address)
            assert page.ask(EDIT) == b"" and page.ask("save") == b"" and page.ask(EDIT) == b""
            assert mode_of(studio.recording) == mode and mode_of(studio.folder) == folder
            for path in studio.folder.iterdir():
                assert mode_of(path) & ~mode == 0, (path, oct(mode_of(path)))


# ---- saves that fail

def limit_files():
    """What is started may write no file of more bytes: the recording as it is, but not in version 2."""
    resource.setrlimit(resource.RLIMIT_FSIZE, (2300, 2300))


def test_a_save_that_fails_is_told_and_nothing_is_lost():
    with begun(Studio(), preexec_fn=limit_files) as studio:
        before = studio.recording.read_bytes()
        page = PlainPage(studio.address)
        assert page.ask(EDIT) == b""
        assert page.ask("save") == b"refused cannot write\n"
        assert page.ask("state 0").startswith(b"state 0 of 240 ")
        status, said = end_of(studio)
        assert status == 1 and studio.recording.read_bytes() == before
        assert f"{studio.recording} isn't saved" in said and str(studio.folder / "journal") in said, said
        studio.start()
        assert studio.recording.read_bytes() == recording(EDITED)


def test_the_last_save_that_fails_puts_the_inputs_elsewhere():
    studio = Studio()
    with begun(studio, env=elsewhere(studio)):
        page = PlainPage(studio.address)
        assert page.ask(EDIT) == b""
        studio.recording.unlink()
        studio.recording.mkdir()
        status, said = end_of(studio)
        assert status == 1 and f"{studio.recording} isn't saved" in said
        assert inputs_elsewhere(studio, said) == recording(EDITED)
        studio.recording.rmdir()
        studio.start()
        assert studio.recording.read_bytes() == recording(EDITED)


@contextlib.contextmanager
def small_disk(size):
    """A folder that holds so many bytes."""
    with tempfile.TemporaryDirectory() as room:
        mounted = subprocess.run(["mount", "-t", "tmpfs", "-o", f"size={size}", "tmpfs", room], check=False,
                                 stderr=subprocess.DEVNULL)
        if mounted.returncode:
            raise Missing("a file system can only be mounted by root")
        try:
            yield pathlib.Path(room)
        finally:
            subprocess.run(["umount", room], check=True)


def test_a_full_disk_takes_nothing():
    with small_disk(256 << 10) as disk:
        path = disk / "game.w4rec"
        shutil.copy(GARDEN / "game.w4rec", path)
        studio = Studio()
        studio.recording, studio.folder = path, disk / "game.w4rec.studio"
        with begun(studio, env=elsewhere(studio)):
            page = PlainPage(studio.address)
            with contextlib.suppress(OSError), open(disk / "fill", "wb", buffering=0) as file:
                while True:
                    file.write(bytes(512))
            assert page.ask(EDIT) == b""
            assert page.ask("save") == b"refused cannot write\n"
            status, said = end_of(studio)
            assert status == 1 and "No space left on device" in said, said
            assert inputs_elsewhere(studio, said) == recording(EDITED)
            assert path.read_bytes() == (GARDEN / "game.w4rec").read_bytes()


# ---- what the folder may have

def test_what_others_put_into_the_folder_is_left_alone():
    with tempfile.TemporaryDirectory() as room:
        precious = pathlib.Path(room, "precious")
        precious.write_bytes(b"precious")
        for name in ("lock", "journal", "base.w4rec", "draft.w4rec"):
            studio = Studio()
            studio.folder.mkdir()
            (studio.folder / name).symlink_to(precious)
            if name == "lock":
                assert str(studio.folder / "lock") in refusal_of(studio.cart, studio.recording)
            else:
                with studio:
                    assert PlainPage(studio.address).ask(EDIT) == b""
                    assert studio.stop() == 0
                    assert studio.recording.read_bytes() == recording(EDITED)
            assert precious.read_bytes() == b"precious", name
            studio.close()


def test_a_pipe_in_the_folder_does_not_hold_up_the_start():
    for name in ("lock", "journal", "base.w4rec"):
        studio = Studio()
        studio.folder.mkdir()
        os.mkfifo(studio.folder / name)
        if name == "lock":
            assert f"{studio.folder / name} isn't a plain file" in refusal_of(studio.cart, studio.recording)
        else:
            with studio:
                assert PlainPage(studio.address).ask(EDIT) == b""
                assert studio.stop() == 0
        studio.close()


def test_a_journal_without_its_base_is_not_lost():
    studio = Studio()
    studio.folder.mkdir()
    journal = studio.folder / "journal"
    journal.write_text(f"# base {'0' * 64} recording {'0' * 64} saved\n{EDIT}\n", encoding="utf-8")
    before = journal.read_bytes()
    line = refusal_of(studio.cart, studio.recording)
    assert str(journal) in line and str(studio.folder / "base.w4rec") in line
    assert journal.read_bytes() == before and studio.recording.read_bytes() == (GARDEN / "game.w4rec").read_bytes()
    studio.close()
