"""Tests of the folder beside the recording: what shouldn't be there, and what is left where a write fails."""
import json
import os
import resource
import stat

from raw_client import Client, WatchedStudio
from recordings import frame, garden_frames, recording

OTHER = recording(garden_frames()[:5])
WATCH = {"address": 160, "width": 2, "name": "hops"}
NAMING = [("DELETE", "branches"), ("GET", "branch"), ("POST", "branches"), ("POST", "compare")]  # of a branch
HUGE = 6 << 30  # bytes; the file has none of them on the disk


def mode(path):
    return stat.S_IMODE(os.lstat(path).st_mode)


def facts(path):
    """What would differ if a file had been touched."""
    found = os.lstat(path)
    return found.st_ino, found.st_mode, found.st_size, found.st_mtime_ns


def fill_with_strange_things(folder, outside):
    """Puts into a folder what an archive may have put there; the names of what is no branch."""
    folder.mkdir()
    (folder / "good.w4rec").write_bytes(OTHER)
    outside.write_bytes(OTHER)
    os.mkfifo(folder / "pipe.w4rec")
    (folder / "folder.w4rec").mkdir()
    (folder / "link.w4rec").symlink_to(outside)
    (folder / "dangling.w4rec").symlink_to(folder / "nothing")
    with open(folder / "huge.w4rec", "wb") as huge:
        huge.truncate(HUGE)
    (folder / "half.w4rec").write_bytes(OTHER[:60])
    (folder / "a:b.w4rec").write_bytes(OTHER)
    return ["pipe", "folder", "link", "dangling", "huge", "half", "a:b"]


def test_strange_things_in_the_folder_are_left_alone():
    studio = WatchedStudio()
    outside = studio.recording.with_name("outside")
    strange = fill_with_strange_things(studio.folder, outside)
    before = {name: facts(studio.folder / f"{name}.w4rec") for name in strange}
    with studio:
        client = Client(studio)
        assert "good" in client.list() and not client.list() & set(strange)
        for name in strange:
            for method, request in NAMING:
                status, text = client.ask(request, method, name=name)
                assert status == 409 and name in text.decode(), (method, request, name, status, text)
        assert {name: facts(studio.folder / f"{name}.w4rec") for name in strange} == before
        assert outside.read_bytes() == OTHER
        assert studio.said() == ""


def test_the_page_is_told_what_was_left_out():
    studio = WatchedStudio()
    fill_with_strange_things(studio.folder, studio.recording.with_name("outside"))
    for name in ("folder", "half"):
        path = studio.folder / f"{name}.w4rec"
        path.rmdir() if path.is_dir() else path.unlink()
    with studio:
        client = Client(studio)
        with client.open_page() as page:
            page.greeting()
            note = page.next_note()
            for part in (str(studio.folder), "pipe.w4rec (no plain file)", "link.w4rec (a link)",
                         "a:b.w4rec (no name", "huge.w4rec (longer than a recording)"):
                assert part in note, (part, note)
            (studio.folder / "late.w4rec").write_bytes(b"W4RC")
            client.list()
            assert "late.w4rec (no recording)" in page.next_note()


def test_what_has_a_branch_s_name_stays():
    with WatchedStudio() as studio:
        client = Client(studio)
        outside = studio.recording.with_name("outside")
        (studio.folder / "dangling.w4rec").symlink_to(outside)
        (studio.folder / "there.w4rec").write_bytes(OTHER)
        for name in ("dangling", "there", "base", "draft"):
            status, text = client.ask("branches", "POST", name=name)
            assert status == 409 and name in text.decode(), (name, status, text)
        assert not outside.exists() and (studio.folder / "there.w4rec").read_bytes() == OTHER
        assert not {"base", "draft"} & client.list()


def test_branches_are_removed_and_no_more():
    with WatchedStudio() as studio:
        client = Client(studio)
        assert client.ask("branches", "POST", name="one")[0] == 200
        assert client.ask("branches", "POST", name="two")[0] == 200
        assert client.ask("branches", "DELETE", name="one")[0] == 200
        assert client.ask("branches", "DELETE", name="one")[0] == 200
        assert {"two"} <= client.list() and "one" not in client.list()


def test_the_folder_has_the_recording_s_rights():
    with WatchedStudio() as studio:
        client = Client(studio)
        for name, wanted in (("private", 0o600), ("shared", 0o640)):
            studio.recording.chmod(wanted)
            assert client.ask("branches", "POST", name=name)[0] == 200
            assert client.ask("watches", "POST", json.dumps([WATCH]).encode())[0] == 200
            for file in (f"{name}.w4rec", "watches.json"):
                assert mode(studio.folder / file) == wanted, (file, wanted)


def test_a_removed_folder_is_named():
    with WatchedStudio() as studio:
        client = Client(studio)
        studio.folder.rename(studio.folder.with_name("elsewhere"))
        for method, request, body, query in (
                ("GET", "branches", b"", {}), ("POST", "branches", b"", {"name": "x"}),
                ("DELETE", "branches", b"", {"name": "x"}), ("GET", "branch", b"", {"name": "x"}),
                ("POST", "watches", json.dumps([WATCH]).encode(), {})):
            status, text = client.ask(request, method, body, **query)
            assert status == 409 and str(studio.folder) in text.decode(), (method, request, status, text)
        assert client.ask("watches") == (200, b"[]")
        with client.open_page() as page:
            page.greeting()
            assert str(studio.folder) in page.next_note()
        assert studio.said() == ""


def test_broken_watches_are_told_and_kept():
    """As a full disk left them to an earlier version."""
    whole = json.dumps([WATCH, WATCH], indent=1)
    in_part = json.dumps([WATCH, {"address": -1}])
    rows = [(whole[:-20], []), ("[" * 100_000, []), ("null", []), (in_part, [WATCH])]
    with WatchedStudio() as studio:
        client = Client(studio)
        path, aside = studio.folder / "watches.json", studio.folder / "watches.json.old"
        for broken, kept in rows:
            path.write_text(broken, encoding="utf-8")
            status, data = client.ask("watches")
            assert status == 200 and json.loads(data) == kept
            with client.open_page() as page:
                page.greeting()
                assert str(path) in page.next_note()
            assert path.read_text(encoding="utf-8") == broken
            assert client.ask("watches", "POST", json.dumps([WATCH]).encode())[0] == 200
            assert json.loads(path.read_bytes()) == [WATCH]
            assert aside.read_text(encoding="utf-8") == broken
            aside.unlink()


def test_watches_that_are_no_plain_file_are_left_alone():
    with WatchedStudio() as studio:
        client = Client(studio)
        path, outside = studio.folder / "watches.json", studio.recording.with_name("outside")
        outside.write_bytes(json.dumps([WATCH]).encode())
        for kind in ("link", "pipe", "folder", "huge"):
            make_strange(path, kind, outside)
            before = facts(path)
            assert client.ask("watches") == (200, b"[]")
            status, text = client.ask("watches", "POST", b"[]")
            assert status == 409 and str(path) in text.decode(), (kind, status, text)
            assert facts(path) == before and outside.read_bytes() == json.dumps([WATCH]).encode()
            path.rmdir() if kind == "folder" else path.unlink()


def test_branches_of_an_earlier_version_keep_their_recordings():
    """It let them have the names that are the studio's own now."""
    studio = WatchedStudio()
    studio.folder.mkdir()
    for name in ("base", "draft"):
        (studio.folder / f"{name}.w4rec").write_bytes(OTHER)
    with studio:
        client = Client(studio)
        assert client.list() >= {"base 2", "draft 2"}
        for name in ("base", "draft"):
            assert (studio.folder / f"{name} 2.w4rec").read_bytes() == OTHER


def make_strange(path, kind, outside):
    if kind == "link":
        path.symlink_to(outside)
    elif kind == "pipe":
        os.mkfifo(path)
    elif kind == "folder":
        path.mkdir()
    else:
        with open(path, "wb") as huge:
            huge.truncate(HUGE)


def kept(studio):
    """What the folder has, but for the draft, which the program writes."""
    return {path.name: path.read_bytes() for path in studio.folder.iterdir() if path.name != "draft.w4rec"}


def test_a_failed_write_leaves_what_was_there():
    """A file may have no more than so many bytes, as where a disk is full."""
    watches = json.dumps([WATCH]).encode()
    with WatchedStudio() as studio:
        client = Client(studio)
        assert client.ask("watches", "POST", watches)[0] == 200
        before = kept(studio)
        resource.prlimit(studio.process.pid, resource.RLIMIT_FSIZE, (1000, 1000))
        status, text = client.ask("watches", "POST", json.dumps([WATCH] * 100).encode())
        assert status == 409 and str(studio.folder / "watches.json") in text.decode()
        status, text = client.ask("branches", "POST", name="big")
        assert status == 409 and studio.folder.name in text.decode()
        assert kept(studio) == before
        assert client.ask("watches", "POST", b"[]")[0] == 200
        assert studio.said() == ""


def test_watches_that_are_stored_come_back():
    names = ["hops", "", "\u00e4\u00df \U0001f600", "\\\"<b>"]
    watches = [dict(WATCH, name=name, width=width) for name in names for width in (1, 2, 4)]
    with WatchedStudio() as studio:
        client = Client(studio)
        status, data = client.ask("watches", "POST", json.dumps(watches).encode())
        assert status == 200 and json.loads(data) == watches
        assert json.loads(client.ask("watches")[1]) == watches
        assert client.ask("watches", "POST", json.dumps([WATCH] * 20_000).encode())[0] in (409, 413)
        assert json.loads(client.ask("watches")[1]) == watches
