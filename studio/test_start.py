"""Tests of how a studio starts: what is refused and how, who learns the address, and streams that are full or closed."""
import contextlib
import os
import pathlib
import shutil
import signal
import socket
import subprocess
import tempfile

from browser import GARDEN, STUDIO, Studio, wait_until
from plain_page import PlainPage
from recordings import frame, recording
from trials import EDIT, EDITED, SOON, elsewhere, end_all, mode_of, refusal_of


def test_a_refused_studio_leaves_nothing(studio):
    room = studio.recording.with_name("room")
    room.mkdir()
    empty, short, other = room / "empty", room / "short.w4rec", room / "other.w4rec"
    empty.write_bytes(b"")
    short.write_bytes(studio.recording.read_bytes()[:-1])
    other.write_bytes(recording([frame(0)], cart=STUDIO / "run"))
    port = studio.address.split(":")[2].split("/")[0]
    rows = [
        ((empty, room / "new.w4rec"), [str(empty), "w4: cart: malformed"]),
        ((studio.cart, short), [str(short), "isn't a recording"]),
        ((studio.cart, other), [str(other), str(studio.cart), "w4: recording: wrong cart"]),
        ((studio.cart, room / "new.w4rec", empty), [str(empty), "w4: font: not 1792 bytes"]),
        ((room / "gone.wasm", room / "new.w4rec"), [f"{room / 'gone.wasm'} can't be read: No such file or directory"]),
        ((studio.cart, room / "new.w4rec", room / "font"), [f"{room / 'font'} can't be read: No such file"]),
        ((studio.cart, room / "no" / "new.w4rec"), [str(room / "no" / "new.w4rec.studio"), "can't be made"]),
        ((studio.cart, room), [str(room), "isn't a plain file"]),
        (("--port", port, studio.cart, room / "new.w4rec"), [f"port {port} ", "Address already in use"]),
    ]
    for words, parts in rows:
        line = refusal_of(*words)
        assert line.startswith("studio: ") and line.count("\n") == 0, line
        assert all(part in line for part in parts), line
        assert sorted(path.name for path in room.iterdir()) == ["empty", "other.w4rec", "short.w4rec"], words
    assert not room.with_name("room.studio").exists()


def test_words_that_are_wrong_are_told():
    for flag, number, limits in (("--budget", "0", "1 to 4294967295"), ("--budget", "4294967296", "1 to 4294967295"),
                                 ("--budget", "x", "1 to 4294967295"), ("--port", "99999", "0 to 65535"),
                                 ("--port", "-1", "0 to 65535")):
        line = refusal_of(f"{flag}={number}", GARDEN / "cart.wasm").split("\n")[-1]
        assert line == f"studio: error: argument {flag}: '{number}' is no number from {limits}", line


def waits_for_ever(room):
    """A program in the place of w4 that never answers."""
    path, begun_file = pathlib.Path(room, "waits"), pathlib.Path(room, "begun")
    path.write_text(f"#!/bin/sh\n: >'{begun_file}'\nexec sleep 1000\n", encoding="utf-8")
    path.chmod(0o755)
    return path


def test_a_signal_during_the_start_gives_a_line():
    for number in (signal.SIGINT, signal.SIGTERM):
        with tempfile.TemporaryDirectory() as room:
            path = pathlib.Path(room, "game.w4rec")
            shutil.copy(GARDEN / "game.w4rec", path)
            process = subprocess.Popen([STUDIO / "run", "--no-browser", GARDEN / "cart.wasm", path],
                                       env=dict(os.environ, W4=str(waits_for_ever(room))), stdout=subprocess.PIPE,
                                       stderr=subprocess.PIPE, text=True)
            wait_until(pathlib.Path(room, "begun").exists, "it begins")
            process.send_signal(number)
            written, said = process.communicate(timeout=SOON)
            assert (process.returncode, written, said) == (1, "", "studio: ended before it began\n")
            assert sorted(os.listdir(room)) == ["begun", "game.w4rec", "waits"]


def test_a_full_standard_error_hides_no_failure():
    studio = Studio()
    with open("/dev/full", "wb", buffering=0) as full:
        try:
            studio.start(stderr=full, env=elsewhere(studio))
            assert PlainPage(studio.address).ask(EDIT) == b""
            studio.recording.unlink()
            studio.recording.mkdir()
            assert studio.stop() == 1
            [place] = pathlib.Path(studio.room.name, "elsewhere").iterdir()
            assert place.read_bytes() == recording(EDITED)
        finally:
            end_all(studio)


def free_port():
    with socket.create_server(("127.0.0.1", 0)) as listener:
        return listener.getsockname()[1]


def answers(port):
    try:
        socket.create_connection(("127.0.0.1", port), SOON).close()
    except OSError:
        return False
    return True


def test_streams_that_are_closed_are_no_fault():
    for closed in ("2>/dev/full", "2>&-", ">&- 2>&-", ">/dev/full 2>/dev/full", "<&- >&- 2>&-"):
        studio, port = Studio(), free_port()
        words = ["sh", "-c", f'exec {closed}; exec "$0" "$@"', STUDIO / "run", "--no-browser", f"--port={port}"]
        studio.process = subprocess.Popen([*words, studio.cart, studio.recording], stdout=subprocess.DEVNULL,
                                          stderr=subprocess.DEVNULL)
        try:
            wait_until(lambda: answers(port), "it listens")
            assert (studio.folder / "lock").read_bytes() == b""
            assert studio.stop() == 0, closed
            assert not studio.folder.exists()
        finally:
            end_all(studio)


def test_the_browser_is_not_given_the_address():
    with tempfile.TemporaryDirectory() as room:
        taken, runtime = pathlib.Path(room, "taken"), pathlib.Path(room, "runtime")
        runtime.mkdir(mode=0o700)
        tool = pathlib.Path(room, "tool")
        tool.write_text(f'#!/bin/sh\nprintf "%s\\n" "$@" >{taken}.new && mv {taken}.new {taken}\n', encoding="utf-8")
        tool.chmod(0o755)
        studio = Studio()
        with begun_with_browser(studio, dict(os.environ, BROWSER=str(tool), XDG_RUNTIME_DIR=str(runtime))):
            wait_until(taken.exists, "a browser is opened")
            line = taken.read_text(encoding="utf-8").strip()
            token = studio.address.rstrip("/").rsplit("/", 1)[1]
            assert line.startswith(f"file://{runtime}/") and token not in line, line
            page = pathlib.Path(line[len("file://"):])
            assert (mode_of(page), mode_of(page.parent)) == (0o600, 0o700)
            assert f'content="0; url={studio.address}"' in page.read_text(encoding="utf-8")
            assert studio.stop() == 0
            assert not list(runtime.iterdir())


@contextlib.contextmanager
def begun_with_browser(studio, environment):
    try:
        yield studio.start("--port=0", env=environment)
    finally:
        end_all(studio)
