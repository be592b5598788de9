"""Tests of what is left of a session where something ends: the server, the program, the guard, or all of them."""
import contextlib
import os
import pathlib
import re
import signal
import subprocess
import tempfile
import threading
import time
import urllib.request

from browser import STUDIO, TOP, Studio, wait_until
from plain_page import Gone, PlainPage
from recordings import RIGHT, frame, recording
from trials import EDIT, EDITED, SOON, end_all, is_there, refusal_of

ENDLESS = TOP / "cases/inputs/carts/endless-loop.wasm"
BUDGET = 200_000_000  # a frame of the endless cart takes a second or more
RESETS = [frame(0, reset=True)] * 60
LONG = "state 60"


@contextlib.contextmanager
def endless_studio(**more):
    """A studio on a recording that takes minutes to play, with an edit that was answered, and a long order."""
    with tempfile.TemporaryDirectory() as room:
        path = pathlib.Path(room, "endless.w4rec")
        path.write_bytes(recording(RESETS, ENDLESS, BUDGET))
        studio = Studio(ENDLESS, path).start(stderr=subprocess.PIPE, **more)
        try:
            page = PlainPage(studio.address)
            assert page.ask("set 9 7 0 0 0 1 2 3") == b""
            page.give(LONG)
            yield studio, page
        finally:
            end_all(studio)


ENDLESS_EDITED = recording(RESETS[:9] + [frame(7, mouse=(1, 2, 3))] + RESETS[10:], ENDLESS, BUDGET)


def saved_by_the_next_start(studio):
    """The recording after a studio was begun on it, and ended."""
    with contextlib.ExitStack() as stack:
        process = subprocess.Popen([STUDIO / "run", "--no-browser", studio.cart, studio.recording, studio.font],
                                   stdout=subprocess.PIPE, stderr=subprocess.PIPE, text=True)
        stack.enter_context(process)
        assert process.stdout.readline(), process.stderr.read()
        process.terminate()
        assert process.wait(SOON) == 0
    return studio.recording.read_bytes()


def test_a_killed_server_leaves_no_orphan_and_no_edit_unsaved():
    with endless_studio() as (studio, page):
        program_id, guard_id = studio.program_and_guard()
        studio.process.kill()
        studio.process.wait()
        line = refusal_of(studio.cart, studio.recording)
        assert str(studio.recording) in line, line
        assert {f"{program_id}", f"{guard_id}"} <= set(re.findall("[0-9]+", line)), line
        assert "'kill -9 " in line, line
        wait_until(lambda: not is_there(program_id) and not is_there(guard_id), "they end by themselves", SOON)
        assert studio.recording.read_bytes() == ENDLESS_EDITED
        assert not (studio.folder / "journal").exists()
        assert "edits that an earlier studio had left unsaved are saved now" in studio.process.stderr.read()


def test_a_killed_server_of_an_idle_program_leaves_no_edit_unsaved(studio):
    page = PlainPage(studio.address)
    assert page.ask(EDIT) == b""
    ids = studio.program_and_guard()
    studio.process.kill()
    studio.process.wait()
    wait_until(lambda: not any(map(is_there, ids)), "they end by themselves", SOON)
    assert studio.recording.read_bytes() == recording(EDITED)
    assert sorted(path.name[:7] for path in studio.folder.iterdir()) == ["lock", "opened "]


def test_a_server_that_is_killed_while_it_saves_leaves_no_edit_unsaved():
    for delay in (0, 0.002, 0.005, 0.01, 0.02, 0.04):
        with Studio() as studio:
            page = PlainPage(studio.address)
            assert page.ask(EDIT) == b""
            ids = studio.program_and_guard()
            page.give("save")
            time.sleep(delay)
            studio.process.kill()
            studio.process.wait()
            wait_until(lambda ids=ids: not any(map(is_there, ids)), "they end by themselves", SOON)
            assert studio.recording.read_bytes() == recording(EDITED), delay
            assert sorted(path.name[:7] for path in studio.folder.iterdir()) == ["lock", "opened "], delay


def test_where_all_are_killed_the_next_start_saves():
    with endless_studio() as (studio, _):
        for each in (*studio.program_and_guard()[::-1], studio.process.pid):
            os.kill(each, signal.SIGKILL)
        studio.process.wait()
        assert studio.recording.read_bytes() == recording(RESETS, ENDLESS, BUDGET)
        assert saved_by_the_next_start(studio) == ENDLESS_EDITED


def test_a_killed_guard_takes_nothing_with_it(studio):
    page = PlainPage(studio.address)
    os.kill(studio.program_and_guard()[1], signal.SIGKILL)
    assert page.ask(EDIT) == b"" and page.ask("state 0").startswith(b"state 0 of 240 ")
    assert studio.stop() == 0
    assert studio.recording.read_bytes() == recording(EDITED)


def test_a_killed_program_is_a_pause(studio):
    page = PlainPage(studio.address)
    assert page.ask(EDIT) == b"" and page.ask("save") == b""
    assert page.ask(f"insert 240 {RIGHT} 0 0 0 32767 32767 0") == b""
    for _ in range(2):
        os.kill(studio.program_and_guard()[0], signal.SIGKILL)
        assert page.ask("inputs 60 61") == f"{EDIT}\n".encode()
        assert "started anew" in page.wait_for_note()
    assert page.ask("state 241").startswith(b"state 241 of 241 ")
    assert page.ask("delete 239") == b""
    assert studio.stop() == 0
    assert studio.recording.read_bytes() == recording(EDITED[:239] + [frame(RIGHT)])


def test_a_program_that_is_killed_at_work_gives_the_same_answers_once():
    with tempfile.TemporaryDirectory() as room:
        path = pathlib.Path(room, "slow.w4rec")
        path.write_bytes(recording(RESETS, ENDLESS, BUDGET // 20))
        with Studio(ENDLESS, path) as studio:
            page = PlainPage(studio.address)
            page.give("units 0 60", "set 0 1 0 0 0 0 0 0", "inputs 0 1")
            kind, first = page.message()
            assert (kind, first[:8]) == (2, b"units 0 ")
            os.kill(studio.program_and_guard()[0], signal.SIGKILL)
            others = page.pieces()
            assert [b"units %d " % number for number in range(1, 60)] == [
                piece[:len(b"units %d " % number)] for number, piece in enumerate(others, 1)]
            assert page.pieces() == []
            assert page.pieces() == [b"set 0 1 0 0 0 0 0 0\n"]


def test_a_program_that_is_killed_twice_at_an_order_ends_the_session():
    with endless_studio() as (studio, page):
        first = studio.program_and_guard()[0]
        os.kill(first, signal.SIGKILL)
        assert "started anew" in page.wait_for_note()
        wait_until(lambda: studio.program_and_guard()[0] != first, "another program")
        os.kill(studio.program_and_guard()[0], signal.SIGKILL)
        try:
            page.pieces()
            raise AssertionError("it was answered")
        except Gone as gone:
            assert "ended " in str(gone), gone
        assert (studio.folder / "journal").read_text(encoding="utf-8").split("\n")[1:] == ["set 9 7 0 0 0 1 2 3", ""]
        assert studio.stop() == 0
        assert studio.recording.read_bytes() == ENDLESS_EDITED


def test_a_signal_to_all_processes_loses_no_edit():
    for number in (signal.SIGTERM, signal.SIGINT, signal.SIGHUP):
        with Studio() as studio:
            assert PlainPage(studio.address).ask(EDIT) == b""
            for each in (*studio.program_and_guard(), studio.process.pid):
                os.kill(each, number)
            assert studio.process.wait(SOON) == 0
            assert studio.recording.read_bytes() == recording(EDITED), number


def test_a_signal_is_answered_and_a_second_one_ends_at_once():
    with endless_studio() as (studio, _):
        studio.process.send_signal(signal.SIGINT)
        line = studio.process.stderr.readline()
        assert line.startswith(f"studio: waiting for the program to finish '{LONG}'"), line
        assert studio.process.poll() is None
        studio.process.send_signal(signal.SIGINT)
        assert studio.process.wait(SOON) == 0
        assert studio.recording.read_bytes() == ENDLESS_EDITED
        assert "no edit is lost" in studio.process.stderr.read()


def test_the_end_of_a_terminal_ends_a_program_at_work():
    with endless_studio() as (studio, _):
        studio.process.send_signal(signal.SIGHUP)
        assert studio.process.wait(SOON) == 0
        assert studio.recording.read_bytes() == ENDLESS_EDITED


def test_a_page_that_does_not_read_does_not_hold_up_the_end(studio):
    page = PlainPage(studio.address)
    assert page.ask(EDIT) == b""
    page.give(*["film 0 240 1"] * 40)
    wait_until(lambda: is_asleep(studio.program_and_guard()[0]), "the program waits for a reader")
    studio.process.send_signal(signal.SIGTERM)
    studio.process.wait(SOON)
    assert studio.recording.read_bytes() == recording(EDITED)


def is_asleep(process_id):
    """Whether a process waits, now and a while later."""
    def state():
        return pathlib.Path(f"/proc/{process_id}/stat").read_text(encoding="ascii").rsplit(")", 1)[1].split()[0]
    seen = []
    for _ in range(20):
        seen.append(state())
        time.sleep(0.05)
    return set(seen) == {"S"}


def test_a_sound_that_is_being_made_does_not_hold_up_the_end():
    with tempfile.TemporaryDirectory() as room:
        path = pathlib.Path(room, "slow.w4rec")
        path.write_bytes(recording(RESETS, ENDLESS, BUDGET))
        with Studio(ENDLESS, path) as studio:
            request = threading.Thread(target=ask_in_vain, args=(f"{studio.address}wave?from=0&to=60",))
            request.start()
            wait_until(lambda: b"wave" in command_lines_under(studio.process.pid), "the sound is begun")
            studio.process.send_signal(signal.SIGTERM)
            assert studio.process.wait(SOON) == 0
            request.join(SOON)
            assert not request.is_alive()
            assert studio.recording.read_bytes() == path.read_bytes()


def ask_in_vain(address):
    with contextlib.suppress(OSError):
        urllib.request.urlopen(address, timeout=100).read()


def command_lines_under(process_id):
    """The words of the processes that a process has started."""
    words = ["ps", "-o", "args=", "--ppid", str(process_id)]
    return subprocess.run(words, stdout=subprocess.PIPE, check=False).stdout.split()


def test_many_orders_of_a_page_leave_room_for_others(studio):
    page, count = PlainPage(studio.address), 100_000
    page.give(*[""] * count)
    urllib.request.urlopen(f"{studio.address}recording", timeout=100).read()
    os.kill(studio.process.pid, signal.SIGTERM)
    answered = 0
    with contextlib.suppress(Gone):
        while page.message():
            answered += 1
    studio.process.wait(SOON)
    assert answered < count, "the other request had to wait for all of them"


def test_undo_and_redo_outlive_the_program(studio):
    page = PlainPage(studio.address)
    for order in (EDIT, "save", "delete 0", "save", "undo"):
        assert page.ask(order) == b"", order
    os.kill(studio.program_and_guard()[0], signal.SIGKILL)
    assert page.ask("inputs 60 61") == f"{EDIT}\n".encode()
    for order in ("delete 0", "undo", "redo"):
        assert page.ask(order) == b"", order
    os.kill(studio.program_and_guard()[0], signal.SIGKILL)
    assert page.ask("state 0").startswith(b"state 0 of 239 ")
    assert studio.stop() == 0
    assert studio.recording.read_bytes() == recording(EDITED[1:])
