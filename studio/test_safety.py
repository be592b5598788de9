"""Tests of what keeps a recording and a session safe: saving, crashes, a second page, other web sites."""
import http.client
import os
import signal
import urllib.parse

from browser import PATIENCE, Page
from recordings import RIGHT, frame, garden_frames, image, recording

EDITED = garden_frames()[:60] + [frame(RIGHT)] + garden_frames()[61:]


def change_frame_60(page):
    page.click_cell(60, "1")
    page.answer("state 0")


def test_a_reload_has_what_was_saved(studio, page):
    change_frame_60(page)
    page.save()
    page.open(studio.address)
    page.go_to(70)
    assert page.image() == image(EDITED, 70)
    assert studio.saved() == recording(EDITED)


def do_not_save_after_a_while(page):
    page.script("studio.saver.noteEdit = () => {}")


def test_it_is_saved_a_while_after_an_edit(studio, page):
    page.script("""
        const { session } = studio, save = session.save.bind(session);
        session.addEventListener("edited", () => { window.edited = [session.isDirty, performance.now()]; });
        session.save = () => { window.savedAt = performance.now(); return save(); }""")
    change_frame_60(page)
    studio.wait_for_file(recording(EDITED))
    (is_dirty, edited_at), saved_at = page.value("[edited, savedAt]")
    assert is_dirty and saved_at - edited_at > 1000


def test_it_is_saved_when_the_page_is_lost(studio, page):
    do_not_save_after_a_while(page)
    change_frame_60(page)
    page.script("const { connection } = studio.session; connection.socket.close(); connection.ask('state 0')")
    studio.wait_for_file(recording(EDITED))


def test_it_is_saved_at_a_pause(studio, page):
    do_not_save_after_a_while(page)
    change_frame_60(page)
    page.keys("space")
    page.wait("studio.player.place > 5")
    page.keys("space")
    page.wait("!studio.session.isDirty")
    studio.wait_for_file(recording(EDITED))


def test_it_is_saved_when_the_page_closes(studio, page):
    do_not_save_after_a_while(page)
    change_frame_60(page)
    page.driver.get("about:blank")
    studio.wait_for_file(recording(EDITED))


def test_what_was_opened_is_kept_as_a_branch(studio, page):
    folder = studio.recording.with_name("game.w4rec.studio")
    change_frame_60(page)
    assert not list(folder.glob("opened *.w4rec")), "nothing is written before anything is saved"
    page.save()
    [path] = folder.glob("opened *.w4rec")
    assert len(path.read_bytes()) == 47 + 9 * 240 and path.read_bytes()[47:56] == frame(0)[:9]


def test_a_killed_server_loses_nothing(studio, page):
    change_frame_60(page)
    studio.process.kill()
    studio.process.wait()
    studio.wait_for_file(recording(EDITED))
    page.wait("document.getElementById('fault').textContent.includes('gone')")
    page.script("document.getElementById('fault-button').click()")
    assert page.value("document.getElementById('fault').hidden")


def test_a_killed_program_goes_on(studio, page):
    do_not_save_after_a_while(page)
    change_frame_60(page)
    os.kill(studio.program_and_guard()[0], signal.SIGKILL)
    page.go_to(70)
    assert page.image() == image(EDITED, 70)
    page.save()
    assert studio.recording.read_bytes() == recording(EDITED)


def test_the_server_saves_when_it_is_ended(studio, page):
    change_frame_60(page)
    assert studio.stop() == 0
    assert studio.recording.read_bytes() == recording(EDITED)


def test_a_second_page_is_told(studio, page):
    driver = page.driver
    first = driver.current_window_handle
    driver.switch_to.new_window("tab")
    try:
        driver.get(studio.address)
        page.wait("document.getElementById('fault').textContent.includes('in use')")
        assert page.value("window.studio === undefined")
    finally:
        driver.close()
        driver.switch_to.window(first)
    assert Page(driver).answer("state 0").startswith("state 0 of 240 ")


def status_of(studio, path, headers):
    """The status that the server answers such a request with."""
    address = urllib.parse.urlsplit(studio.address)
    connection = http.client.HTTPConnection(address.hostname, address.port, timeout=PATIENCE)
    connection.putrequest("GET", path, skip_host=True)
    for name, value in headers.items():
        connection.putheader(name, value)
    connection.endheaders()
    return connection.getresponse().status


def test_nobody_else_is_answered(studio, page):
    address = urllib.parse.urlsplit(studio.address)
    host, path = address.netloc, address.path
    upgrade = {"Upgrade": "websocket", "Connection": "Upgrade", "Sec-WebSocket-Key": "A" * 22 + "=="}
    rows = [
        (path, {"Host": host}, 200),
        (path + "branches", {"Host": host, "Origin": f"http://{host}"}, 200),
        (path, {}, 403),
        (path, {"Host": "evil.example"}, 403),
        (path, {"Host": f"localhost:{address.port}"}, 403),
        (path + "branches", {"Host": host, "Origin": "http://evil.example"}, 403),
        ("/", {"Host": host}, 403),
        ("/" + "A" * 22 + "/", {"Host": host}, 403),
        (path[:-2] + "/", {"Host": host}, 403),
        (path + "nothing.js", {"Host": host}, 404),
        (path + "../run", {"Host": host}, 404),
        (path + "%2e%2e/run", {"Host": host}, 404),
        (path + "session", {"Host": host, **upgrade}, 403),
        (path + "session", {"Host": host, "Origin": "http://evil.example", **upgrade}, 403),
        (path + "session", {"Host": host, "Origin": f"http://{host}"}, 400),
    ]
    for path, headers, status in rows:
        assert status_of(studio, path, headers) == status, (path, headers)


def test_only_this_machine_is_listened_to(studio, page):
    port = urllib.parse.urlsplit(studio.address).port
    lines = open("/proc/net/tcp", encoding="ascii").read().split("\n")[1:]
    listening = [line.split()[1] for line in lines if line and line.split()[3] == "0A"]
    assert [place for place in listening if int(place[-4:], 16) == port] == [f"0100007F:{port:04X}"]


# The browser's log has a line where the server is gone, or a page is told to go.
WITH_FAULTS = (test_a_killed_server_loses_nothing, test_a_second_page_is_told, test_the_server_saves_when_it_is_ended)

# What a server does for a file; test_published.py has what the browser does.
SERVER_ONLY = (
    test_it_is_saved_when_the_page_is_lost,
    test_it_is_saved_when_the_page_closes,
    test_what_was_opened_is_kept_as_a_branch,
    test_a_killed_server_loses_nothing,
    test_a_killed_program_goes_on,
    test_the_server_saves_when_it_is_ended,
    test_a_second_page_is_told,
    test_nobody_else_is_answered,
    test_only_this_machine_is_listened_to,
)
