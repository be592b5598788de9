"""Tests of a connection that is lost: it is made anew, what wasn't answered is asked again, no edit is lost."""
import hashlib

from browser import Page
from recordings import RIGHT, frame, garden_frames, image, of_frames, recording
from test_edits import changed, check_saved, saved_frames, turn_keys
from test_parts import HOPS

IMAGE = 76_815  # bytes
FAULT = "document.getElementById('fault-text').textContent"
ISN_T_FAULTY = "document.getElementById('fault').hidden"
CUT = "studio.session.connection.socket.close()"
HOLD_OFF = """
    const { connection } = studio.session, reopen = connection.reopen?.bind(connection);
    connection.reopen = (pause) => { window.comeBack = () => reopen(pause); }"""


def lose(page):
    """The page's socket is closed, and the page finds that out."""
    page.script(CUT)
    page.wait(f"{FAULT}.startsWith(studio.session.connection.host.lost)", patience=30)


def wait_for_return(page):
    page.wait("studio.session.connection.isReady", patience=30)


def test_edits_without_a_connection_are_made_once_it_is_there(studio, page):
    frames = garden_frames()
    page.go_to(70)
    page.script("studio.saver.noteEdit = () => {}")
    page.script("const { connection } = studio.session;"
                "connection.addEventListener('again', (event) => { window.again = event.detail; })")
    page.click_cell(60, "1")
    page.script(HOLD_OFF)
    lose(page)
    page.keys("i", "delete", "2")
    page.click_cell(5, "→")
    assert page.value("document.getElementById('undo-button').disabled") is False
    page.script("comeBack()")
    wait_for_return(page)
    assert page.value("again.last_page === studio.session.connection.page && again.last_page.length >= 16")
    page.wait(ISN_T_FAULTY)
    page.wait_for_picture()
    edited = changed(changed(changed(frames, 60, frame(RIGHT)), 70, frame(RIGHT + 2)), 5, frame(RIGHT))
    assert page.image() == image(edited, page.value("studio.player.place"))
    page.wait("!studio.session.isDirty", patience=30)
    studio.wait_for_file(recording(edited))
    for _ in range(5):
        page.keys("control+z")
    check_saved(studio, page, frames)


def test_what_was_not_answered_is_asked_again_in_turn(studio, page):
    """The pieces of a film that came before the loss don't come twice."""
    page.go_to(20)
    page.script("""
        const { connection } = studio.session;
        window.answers = [];
        window.pieces = [];
        const hash = async (bytes) => Array.from(new Uint8Array(await crypto.subtle.digest("SHA-256", bytes)));
        const onPiece = (piece) => {
            pieces.push(hash(piece));
            if (pieces.length === 7) connection.socket.close();
        };
        connection.ask("film 0 40 1", { onPiece }).then(() => answers.push("film"));
        connection.askText("inputs 3 4").then((text) => answers.push(text));
        connection.askText("watch 8472 4 119 122").then((text) => answers.push(text));
        connection.askText("show 241").catch((refusal) => answers.push(refusal.message))""")
    page.wait("answers.length === 4", patience=30)
    texts = ["set 3 0 0 0 0 32767 32767 0\n", "watch 8472 1 1 2 2\n", "show: no frame"]
    assert page.value("answers") == ["film", *texts]
    images = of_frames("frames", garden_frames(), 0, 40)
    wanted = [list(hashlib.sha256(images[at:at + IMAGE]).digest()) for at in range(0, len(images), IMAGE)]
    hashes = page.driver.execute_async_script("Promise.all(pieces).then(arguments[0])")
    assert hashes == wanted


def test_a_live_recording_goes_on_over_a_loss(studio, page):
    frames = garden_frames()
    page.go_to(100)
    page.keys("r")
    page.wait("studio.recorder.isRecording")
    pressed = turn_keys(page, "keydown", ["ArrowLeft"])
    page.wait(f"studio.player.place >= {pressed + 10}")
    lose(page)
    lost = page.value("studio.player.place")
    wait_for_return(page)
    page.wait(f"studio.player.place >= {lost + 30} && studio.player.shown >= {lost + 30}", patience=30)
    assert page.value("studio.recorder.isRecording") and page.value(ISN_T_FAULTY)
    page.keys("escape")
    page.wait_for_picture()
    end = page.value("studio.player.place")
    saved = saved_frames(studio, page)
    assert saved[:100] == frames[:100] and saved[end:] == frames[end:]
    assert saved[100:pressed] == [frame(0)] * (pressed - 100)
    assert saved[pressed:end - 1] == [frame(16)] * (end - 1 - pressed)
    assert page.image() == image(saved, end)
    page.keys("control+z")
    check_saved(studio, page, frames)


def test_playing_goes_on_over_a_loss(studio, page):
    page.keys("space")
    page.wait("studio.player.place >= 10")
    page.script(CUT)
    page.wait("studio.player.place === 240 && !studio.player.isPlaying", patience=40)
    page.wait_for_picture()
    assert page.image() == image(garden_frames(), 240)


def test_a_search_that_was_cut_is_begun_anew(studio, page):
    page.keys("/")
    text = "document.getElementById('search-text').textContent"
    press = "document.querySelector('[data-search={}]').click();"
    page.script("document.getElementById('search-width').value = 4;" + press.format("start"))
    page.wait(f"{text}.includes('begun at place 0')")
    page.script(press.format("same") + f"queueMicrotask(() => {CUT})")
    page.wait(f"{text} === \"the search didn't go on (same: the connection was lost before its answer came);"
              " start it again\"", patience=30)
    wait_for_return(page)
    for place, button in [(60, "start"), (61, "more")]:
        page.go_to(place)
        page.script(press.format(button))
        page.wait(f"{text}.includes('at place {place})')", patience=30)
    found = "[...document.querySelectorAll('#search-table td:first-child')].map((cell) => cell.textContent)"
    assert str(HOPS) in page.value(found)


def test_a_note_is_shown_until_it_is_closed(studio, page):
    page.script("""
        for (const data of ["note the program was started anew", "note found <b>another</b>"]) {
            studio.session.connection.socket.dispatchEvent(new MessageEvent("message", { data })); }""")
    lines = "[...document.querySelectorAll('#note li')].map((line) => line.textContent)"
    page.keys("arrow_down")
    assert page.value(lines) == ["the program was started anew", "found <b>another</b>"]
    assert page.value(ISN_T_FAULTY) and not page.value("document.getElementById('note').hidden")
    page.script("document.getElementById('note-button').click()")
    assert page.value("document.getElementById('note').hidden") and page.value(lines) == []


def catch_download(page):
    page.script("const make = URL.createObjectURL;"
                "URL.createObjectURL = (blob) => { window.offered = blob.text(); return make(blob); }")


def offered_text(page):
    page.wait("document.getElementById('made').download === 'game.inputs.txt' && window.offered", patience=30)
    return page.driver.execute_async_script("offered.then(arguments[0])")


def script_of(frames):
    """The lines of a script that inserts these inputs, of which gamepad 1 alone is used."""
    return "".join(f"insert {at} {data[0]} 0 0 0 32767 32767 0\n" for at, data in enumerate(frames))


def test_what_another_page_left_is_shown_and_the_own_copy_is_offered(studio, page):
    frames = garden_frames()
    catch_download(page)
    page.script(HOLD_OFF)
    lose(page)
    page.click_cell(60, "1")
    driver = page.driver
    first = driver.current_window_handle
    driver.switch_to.new_window("tab")
    try:
        other = Page(driver)
        other.open(studio.address)
        other.click_cell(10, "←")
        other.save()
    finally:
        driver.close()
        driver.switch_to.window(first)
    page.script("comeBack()")
    wait_for_return(page)
    left = changed(frames, 10, frame(16))
    assert offered_text(page) == script_of(changed(frames, 60, frame(RIGHT)))
    assert page.value("document.getElementById('note').textContent.includes('game.inputs.txt')")
    page.go_to(70)
    assert page.image() == image(left, 70)
    check_saved(studio, page, left)
    page.keys("control+a")
    page.script("studio.rowActs.setText(arguments[0])", script_of(changed(frames, 60, frame(RIGHT))))
    check_saved(studio, page, changed(frames, 60, frame(RIGHT)))


def test_a_page_waits_while_another_one_has_the_session(studio, page):
    page.script(HOLD_OFF)
    lose(page)
    page.click_cell(60, "1")
    driver = page.driver
    first = driver.current_window_handle
    driver.switch_to.new_window("tab")
    other = driver.current_window_handle
    Page(driver).open(studio.address)
    driver.switch_to.window(first)
    try:
        page.script("comeBack()")
        page.wait(f"{FAULT}.startsWith('this session is in use by another page; close that one; ')", patience=30)
    finally:
        driver.switch_to.window(other)
        driver.close()
        driver.switch_to.window(first)
    page.script("comeBack()")
    wait_for_return(page)
    page.wait(ISN_T_FAULTY)
    assert page.value("studio.session.inputs[60].pads[0]") == garden_frames()[60][0]


def test_a_page_whose_server_is_gone_offers_what_was_not_saved(studio, page):
    catch_download(page)
    page.script("studio.saver.saveIn = () => {}")
    studio.process.kill()
    studio.process.wait()
    page.wait(f"!{ISN_T_FAULTY}", patience=30)
    page.click_cell(60, "1")
    page.wait(f"{FAULT}.startsWith(\"the studio's server is gone; start it again\")", patience=30)
    assert offered_text(page) == script_of(changed(garden_frames(), 60, frame(RIGHT)))
    leaving = "const leaving = new Event('beforeunload', { cancelable: true });"
    assert page.script(leaving + "window.dispatchEvent(leaving); return leaving.defaultPrevented")
    told = page.value(FAULT)
    assert told.endswith("The inputs of this page are in the file game.inputs.txt, a link beside the buttons")


# The browser's log has a line where the server is gone.
WITH_FAULTS = (test_a_page_whose_server_is_gone_offers_what_was_not_saved,)

# A page without a server has its recording for itself as long as it is open.
SERVER_ONLY = (test_what_another_page_left_is_shown_and_the_own_copy_is_offered,
               test_a_page_waits_while_another_one_has_the_session,
               test_a_page_whose_server_is_gone_offers_what_was_not_saved)
