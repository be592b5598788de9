"""Tests of the studio as a static page: what it opens, what the browser keeps, and versions of the page."""
import io
import json
import shutil
import subprocess
import zlib

import moving_png
from browser import GARDEN, Missing, in_tab
from recordings import RIGHT, frame, garden_frames, image, of_frames, recording
from test_edits import changed

NAMES = "document.getElementById('names').textContent"
NOTES = "document.getElementById('note-list').textContent"
SAVED = "document.getElementById('saved').textContent"
GARDEN_NAMES = "cart.wasm · game.w4rec"
GARDEN_BYTES = (GARDEN / "game.w4rec").read_bytes()
EDITED = changed(garden_frames(), 60, frame(RIGHT))
HOLD_SAVES = "studio.saver.noteEdit = studio.saver.saveIn = () => {}"
LEAVE = """
    const leaving = new Event("beforeunload", { cancelable: true });
    window.dispatchEvent(leaving);
    return leaving.defaultPrevented;"""


def open_anew(studio, page, link=""):
    """Opens the page by its address alone, or with a link."""
    page.driver.get("about:blank")
    page.open(studio.bare_address + link)


def before_the_page(page, script):
    """Has a script run in each page that is opened, before the page's own; what takes it away again."""
    made = page.driver.execute_cdp_cmd("Page.addScriptToEvaluateOnNewDocument", {"source": script})
    return lambda: page.driver.execute_cdp_cmd("Page.removeScriptToEvaluateOnNewDocument", made)


def wait_for_note(page, text):
    page.wait(f"{NOTES}.includes({json.dumps(text)})", patience=30)


def wait_until_kept(page):
    """Waits until the page's files are in the browser."""
    page.driver.execute_async_script("navigator.serviceWorker.ready.then(() => arguments[0]())")


# ---- what it opens

def test_an_address_is_enough(studio, page):
    """With nothing kept and nothing named, the example opens."""
    with studio.other(None, None) as other:
        other.driver = page.driver
        open_anew(other, page)
        assert page.value(NAMES) == GARDEN_NAMES
        page.go_to(70)
        assert page.image() == image(garden_frames(), 70)
        page.driver.get("about:blank")


def test_a_link_names_a_place(studio, page):
    page.driver.get("about:blank")
    page.open(studio.address + "&place=70")
    page.wait_for_picture()
    assert page.value("studio.player.place") == 70
    assert page.image() == image(garden_frames(), 70)


def test_a_link_leads_nowhere_else(studio, page):
    """A cart that a link names has to be beside the page; with the sentence, what is kept opens."""
    for name in ("https://example.com/cart.wasm", "//example.com/cart.wasm"):
        open_anew(studio, page, f"#cart={name}")
        wait_for_note(page, f"the link names {name}, which isn't beside this page")
        assert page.value(NAMES) == GARDEN_NAMES
    open_anew(studio, page, "#cart=absent.wasm")
    wait_for_note(page, "absent.wasm isn't beside this page, or can't be loaded now")


def test_nothing_is_asked_of_anybody_else(studio, page):
    """Once it has loaded it asks nobody for anything, whatever is done."""
    wait_until_kept(page)
    loaded = list(studio.files.server.asked)
    page.click_cell(60, "1")
    page.go_to(100)
    page.keys("r")
    page.wait("studio.recorder.isRecording")
    page.keys("escape")
    for name in ("wave", "film", "run"):
        assert len(page.made(name, 1, 20)) > 1000
    page.save()
    assert studio.files.server.asked == loaded
    addresses = page.value("performance.getEntriesByType('resource').map(({ name }) => name)")
    assert addresses and all(address.startswith((studio.files.address, "blob:")) for address in addresses)


def test_the_policy_holds(studio, page):
    """Another host can't be asked, and no script that stands in the page runs."""
    tried = page.driver.execute_async_script("""
        const [done] = arguments, told = [];
        document.addEventListener("securitypolicyviolation", (event) => told.push(event.effectiveDirective));
        const script = document.createElement("script");
        script.textContent = "window.isForeign = true";
        document.body.append(script);
        const answer = (said) => setTimeout(() => done([said, told.sort(), Boolean(window.isForeign)]), 100);
        fetch("https://example.com/").then(() => answer("asked"), () => answer("refused"))""")
    assert tried == ["refused", ["connect-src", "script-src-elem"], False]


# ---- what is kept

def test_an_edit_survives_the_crash_of_the_tab(studio, page):
    """An edit that wasn't saved yet is kept as an order, which the next page carries out."""
    driver = page.driver
    before = driver.current_window_handle
    driver.get("about:blank")
    driver.switch_to.new_window("tab")
    page.open(studio.bare_address)
    page.script("studio.session.save = () => {}")  # as a crash comes without a word
    page.click_cell(60, "1")
    page.answer("state 0")
    crash(driver)
    driver.switch_to.window(before)
    driver.get(studio.files.address + "studio/page/style.css")
    assert [row["lines"] for row in studio.rows("orders")] == [["set 60 32 0 0 0 32767 32767 0"]]
    assert studio.saved() == GARDEN_BYTES
    page.open(studio.bare_address)
    page.go_to(70)
    assert page.image() == image(EDITED, 70)
    page.save()
    studio.wait_for_file(recording(EDITED))
    assert studio.rows("orders") == []


def crash(driver):
    """The process of the tab dies, and what is left of the tab is closed."""
    from selenium.common.exceptions import WebDriverException
    try:
        driver.get("chrome://crash")
    except WebDriverException as end:
        assert "crashed" in str(end)
    driver.close()


def test_two_pages_of_one_recording_are_told(studio, page):
    driver = page.driver
    with in_tab(driver):
        driver.get(studio.bare_address)
        fault = "document.getElementById('fault-text').textContent"
        page.wait(f"{fault}.startsWith('this session is in use by another page')", patience=30)
    page.click_cell(60, "1")
    page.save()
    studio.wait_for_file(recording(EDITED))


def test_where_nothing_can_be_kept_that_is_told(studio, page):
    """The page works all the same, says so where it says what is saved, and asks before it goes."""
    page.driver.get("about:blank")
    undo = before_the_page(page, """
        IDBFactory.prototype.open = () => { throw new DOMException("", "SecurityError"); }""")
    try:
        page.open(studio.address)
    finally:
        undo()
    wait_for_note(page, "the browser refuses to keep anything for this page (SecurityError)")
    wait_for_note(page, "What you do here is lost when this page is closed: save copies (Shift+S)")
    assert page.value(SAVED) == "kept nowhere: save a copy (Shift+S)"
    assert not page.script(LEAVE)
    page.click_cell(60, "1")
    page.go_to(70)
    assert page.image() == image(EDITED, 70)
    assert page.script(LEAVE)
    page.script("studio.session.savedEdits = studio.session.edits")  # so that the browser leaves it


FULL = """
    const { put } = IDBObjectStore.prototype, { add } = IDBObjectStore.prototype;
    const full = () => { throw new DOMException("", "QuotaExceededError"); };
    Object.assign(IDBObjectStore.prototype, { put: full, add: full });
    window.free = () => Object.assign(IDBObjectStore.prototype, { put, add })"""


def test_storage_that_is_full_is_told_at_the_edit(studio, page):
    """The edit is made, and the page asks before it goes; once there is room, all is kept again."""
    page.script(HOLD_SAVES)
    page.script(FULL)
    page.click_cell(60, "1")
    wait_for_note(page, "what you change isn't kept any more: the browser's storage is full: close other pages, or "
                  "free space on the disk. Save a copy of the recording (Shift+S) before you close this page")
    page.go_to(70)
    assert page.image() == image(EDITED, 70)
    assert page.script(LEAVE)
    page.script("studio.session.save()")
    page.wait("document.getElementById('fault-text').textContent.startsWith('not saved: ')", patience=30)
    assert page.value("studio.session.isDirty")
    page.script("free()")
    page.save()
    assert not page.script(LEAVE)
    studio.wait_for_file(recording(EDITED))


def test_little_storage_is_told_at_the_start(studio, page):
    page.driver.get("about:blank")
    undo = before_the_page(page, """
        StorageManager.prototype.estimate = async () => ({ quota: 10_000_000, usage: 6_000_001 })""")
    try:
        page.open(studio.bare_address)
    finally:
        undo()
    wait_for_note(page, "the browser has hardly any storage left for this page")


def test_what_a_newer_page_kept_is_left_alone(studio, page):
    page.driver.get(studio.files.address + "studio/page/style.css")
    raised = page.driver.execute_async_script("""
        const [done] = arguments, opening = indexedDB.open("w4 studio", 2);
        opening.onupgradeneeded = () => opening.result.createObjectStore("later");
        opening.onsuccess = () => { opening.result.close(); done("raised"); };
        opening.onblocked = () => done("blocked")""")
    assert raised == "raised"
    page.open(studio.bare_address)
    wait_for_note(page, "a newer version of this page has kept recordings here: reload to have it")
    page.driver.get(studio.files.address + "studio/page/style.css")
    version = page.driver.execute_async_script(
        "indexedDB.databases().then((all) => arguments[0](all.map(({ version }) => version)))")
    assert version == [2]


def test_it_goes_on_where_it_was_left(studio, page):
    """Recording, branches, watches, and the undone edit that is no edit any more."""
    page.click_cell(60, "1")
    page.keys("b")
    page.script("""
        document.getElementById("branch-name").value = "a hop";
        document.querySelector("#branch-form button").click()""")
    page.wait("document.querySelectorAll('#branch-table tbody tr').length === 2")
    page.click_cell(61, "1")
    page.save()
    edited = changed(EDITED, 61, frame(RIGHT))
    studio.wait_for_file(recording(edited))
    assert studio.branch("a hop") == recording(EDITED)
    open_anew(studio, page)
    page.go_to(70)
    assert page.image() == image(edited, 70)
    page.keys("b")
    names = "[...document.querySelectorAll('#branch-table tbody td:first-child')].map((cell) => cell.textContent)"
    page.wait(f"{names}.includes('a hop')")
    assert len([name for name in page.value(names) if name.startswith("opened ")]) == 2


# ---- versions

def style_of(page):
    """The page's style sheet as it is shown."""
    return page.driver.execute_async_script(
        "fetch('studio/static/style.css').then((answer) => answer.text()).then(arguments[0])")


def test_it_opens_without_a_network(studio, page):
    wait_until_kept(page)
    page.click_cell(60, "1")
    page.save()
    studio.files.server.is_down = True
    open_anew(studio, page)
    page.go_to(70)
    assert page.image() == image(EDITED, 70)
    assert len(page.made("run", 0, 0)) > 100_000


def test_a_new_version_is_told_and_taken_at_the_next_start(studio, page):
    """Never while a page of the old one is open."""
    wait_until_kept(page)
    old = style_of(page)
    new = old + "/* newer */\n"
    studio.put_version("studio/static/style.css", new.encode())
    open_anew(studio, page)
    wait_for_note(page, "a new version of this page is there; it is taken when the page is opened the next time")
    assert style_of(page) == old
    with in_tab(page.driver):
        page.driver.get(studio.bare_address)
        page.wait("document.getElementById('fault-text').textContent.startsWith('this session is in use')", 30)
        assert style_of(page) == old
    open_anew(studio, page)
    assert style_of(page) == new
    page.go_to(70)
    assert page.image() == image(garden_frames(), 70)
    page.wait(f"!{NOTES}.includes('a new version')")


def test_a_version_that_is_half_there_isn_t_taken(studio, page):
    """Such as a host has while its files are being replaced."""
    wait_until_kept(page)
    old = style_of(page)
    studio.put_version("studio/static/style.css", old.encode() + b"/* newer */\n")
    (studio.folder / "studio/static/style.css").write_text(old + "/* neither */\n")
    for _ in range(2):
        open_anew(studio, page)
        page.driver.execute_async_script(
            "navigator.serviceWorker.getRegistration().then((one) => one.update()).then(arguments[0], arguments[0])")
    assert style_of(page) == old and page.value(NOTES) == ""


# ---- films

def test_a_film_has_pictures_and_sound(studio, page):
    """As ffprobe reads it: as many pictures as places, and sound as long as they are."""
    if not shutil.which("ffprobe"):
        raise Missing("ffmpeg isn't installed")
    data = page.made("film", 61, 180)
    shown = subprocess.run(
        ["ffprobe", "-v", "error", "-count_packets", "-show_streams", "-show_format", "-of", "json", "-"],
        input=data, stdout=subprocess.PIPE, check=True).stdout
    film = json.loads(shown)
    pictures, sound = sorted(film["streams"], key=lambda stream: stream["codec_type"], reverse=True)
    assert (pictures["width"], pictures["height"], pictures["nb_read_packets"]) == (640, 640, "120")
    assert (sound["codec_name"], sound["channels"], sound["sample_rate"]) == ("opus", 2, "48000")
    assert abs(int(sound["nb_read_packets"]) * 0.02 - 2) <= 0.05
    assert abs(float(film["format"]["duration"]) - 2) < 0.05


def test_a_moving_picture_is_the_server_s(studio, page):
    """Where the browser can't make a film with sound: chunk for chunk, but for how it compresses."""
    images = of_frames("frames", garden_frames(), 55, 74)
    made = bytes(page.driver.execute_async_script("""
        const [done] = arguments;
        window.VideoEncoder = undefined;
        studio.session.connection.host.request("film", { from: 55, to: 74 }, {})
            .then((answer) => answer.arrayBuffer()).then((data) => done(Array.from(new Uint8Array(data))))"""))
    assert unpacked(made) == unpacked(moving_png.of_images(io.BytesIO(images), 20))


def unpacked(png):
    """The chunks of a PNG, compressed data as what it is of."""
    chunks, at = [], 8
    while at < len(png):
        length = int.from_bytes(png[at:at + 4], "big")
        name, data = png[at + 4:at + 8], png[at + 8:at + 8 + length]
        assert zlib.crc32(name + data) == int.from_bytes(png[at + 8 + length:at + 12 + length], "big")
        if name == b"IDAT":
            data = zlib.decompress(data)
        elif name == b"fdAT":
            data = (data[:4], zlib.decompress(data[4:]))
        chunks.append((name, data))
        at += 12 + length
    return chunks


# A browser that refuses what is asked of it has a line in its log, and so has a host that is down.
WITH_FAULTS = (test_the_policy_holds, test_it_opens_without_a_network, test_a_link_leads_nowhere_else,
               test_a_version_that_is_half_there_isn_t_taken)

PAGE_ONLY = (
    test_an_address_is_enough, test_a_link_names_a_place, test_a_link_leads_nowhere_else,
    test_nothing_is_asked_of_anybody_else, test_the_policy_holds, test_an_edit_survives_the_crash_of_the_tab,
    test_two_pages_of_one_recording_are_told, test_where_nothing_can_be_kept_that_is_told,
    test_storage_that_is_full_is_told_at_the_edit, test_little_storage_is_told_at_the_start,
    test_what_a_newer_page_kept_is_left_alone, test_it_goes_on_where_it_was_left, test_it_opens_without_a_network,
    test_a_new_version_is_told_and_taken_at_the_next_start, test_a_version_that_is_half_there_isn_t_taken,
    test_a_film_has_pictures_and_sound, test_a_moving_picture_is_the_server_s)
