"""Tests of files that are brought to the static page: dropped, chosen, and refused with a sentence."""
import json
import pathlib
import zipfile

from browser import FONT, GARDEN, TOP
from recordings import CART, RIGHT, frame, garden_frames, image, recording

NAMES = "document.getElementById('names').textContent"
REFUSAL = "document.getElementById('open-refusal').textContent"
OTHER_CART = TOP / "examples/first/cart.wasm"


def drop(page, *paths):
    """Drops files or folders on the page, as a user's mouse does."""
    data = {"items": [], "files": [str(path) for path in paths], "dragOperationsMask": 1}
    for kind in ("dragEnter", "dragOver", "drop"):
        page.driver.execute_cdp_cmd("Input.dispatchDragEvent", {"type": kind, "x": 400, "y": 300, "data": data})


def choose(page, *paths):
    """Chooses files in the dialog that opens them."""
    page.script("document.getElementById('open-dialog').open || document.getElementById('open-button').click()")
    field = page.driver.find_element("id", "open-files")
    page.script("arguments[0].value = ''", field)
    field.send_keys("\n".join(map(str, paths)))


def wait_for_refusal(page, sentence):
    page.wait(f"{REFUSAL} === {json.dumps(sentence)}", patience=30)


def wait_for(page, names):
    """Waits until the page has begun anew with a cart and a recording."""
    page.wait(f"window.studio && {NAMES} === {json.dumps(names)} && studio.player.shown === studio.player.place",
              patience=30)


def put(studio, name, data):
    path = pathlib.Path(studio.room.name, name)
    path.write_bytes(data)
    return path


def test_a_cart_and_a_recording_are_dropped(studio, page):
    frames = garden_frames()[:100] + [frame(RIGHT)] * 20
    drop(page, CART, put(studio, "hop.w4rec", recording(frames)))
    wait_for(page, "cart.wasm · hop.w4rec")
    page.go_to(120)
    assert page.image() == image(frames, 120)


def test_a_cart_alone_begins_a_recording(studio, page):
    choose(page, put(studio, "robot.wasm", CART.read_bytes()))
    wait_for(page, "robot.wasm · robot.w4rec")
    assert page.value("studio.session.count") == 0
    page.script("studio.session.change('', [{ kind: 'insert', at: 0, input: "
                "{ pads: [32, 0, 0, 0], mouse: [32767, 32767], mouseButtons: 0, reset: false } }])")


def test_a_recording_alone_finds_its_cart(studio, page):
    """Among those that the browser keeps."""
    choose(page, put(studio, "first.wasm", OTHER_CART.read_bytes()))
    wait_for(page, "first.wasm · first.w4rec")
    frames = garden_frames()[:50]
    choose(page, put(studio, "short.w4rec", recording(frames)))
    wait_for(page, "cart.wasm · short.w4rec")
    page.go_to(50)
    assert page.image() == image(frames, 50)


def test_what_is_kept_is_opened_and_removed(studio, page):
    choose(page, put(studio, "short.w4rec", recording(garden_frames()[:50])))
    wait_for(page, "cart.wasm · short.w4rec")
    page.script("document.getElementById('open-button').click()")
    rows = "[...document.querySelectorAll('#kept-table tbody tr')].map((row) => row.cells[0].textContent)"
    page.wait(f"{rows}.length === 2")
    assert page.value(rows) == ["short.w4rec", "game.w4rec"]
    page.script("document.querySelector('[aria-label=\"Open game.w4rec\"]').click()")
    wait_for(page, "cart.wasm · game.w4rec")
    page.script("window.confirm = () => true; document.getElementById('open-button').click()")
    page.wait(f"{rows}.length === 2")
    page.script("document.querySelector('[aria-label=\"Remove short.w4rec\"]').click()")
    page.wait(f"{rows}.length === 1")
    assert [row["recordingName"] for row in studio.rows("projects")] == ["game.w4rec"]
    assert len(studio.rows("recordings")) == 1 and all(row["project"] == 1 for row in studio.rows("branches"))


def test_a_folder_is_refused(studio, page):
    drop(page, GARDEN)
    wait_for_refusal(page, "garden is a folder: open it, and drop the cart and the recording that are in it")
    assert page.value(NAMES) == "cart.wasm · game.w4rec"


def test_a_file_of_two_gigabytes_is_refused_unread(studio, page):
    path = pathlib.Path(studio.room.name, "film.mov")
    with path.open("wb") as file:
        file.truncate(2_147_483_648)
    drop(page, path)
    wait_for_refusal(page, "film.mov has 2.1 GB, and wasn't read: a cart has at most 65,536 bytes, and a recording "
                     "361,071")


def test_foreign_files_are_refused_by_what_they_are(studio, page):
    archive = pathlib.Path(studio.room.name, "game.zip")
    with zipfile.ZipFile(archive, "w") as made:
        made.write(CART, "cart.wasm")
    kinds = "is neither a cart (.wasm), a recording (.w4rec) nor a font of 1792 bytes"
    sentences = {
        archive: "is an archive: unpack it, and bring the cart (.wasm) and the recording (.w4rec) that are in it",
        put(studio, "empty.wasm", b""): "is empty",
        put(studio, "page.html", b"\n<!DOCTYPE html><p>a game"):
            "is a web page; what is wanted is the cart of a game, a file that ends in .wasm",
        put(studio, "cart.wat", b"(module (memory 1))"): "is WebAssembly as text: wat2wasm makes a cart of it",
        put(studio, "notes.txt", b"a note"): kinds,
        put(studio, "large.wasm", b"\0asm" + bytes(66_696)): "has 66.7 KB; a cart has at most 65,536 bytes",
        put(studio, "cut.w4rec", recording(garden_frames())[:-1]): "is no whole recording (w4 says: bad)",
        put(studio, "cut.wasm", CART.read_bytes()[:-1]): "is no cart that can be run (w4 says: malformed)",
    }
    for path, sentence in sentences.items():
        choose(page, path)
        wait_for_refusal(page, f"{path.name} {sentence}")
    assert page.value(NAMES) == "cart.wasm · game.w4rec"


def test_files_that_don_t_belong_together_are_refused(studio, page):
    rec = put(studio, "run.w4rec", recording(garden_frames()))
    choose(page, put(studio, "first.wasm", OTHER_CART.read_bytes()), rec)
    wait_for_refusal(page, "run.w4rec is a recording of another cart than first.wasm: bring its own cart with it")
    choose(page, put(studio, "other.w4rec", recording([frame(0)], OTHER_CART)))
    wait_for_refusal(page, "other.w4rec is a recording of a cart that isn't known here: bring that with it")
    choose(page, rec, put(studio, "again.w4rec", rec.read_bytes()))
    wait_for_refusal(page, "run.w4rec and again.w4rec are two recordings: bring one at a time")
    choose(page, FONT)
    wait_for(page, "cart.wasm · game.w4rec")


PAGE_ONLY = (
    test_a_cart_and_a_recording_are_dropped, test_a_cart_alone_begins_a_recording,
    test_a_recording_alone_finds_its_cart, test_what_is_kept_is_opened_and_removed, test_a_folder_is_refused,
    test_a_file_of_two_gigabytes_is_refused_unread, test_foreign_files_are_refused_by_what_they_are,
    test_files_that_don_t_belong_together_are_refused)
