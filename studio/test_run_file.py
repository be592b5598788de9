"""Tests of a run in one file: it opens from a file, plays, and holds what it was made of, whatever that is called."""
import base64
import hashlib
import html
import json
import pathlib
import re
import subprocess
import zlib

from browser import GARDEN, STUDIO, TOP
from recordings import CART, frame, garden_frames, image, recording

MOST = 1_000_000  # bytes that a file may have beside cart and recording
GARDEN_BYTES = (GARDEN / "game.w4rec").read_bytes()
HOSTILE = "</script><script>hurt()</script><!-- \u2028 @CART@ & \"'"


def publish(room, cart=CART, rec=GARDEN / "game.w4rec", name="run.html"):
    """The file of a run, made by the command."""
    out = pathlib.Path(room, name)
    subprocess.run([STUDIO / "publish", "--run", cart, rec, out], check=True, stdout=subprocess.DEVNULL)
    return out


def open_run(page, path):
    """Opens the file as a user does, and waits for its first picture."""
    page.driver.get(path.as_uri())
    page.wait("window.run && run.player.shown === run.player.place", patience=60)


def shown_image(page):
    data = page.value("Array.from(run.player.screen.context.getImageData(0, 0, 160, 160).data)")
    return b"P6\n160 160\n255\n" + bytes(byte for at, byte in enumerate(data) if at % 4 != 3)


def block(text, name):
    """The bytes of a block of the file."""
    [data] = re.findall(f'<script type="text/plain" id="data-{name}">([A-Za-z0-9+/=]*)</script>', text)
    return zlib.decompress(base64.b64decode(data))


def test_a_run_in_one_file_plays_to_its_end(studio, page):
    """Opened from a file, with sound, at four times the speed; its last picture is that of `frames`."""
    out = publish(studio.room.name)
    assert out.stat().st_size <= MOST + CART.stat().st_size + len(GARDEN_BYTES)
    open_run(page, out)
    assert shown_image(page) == image(garden_frames(), 0)
    page.script("document.getElementById('speed').value = '4';"
                "document.getElementById('speed').dispatchEvent(new Event('change'))")
    page.script("document.getElementById('play-button').click()")
    page.wait("run.player.isPlaying && run.sound.isOn")
    page.wait("!run.player.isPlaying && run.player.place === 240 && run.player.shown === 240", patience=30)
    assert shown_image(page) == image(garden_frames(), 240)
    assert page.value("performance.getEntriesByType('resource').filter(({ name }) => !/^(data|blob):/.test(name))") == []


def test_a_run_is_scrubbed_and_shows_its_inputs(studio, page):
    open_run(page, publish(studio.room.name))
    page.script("const bar = document.getElementById('bar'); bar.value = 70; bar.dispatchEvent(new Event('input'))")
    page.wait("run.player.shown === 70")
    assert shown_image(page) == image(garden_frames(), 70)
    pressed = garden_frames()[70][0]
    shown = page.value("document.querySelectorAll('#gamepads .pressed').length")
    assert shown == bin(pressed).count("1")
    pressed_color = page.value("getComputedStyle(document.querySelector('#gamepads .pressed')).fill")
    lane = "document.getElementById('timeline').getContext('2d').getImageData(%s - 3, 8, 1, 1).data"
    middle = page.value("run.view.timeline.middle")
    assert page.value(f"'rgb(' + Array.from({lane % middle}).slice(0, 3).join(', ') + ')'") == pressed_color
    page.keys("arrow_left", "arrow_left")
    page.wait("run.player.shown === 68")
    assert shown_image(page) == image(garden_frames(), 68)
    page.driver.get(f"{page.driver.current_url.split('#')[0]}#place=100")
    page.driver.refresh()
    page.wait("window.run && run.player.shown === 100", patience=60)
    assert shown_image(page) == image(garden_frames(), 100)


def test_a_run_holds_its_recording_and_its_cart(studio, page):
    open_run(page, publish(studio.room.name))
    page.script("const make = URL.createObjectURL;"
                "URL.createObjectURL = (blob) => { window.given = blob; return make(blob); }")
    for key, name, data in (("shift+s", "game.w4rec", GARDEN_BYTES), ("shift+c", "cart.wasm", CART.read_bytes())):
        page.keys(key)
        page.wait(f"document.getElementById('made').download === '{name}'")
        given = page.driver.execute_async_script(
            "given.arrayBuffer().then((data) => arguments[0](Array.from(new Uint8Array(data))))")
        assert bytes(given) == data
    assert hashlib.sha256(CART.read_bytes()).hexdigest() in page.value("document.getElementById('details').textContent")


def test_names_of_files_are_no_markup(studio, page):
    """Of cart and recording, in the page's head, in its blocks, and where they are shown."""
    room = pathlib.Path(studio.room.name)
    names = [HOSTILE.replace("/", "\u2215"), "</style><img src=x onerror=hurt()>".replace("/", "\u2215")]
    rec, cart = room / f"{names[0]}.w4rec", room / f"{names[1]}.wasm"
    rec.write_bytes(GARDEN_BYTES)
    cart.write_bytes(CART.read_bytes())
    open_run(page, publish(room, cart, rec))
    assert page.value("document.title") == re.sub("[ \t\n\f\r]+", " ", names[0]).strip(" ")
    assert page.value("document.getElementById('recording-name').textContent") == names[0]
    assert page.value("document.getElementById('cart-name').textContent") == cart.name
    assert page.value("typeof hurt") == "undefined" and page.value("document.querySelectorAll('img').length") == 0
    assert page.value("document.querySelectorAll('script').length") == 7


def test_slashes_in_names_are_no_markup(studio, page):
    """As the studio's page can have them, whose names are no files' names."""
    page.script("""
        const { facts } = published.host.project;
        facts.recordingName = arguments[0];
        facts.cartName = arguments[0]""", f"{HOSTILE}.w4rec")
    out = pathlib.Path(studio.room.name, "run.html")
    out.write_bytes(page.made("run", 0, 0))
    open_run(page, out)
    assert page.value("document.getElementById('recording-name').textContent") == HOSTILE
    assert page.value("typeof hurt") == "undefined" and page.value("document.querySelectorAll('script').length") == 7


def test_the_page_makes_the_same_file(studio, page):
    """As the command does, but for how the browser compresses."""
    made = page.made("run", 0, 0).decode()
    command = publish(studio.room.name).read_text(encoding="utf-8")
    assert block(made, "recording") == recording(garden_frames())
    blocks = ("cart", "font", "module", "worker")
    assert json.loads(block(made, "names")) == json.loads(block(command, "names"))
    assert {name: block(made, name) for name in blocks} == {name: block(command, name) for name in blocks}
    bare = [re.sub(r'(id="data-\w+">)[A-Za-z0-9+/=]*', r"\1", text) for text in (made, command)]
    assert bare[0] == bare[1]
    page.keys("shift+p")
    page.wait("document.getElementById('made').download === 'game.html'")


def test_the_server_makes_the_same_file(studio, page):
    made = page.made("run", 0, 0)
    wanted = publish(studio.room.name, rec=studio.recording)
    assert made == wanted.read_bytes()


def test_traces_are_no_markup(studio, page):
    """What a cart traces is shown as text, each line with its place."""
    room = pathlib.Path(studio.room.name)
    text = b"</script><img src=x onerror=hurt()><!--"
    cart = tracing_cart(room, text)
    rec = room / "traces.w4rec"
    rec.write_bytes(recording([frame(0)] * 3, cart))
    open_run(page, publish(room, cart, rec))
    page.script("document.getElementById('traces-pane').open = true")
    page.wait("document.querySelectorAll('#traces li').length === 3")
    assert page.value("document.querySelector('#traces code').textContent") == text.decode()
    assert page.value("document.querySelectorAll('img').length") == 0 and page.value("typeof hurt") == "undefined"


def tracing_cart(room, text):
    """A cart that traces a text in each frame."""
    leb = lambda number: bytes([number]) if number < 128 else bytes([number & 127 | 128, number >> 7])  # noqa: E731
    section = lambda number, data: bytes([number]) + leb(len(data)) + data  # noqa: E731
    name = lambda word: leb(len(word)) + word  # noqa: E731
    at = b"\x41\x80\xc0\x02"  # i32.const 40960
    body = b"\0" + at + b"\x10\0\x0b"
    data = (b"\0asm\1\0\0\0" + section(1, b"\2\x60\1\x7f\0\x60\0\0")
            + section(2, b"\2" + name(b"env") + name(b"memory") + b"\2\0\1" + name(b"env") + name(b"trace") + b"\0\0")
            + section(3, b"\1\1") + section(7, b"\1" + name(b"update") + b"\0\1")
            + section(10, b"\1" + leb(len(body)) + body) + section(11, b"\1\0" + at + b"\x0b" + name(text + b"\0")))
    path = pathlib.Path(room, "traces.wasm")
    path.write_bytes(data)
    return path


def test_the_policy_of_a_run_names_no_host(studio, page):
    text = publish(studio.room.name).read_text(encoding="utf-8")
    [policy] = re.findall(r'http-equiv="Content-Security-Policy" content="([^"]*)"', text)
    parts = dict(part.strip().split(" ", 1) for part in html.unescape(policy).split(";"))
    assert parts["default-src"] == "'none'" and "connect-src" not in parts
    assert set(parts) == {"default-src", "script-src", "style-src", "worker-src", "img-src", "base-uri", "form-action"}
    assert "http" not in policy and "unsafe-inline" not in policy and "'unsafe-eval'" not in policy
    open_run(page, publish(studio.room.name))
    said = page.driver.execute_async_script(
        "fetch('data:text/plain,a').then(() => arguments[0]('asked'), () => arguments[0]('refused'))")
    assert said == "refused"


def test_a_browser_without_what_it_needs_is_told(studio, page):
    out = publish(studio.room.name)
    made = page.driver.execute_cdp_cmd("Page.addScriptToEvaluateOnNewDocument", {"source": """
        delete window.DecompressionStream"""})
    try:
        page.driver.get(out.as_uri())
        page.wait("document.getElementById('message').textContent.includes('DecompressionStream')")
    finally:
        page.driver.execute_cdp_cmd("Page.removeScriptToEvaluateOnNewDocument", made)
    assert page.value("document.getElementById('message').textContent") == (
        "This browser can't show the run, since it doesn't have DecompressionStream. Any browser of 2023 or later has it: "
        "open the file there.")
    assert page.value("document.getElementById('whole').hidden")


def test_a_cut_file_is_told(studio, page):
    """Such as a download that broke off."""
    out = publish(studio.room.name)
    text = out.read_text(encoding="utf-8")
    head, mark, rest = text.partition('id="data-module">')
    out.write_text(head + mark + rest[:1000] + rest[rest.index("</script>"):], encoding="utf-8")
    page.driver.get(out.as_uri())
    page.wait("document.getElementById('message').textContent.startsWith(\"This file can't be opened: \")")
    assert page.value("document.getElementById('message').textContent").endswith("It may be incomplete.")


def test_what_is_no_run_is_refused(studio):
    """With a sentence and status 1, and no file."""
    out = pathlib.Path(studio.room.name, "none.html")
    ended = subprocess.run([STUDIO / "publish", "--run", CART, TOP / "examples/first/game.w4rec", out],
                           stderr=subprocess.PIPE, text=True)
    assert ended.returncode == 1 and "can't be played" in ended.stderr and "wrong cart" in ended.stderr
    assert not out.exists()
    ended = subprocess.run([STUDIO / "publish", "--run", CART, CART.with_name("absent.w4rec"), out],
                           stderr=subprocess.PIPE, text=True)
    assert ended.returncode == 1 and "absent.w4rec" in ended.stderr and "Traceback" not in ended.stderr


# The browser notes what a policy refuses.
WITH_FAULTS = (test_the_policy_of_a_run_names_no_host,)
SERVER_ONLY = (test_the_server_makes_the_same_file,)
PAGE_ONLY = (
    test_a_run_in_one_file_plays_to_its_end, test_a_run_is_scrubbed_and_shows_its_inputs,
    test_a_run_holds_its_recording_and_its_cart, test_names_of_files_are_no_markup, test_slashes_in_names_are_no_markup,
    test_the_page_makes_the_same_file, test_traces_are_no_markup, test_the_policy_of_a_run_names_no_host,
    test_a_browser_without_what_it_needs_is_told, test_a_cut_file_is_told)
