"""For studio/measure: figures of the studio as a static page, beside those of the program that is shipped."""
import pathlib
import statistics
import subprocess
import tempfile
import time

import browser
import published_studio
import recordings

PLACES = 600
IMAGE = 76_815  # bytes
TURNS = 9
ORDERS = 1000
WHEN_READY = """
    const timer = setInterval(() => {
        if (!window.studio || studio.player.shown !== studio.player.place) return;
        clearInterval(timer);
        window.readyAfter = performance.now();
    }, 1)"""
ASK = """
    const [line, count, done] = arguments, { connection } = studio.session;
    const times = [];
    (async () => {
        for (let number = 0; number < count; number += 1) {
            const start = performance.now();
            await connection.ask(line);
            times.push(performance.now() - start);
        }
        done(times);
    })()"""
FRAMES = """
    const [last, done] = arguments, { project, program } = published.host;
    const { cart, font } = project.facts;
    const start = performance.now();
    program.run(["frames", "CART", "REC", "FONT", "1", String(last)], { CART: cart, REC: project.recording, FONT: font })
        .then(({ output }) => done([performance.now() - start, output.length]))"""


def ready(page, studio):
    """Milliseconds from the address to the first picture, the page's files kept by the browser: median of nine."""
    page.driver.execute_async_script("navigator.serviceWorker.ready.then(() => arguments[0]())")
    made = page.driver.execute_cdp_cmd("Page.addScriptToEvaluateOnNewDocument", {"source": WHEN_READY})
    times = []
    for _ in range(TURNS):
        page.driver.get("about:blank")
        page.open(studio.bare_address)
        page.wait("window.readyAfter")
        times.append(page.value("readyAfter"))
    page.driver.execute_cdp_cmd("Page.removeScriptToEvaluateOnNewDocument", made)
    return times


def native(studio, recording, output):
    """Seconds that the shipped program takes for the images, and for handing them to this process by a pipe."""
    words = [browser.TOP / "release/w4", "frames", studio.cart, recording, studio.font, "1", str(PLACES)]
    start = time.monotonic()
    made = subprocess.run(words, stdout=output, check=True)
    assert made.stdout is None or len(made.stdout) == PLACES * IMAGE
    return time.monotonic() - start


def print_frames(page, studio, name):
    """Both programs in turn, each a time, so that what else the machine does falls on both."""
    recording = pathlib.Path(studio.room.name, "played.w4rec")
    recording.write_bytes(studio.folder.joinpath(studio.names["recording"]).read_bytes())
    rows = []
    for _ in range(TURNS):
        took, length = page.driver.execute_async_script(FRAMES, PLACES)
        assert length == PLACES * IMAGE, length
        rows.append((took / 1000, native(studio, recording, subprocess.PIPE),
                     native(studio, recording, subprocess.DEVNULL)))
    here, there, nowhere = (statistics.median(times) for times in zip(*rows))
    print(f"frames of {PLACES} places of {name}: {here:.3f} s in the worker, {there:.3f} s by release/w4 through a pipe, "
          f"{nowhere:.3f} s to /dev/null: {here / there:.2f} and {here / nowhere:.2f} times")


def print_playing(page, playing):
    page.script("document.getElementById('sound-button').click()")
    page.wait("studio.sound.isOn")
    places, pictures = page.driver.execute_async_script(playing, 1, 5)
    print(f"playing with sound: {places:.1f} places a second, {pictures:.1f} pictures a second")


def long_recording(room, cart, budget):
    frames = [recordings.frame(recordings.RIGHT if at % 100 < 40 else 0) for at in range(PLACES)]
    path = pathlib.Path(room, f"{cart.stem}.w4rec")
    path.write_bytes(recordings.recording(frames, cart, budget))
    return path


def print_all(driver, playing):
    """Prints each figure as it is known."""
    page = browser.Page(driver)
    carts = {"garden": browser.GARDEN / "cart.wasm", "plasma": browser.TOP / "bench/plasma.wasm"}
    for name, cart in carts.items():
        with tempfile.TemporaryDirectory() as room:
            recording = long_recording(room, cart, 10_000_000)
            with published_studio.PublishedStudio(cart, recording) as studio:
                studio.driver = driver
                page.open(studio.address)
                if name == "garden":
                    times = ready(page, studio)
                    print(f"ready after the address: median {statistics.median(times):.0f} ms, worst {max(times):.0f} ms")
                    times = driver.execute_async_script(ASK, "state 70", ORDERS)
                    print(f"an order's answer: median {statistics.median(times):.3f} ms")
                    print_playing(page, playing)
                print_frames(page, studio, name)
                driver.get("about:blank")
