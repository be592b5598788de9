"""For test, measurement and picture of the studio: a studio in a folder of its own, and a real Chromium."""
import contextlib
import os
import pathlib
import shutil
import subprocess
import sys
import tempfile
import time

STUDIO = pathlib.Path(__file__).resolve().parent
TOP = STUDIO.parent
FONT = TOP / "examples/first/font.bin"
GARDEN = TOP / "examples/garden"
PATIENCE = 100  # seconds until something that doesn't come is a failure; a busy machine may be very slow
SYSTEM_PYTHON = "/usr/bin/python3"


class Missing(Exception):
    """A tool isn't installed."""


def need_tools():
    """Goes on with the system's Python where this one has no selenium; Missing where a tool isn't there."""
    for tool in ("chromium", "chromedriver"):
        if not shutil.which(tool):
            raise Missing(f"{tool} isn't installed")
    try:
        import selenium  # noqa: F401
    except ImportError:
        is_system = os.path.realpath(sys.executable) == os.path.realpath(SYSTEM_PYTHON)
        if not is_system and has_selenium(SYSTEM_PYTHON):
            os.execv(SYSTEM_PYTHON, [SYSTEM_PYTHON, *sys.argv])
        raise Missing("python3-selenium isn't installed") from None


def has_selenium(python):
    return os.path.exists(python) and subprocess.run([python, "-c", "import selenium"], check=False,
                                                     stderr=subprocess.DEVNULL).returncode == 0


def program():
    return os.environ.get("W4") or str(TOP / "w4")


def run_w4(*words):
    """What a command of w4 writes."""
    return subprocess.run([program(), *map(str, words)], stdout=subprocess.PIPE, check=True).stdout


def wait_until(holds, complaint, patience=PATIENCE):
    """Waits until a function's value is true."""
    end = time.monotonic() + patience
    while not holds():
        assert time.monotonic() < end, f"not within {patience} seconds: {complaint}"
        time.sleep(0.01)


def in_version_2(data):
    """The bytes of version 2 of a recording without a disk, of which version 1 has no byte for a reset."""
    if data[:5] != b"W4RC\1":
        return data
    return b"W4RC\2" + data[5:47] + b"".join(data[at:at + 9] + b"\0" for at in range(47, len(data), 9))


class Studio:
    """A studio that runs on a copy of a recording, or begins one where None is named."""

    kind = "server"

    def __init__(self, cart=GARDEN / "cart.wasm", recording=GARDEN / "game.w4rec", font=FONT):
        self.room = tempfile.TemporaryDirectory()
        self.cart, self.font = cart, font
        self.recording = pathlib.Path(self.room.name, recording.name if recording else "new.w4rec")
        if recording:
            self.recording.write_bytes(recording.read_bytes())
        self.folder = self.recording.with_name(self.recording.name + ".studio")
        self.process = None
        self.address = ""

    def start(self, *flags, **more):
        """Starts it; `more` is for its process."""
        words = [STUDIO / "run", *(flags or ["--no-browser"]), self.cart, self.recording, self.font]
        more.setdefault("stdout", subprocess.PIPE)
        self.process = subprocess.Popen(words, text=True, **more)
        if self.process.stdout:
            self.address = self.process.stdout.readline().strip()
            assert self.address, "the studio didn't start"
        return self

    def program_and_guard(self):
        """The ids of the program and of the guard that the studio started."""
        words = ["pgrep", "-P", str(self.process.pid)]
        found = [int(word) for word in subprocess.run(words, stdout=subprocess.PIPE, check=True).stdout.split()]
        guards = [each for each in found if b"guard.py" in pathlib.Path(f"/proc/{each}/cmdline").read_bytes()]
        [program_id] = set(found) - set(guards)
        [guard_id] = guards
        return program_id, guard_id

    def stop(self):
        self.process.terminate()
        return self.process.wait(PATIENCE)

    def other(self, cart, recording):
        """Another studio of this kind."""
        return Studio(cart, recording)

    def saved(self):
        """The bytes of the recording as it was saved last; None where it wasn't yet."""
        return self.recording.read_bytes() if self.recording.exists() else None

    def branch(self, name):
        """The bytes of a branch, None where there is none."""
        path = self.recording.with_name(f"{self.recording.name}.studio") / f"{name}.w4rec"
        return path.read_bytes() if path.exists() else None

    def stored_watches(self):
        path = self.recording.with_name(f"{self.recording.name}.studio") / "watches.json"
        return path.read_text() if path.exists() else ""

    def wait_for_file(self, wanted):
        """Waits until the recording has these bytes; what is the same in version 1 isn't written anew."""
        wait_until(lambda: in_version_2(self.saved() or b"") == wanted, "the file isn't what was to be saved")

    def __enter__(self):
        return self.start()

    def close(self):
        """Ends it where it runs, and removes its files."""
        if self.process and self.process.poll() is None:
            self.stop()
        for stream in (self.process.stdout, self.process.stderr) if self.process else ():
            if stream:
                stream.close()
        self.room.cleanup()

    def __exit__(self, *_):
        self.close()


def open_chromium(width=1500, height=900, tries=3):
    """A Chromium without a window, in which sound needs no click. Where it starts slowly its driver gives up."""
    from selenium import webdriver
    from selenium.common.exceptions import WebDriverException
    from selenium.webdriver.chrome.service import Service
    options = webdriver.ChromeOptions()
    options.binary_location = shutil.which("chromium")
    for argument in ("--headless=new", "--no-sandbox", f"--window-size={width},{height}",
                     "--autoplay-policy=no-user-gesture-required"):
        options.add_argument(argument)
    options.set_capability("goog:loggingPrefs", {"browser": "ALL"})
    try:
        return webdriver.Chrome(options=options, service=Service(shutil.which("chromedriver")))
    except WebDriverException:
        if tries == 1:
            raise
        return open_chromium(width, height, tries - 1)


@contextlib.contextmanager
def in_tab(driver):
    """A tab that is closed at the end; the one before is gone back to."""
    before = driver.current_window_handle
    driver.switch_to.new_window("tab")
    try:
        yield
    finally:
        driver.close()
        driver.switch_to.window(before)


class Page:
    """The studio's page in a Chromium."""

    def __init__(self, driver):
        self.driver = driver

    def open(self, address):
        """Opens the page and waits until the first picture is there."""
        self.driver.get(address)
        self.wait("window.studio && studio.player.shown === studio.player.place")

    def script(self, text, *words):
        return self.driver.execute_script(text, *words)

    def value(self, expression, *words):
        return self.script(f"return {expression}", *words)

    def answer(self, order):
        """The text that the session answers an order with."""
        return self.driver.execute_async_script(
            "const [order, done] = arguments;"
            "studio.session.connection.askText(order).then(done, (fault) => done(fault.message))", order)

    def made(self, name, first, last):
        """The bytes that are made of a stretch of places, beside the session's orders."""
        return bytes(self.driver.execute_async_script(
            "const [name, from, to, done] = arguments;"
            "studio.session.connection.host.request(name, { from, to }, {}).then((answer) => answer.arrayBuffer())"
            ".then((data) => done(Array.from(new Uint8Array(data))))", name, first, last))

    def wait(self, expression, patience=PATIENCE):
        """Waits until an expression of the page holds."""
        wait_until(lambda: self.value(f"Boolean({expression})"), expression, patience)

    def go_to(self, place):
        self.script("studio.selection.moveTo(arguments[0], false)", place)
        self.wait_for_picture()

    def wait_for_picture(self):
        """The picture of the place shown, after all that was edited."""
        self.answer("state 0")
        self.wait("studio.player.shown === studio.player.place && !studio.player.picture.isRunning")

    def save(self):
        """Saves by a key; what is asked behind that is answered when it is done."""
        self.keys("control+s")
        self.wait("!studio.session.isDirty")
        self.answer("state 0")

    def image(self):
        """The screen's pixels as `w4 frames` writes them."""
        data = self.value("Array.from(studio.player.screen.context.getImageData(0, 0, 160, 160).data)")
        return b"P6\n160 160\n255\n" + bytes(byte for at, byte in enumerate(data) if at % 4 != 3)

    def cell(self, row, title):
        """The window's point in the middle of a cell of the roll, which is scrolled into view."""
        return self.script("""
            const [row, title] = arguments, { roll } = studio;
            roll.reveal(row);
            const column = roll.columns.find((one) => one.title === title);
            const box = roll.canvas.getBoundingClientRect();
            const y = box.top + 20 + 18 * row - roll.scroller.scrollTop + 9;
            return [box.left + column.x + column.width / 2, y];
            """, row, title)

    def press_at(self, points):
        """Presses the mouse at the first of the points, moves over the others, and lets it go."""
        from selenium.webdriver.common.actions.action_builder import ActionBuilder
        builder = ActionBuilder(self.driver, duration=0)
        for number, (x, y) in enumerate(points):
            builder.pointer_action.move_to_location(round(x), round(y))
            if number == 0:
                builder.pointer_action.pointer_down()
        builder.pointer_action.pointer_up()
        builder.perform()

    def click_cell(self, row, title):
        self.press_at([self.cell(row, title)])

    def keys(self, *names):
        """Presses keys one after another; a name with + holds the keys before the last one."""
        from selenium.webdriver.common.action_chains import ActionChains
        from selenium.webdriver.common.keys import Keys
        for name in names:
            chain = ActionChains(self.driver)
            *held, key = [getattr(Keys, part.upper(), part) for part in name.split("+")]
            for modifier in held:
                chain.key_down(modifier)
            chain.send_keys(key)
            for modifier in held:
                chain.key_up(modifier)
            chain.perform()
