"""For tests: the studio as a static page, on a server of files of its own, so that each studio begins with a browser
that keeps nothing.
"""
import atexit
import functools
import http.server
import itertools
import pathlib
import shutil
import subprocess
import tempfile
import threading
import urllib.parse

import publishing
from browser import FONT, GARDEN, STUDIO, wait_until

NUMBERS = itertools.count(1)
READ = """
    const [table, key, done] = arguments;
    const fail = (event) => done(`no ${table}: ${event.target.error}`);
    const opening = indexedDB.open("w4 studio");
    opening.onerror = fail;
    opening.onsuccess = () => {
        const rows = opening.result.transaction(table).objectStore(table).getAll();
        rows.onerror = fail;
        rows.onsuccess = () => {
            opening.result.close();
            const bytes = (value) => (value instanceof Uint8Array ? Array.from(value) : value);
            done(rows.result.map((row) => Object.fromEntries(
                Object.entries(row).map(([name, value]) => [name, bytes(value)]))));
        };
    };
"""


@functools.lru_cache(maxsize=1)
def published():
    """A folder in which the page was written once for all tests."""
    room = pathlib.Path(tempfile.mkdtemp())
    atexit.register(shutil.rmtree, room, ignore_errors=True)
    subprocess.run([STUDIO / "publish", room / "page"], stdout=subprocess.DEVNULL, check=True)
    return room / "page"


class Files(http.server.SimpleHTTPRequestHandler):
    """Serves a folder, and says nothing; what was asked for is noted."""

    def log_message(self, *_):
        """A test's output has the test's lines alone."""

    def do_GET(self):
        if self.path == "/favicon.ico":  # browsers ask for it beside pages that name none
            self.send_response(204)
            self.end_headers()
            return
        self.server.asked.append(self.path)
        if self.server.is_down:
            self.close_connection = True
            return
        super().do_GET()


class FileServer:
    """A host of static files, on a port of its own."""

    def __init__(self, folder):
        handler = functools.partial(Files, directory=folder)
        self.server = http.server.ThreadingHTTPServer(("127.0.0.1", 0), handler)
        self.server.asked, self.server.is_down = [], False
        threading.Thread(target=self.server.serve_forever, daemon=True).start()
        self.address = f"http://127.0.0.1:{self.server.server_port}/"

    def stop(self):
        self.server.shutdown()
        self.server.server_close()


class PublishedStudio:
    """A page that opens a copy of a recording by a link, or begins one where None is named."""

    kind = "page"

    def __init__(self, cart=GARDEN / "cart.wasm", recording=GARDEN / "game.w4rec", font=FONT):
        self.room = tempfile.TemporaryDirectory()
        self.folder = pathlib.Path(self.room.name, "page")
        shutil.copytree(published(), self.folder)
        self.cart, self.font = cart, font
        self.names = {}
        for kind, path in (("cart", cart), ("recording", recording), ("font", font)):
            if path:
                (self.folder / path.name).write_bytes(path.read_bytes())
                self.names[kind] = path.name
        if recording or cart:
            self.recording = pathlib.Path(self.room.name, recording.name if recording else cart.stem + ".w4rec")
        self.files = FileServer(self.folder)
        self.driver = None

    @property
    def address(self):
        """The page's address, another one each time, so that the browser loads it anew."""
        return f"{self.bare_address}#{urllib.parse.urlencode(self.names)}"

    @property
    def bare_address(self):
        """The same without a link: what is kept opens, or the example."""
        return f"{self.files.address}?{next(NUMBERS)}"

    def put_version(self, name, data):
        """Puts another version of the page in this one's place, in which a file has other bytes."""
        files = publishing.contents()
        files[name] = data
        (self.folder / name).write_bytes(data)
        (self.folder / publishing.WORKER).write_text(publishing.service_worker(files), encoding="utf-8")

    def other(self, cart, recording):
        """Another studio of this kind."""
        studio = PublishedStudio(cart, recording)
        studio.driver = self.driver
        return studio

    def stop(self):
        self.files.stop()
        return 0

    def rows(self, table):
        """What the browser keeps in a table, read from another page of the same host where the studio isn't open."""
        if not self.driver.current_url.startswith(self.files.address):
            self.driver.get(self.files.address + "studio/page/style.css")
        return self.driver.execute_async_script(READ, table, None)

    def saved(self):
        """The bytes of the recording as it was saved last."""
        return bytes(self.rows("recordings")[0]["bytes"])

    def branch(self, name):
        """The bytes of a branch, None where there is none."""
        return next((bytes(row["bytes"]) for row in self.rows("branches") if row["name"] == name), None)

    def stored_watches(self):
        return "".join(row["text"] for row in self.rows("watches"))

    def wait_for_file(self, wanted):
        """Waits until the recording that the browser keeps has these bytes."""
        wait_until(lambda: self.saved() == wanted, "what the browser keeps isn't what was to be saved")

    def __enter__(self):
        return self

    def __exit__(self, *_):
        self.files.stop()
        self.room.cleanup()
