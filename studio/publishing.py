"""Writes the studio as a static page: the page's modules as they are, in folders as the checkout has them, with the
program for WebAssembly, an example, and a worker that keeps all of it in the browser.
"""
import base64
import hashlib
import json
import pathlib
import re
import shutil
import tempfile

import run_file
from refusal import Refusal
from run_file import STUDIO, TOP, replaced

MARK = "studio/published"  # a file of each folder that this command wrote
EXAMPLE = ("examples/garden/cart.wasm", "examples/garden/game.w4rec", "examples/first/font.bin")
PROGRAM = "js/w4.wasm"  # where the package has it
FRAME = "studio/run_frame.html"
WORKER = "service_worker.js"
POLICY = ("default-src 'self'; script-src 'self' 'wasm-unsafe-eval'; img-src 'self' blob: data:; media-src blob:; "
          "object-src 'none'; base-uri 'none'; form-action 'none'")
START = "studio/static/start.js"
HEAD = """<meta http-equiv="Content-Security-Policy" content="{policy}">
<link rel="icon" href="studio/page/icon.svg">
<link rel="stylesheet" href="studio/page/style.css">
<link rel="stylesheet" href="studio/static/style.css">
<link rel="preload" href="js/w4.wasm" as="fetch" type="application/wasm" crossorigin>
{preloads}<script type="module" src="{start}"></script>
"""
PRELOAD = '<link rel="modulepreload" href="{}">\n'  # all at once, and not each after the one that imports it
OWN_HEAD = re.compile(r'<link rel="icon".*?<script type="module" src="start\.js"></script>\n', re.DOTALL)
MODULES = re.compile(r'^(?:import|export)\s[^"\n]*?(?:\{[^}]*\}\s*from\s*)?"(\.{1,2}/[^"]+)";', re.MULTILINE)


def modules_of(*names):
    """The modules that these need, each once, as paths in the checkout."""
    found, left = [], list(names)
    while left:
        name = left.pop()
        if name not in found:
            found.append(name)
            text = (TOP / name).read_text(encoding="utf-8")
            left += [str((TOP / name).parent.joinpath(path).resolve().relative_to(TOP)) for path in MODULES.findall(text)]
    return sorted(found)


def index():
    """The studio's page with a start of its own, and with what a page without a server has beside it."""
    page = (STUDIO / "page/index.html").read_text(encoding="utf-8")
    if len(OWN_HEAD.findall(page)) != 1 or page.count("</body>") != 1:
        raise Refusal("studio/page/index.html has another head than studio/publish knows")
    preloads = "".join(PRELOAD.format(name) for name in modules_of(START) if name != START)
    head = HEAD.format(policy=POLICY, preloads=preloads, start=START)
    opening = (STUDIO / "static/opening.html").read_text(encoding="utf-8")
    return OWN_HEAD.sub(lambda _: head, page).replace("</body>", opening + "</body>")


def contents():
    """The bytes of each file of the page but the worker that keeps them, by its name in the folder."""
    modules = modules_of(START, "js/worker.js")
    copied = [*modules, *EXAMPLE, "studio/page/icon.svg", "studio/page/style.css",
              "studio/static/style.css"]
    if not run_file.MODULE.is_file():
        raise Refusal(f"{run_file.MODULE} isn't there; ports/renew makes it")
    files = {name: (TOP / name).read_bytes() for name in copied}
    files[PROGRAM] = run_file.MODULE.read_bytes()
    files["index.html"] = index().encode()
    files[FRAME] = run_file.frame().encode()
    return files


def service_worker(files):
    """The worker that keeps these files, as a text that differs where one of them does."""
    sums = {"" if name == "index.html" else name: base64.b64encode(hashlib.sha256(data).digest()).decode()
            for name, data in sorted(files.items())}
    listed = json.dumps(sums, indent=2)
    version = hashlib.sha256(listed.encode()).hexdigest()[:16]
    text = (STUDIO / "static" / WORKER).read_text(encoding="utf-8")
    return replaced(text, {"VERSION": version, "FILES": listed})


def may_be_replaced(folder):
    """Whether a folder isn't there, is empty, or has what this command wrote."""
    return not folder.exists() or not any(folder.iterdir()) or (folder / MARK).is_file()


def write_page(folder):
    """Writes the page into a folder, in one piece where nobody changes it meanwhile."""
    if not may_be_replaced(folder):
        raise Refusal(f"{folder} has files that studio/publish didn't write; name a new folder")
    files = contents()
    files[WORKER] = service_worker(files).encode()
    files[MARK] = b"studio/publish wrote this folder, and replaces it.\n"
    folder.parent.mkdir(parents=True, exist_ok=True)
    room = pathlib.Path(tempfile.mkdtemp(prefix=f"{folder.name}.", dir=folder.parent))
    try:
        for name, data in files.items():
            (room / name).parent.mkdir(parents=True, exist_ok=True)
            (room / name).write_bytes(data)
        room.chmod(0o755)
        if folder.exists():
            shutil.rmtree(folder)
        room.rename(folder)
    finally:
        shutil.rmtree(room, ignore_errors=True)
    print(f"{folder}: {len(files)} files, {sum(map(len, files.values())):,} bytes")
