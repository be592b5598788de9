"""A run in one file of HTML: a page that plays it, with program, cart, recording and font in it. Everything that comes
out of files is in it as base64 of compressed bytes, but for the title, which is escaped.
"""
import base64
import hashlib
import html
import json
import os
import pathlib
import zlib

import bundle
from refusal import Refusal

STUDIO = pathlib.Path(__file__).resolve().parent
TOP = STUDIO.parent
PAGE = STUDIO / "run_page"
MODULE = TOP / "release/w4.wasm"
POLICY = ("default-src 'none'; script-src '{script}' 'wasm-unsafe-eval'; style-src '{style}'; worker-src blob:; "
          "img-src data:; base-uri 'none'; form-action 'none'")


def packed(data):
    """Bytes as a block of the page has them."""
    return base64.b64encode(zlib.compress(data, 9)).decode("ascii")


def digest(text):
    """How a policy names a script or a style."""
    return "sha256-" + base64.b64encode(hashlib.sha256(text.encode()).digest()).decode("ascii")


def inline(text, end):
    """A script or a style that stands in the page, where its end may not occur in it."""
    if end in text.lower() or "<!--" in text:
        raise Refusal(f"the page can't hold a text that has {end} or <!-- in it")
    return text


def replaced(text, parts):
    """A text in which each name between two @ is replaced, once, by its part."""
    for name, part in parts.items():
        before, mark, behind = text.partition(f"@{name}@")
        if not mark or f"@{name}@" in behind:
            raise Refusal(f"the page's frame must have @{name}@ once")
        text = before + part + behind
    return text


def frame():
    """The page with all but what differs from run to run."""
    script = inline(bundle.joined(PAGE / "main.js"), "</script")
    style = inline((PAGE / "style.css").read_text(encoding="utf-8"), "</style")
    worker = bundle.joined(TOP / "js/worker.js")
    if not MODULE.is_file():
        raise Refusal(f"{MODULE} isn't there; ports/renew makes it")
    return replaced((PAGE / "index.html").read_text(encoding="utf-8"), {
        "POLICY": POLICY.format(script=digest(script), style=digest(style)), "PROGRAM": version(), "STYLE": style,
        "SCRIPT": script, "MODULE": packed(MODULE.read_bytes()), "WORKER": packed(worker.encode())})


def escaped(text):
    """A text as a page has it: no markup, and none of the marks that are replaced."""
    return html.escape(text).replace("@", "&#64;")


def version():
    """What the program is called in the page."""
    first = (TOP / "release/BUILD").read_text(encoding="utf-8").split("\n")[0]
    return "w4 " + first.split()[-1]


def names_of(cart, recording):
    """The names that the page shows, of names of files."""
    title = recording.removesuffix(".w4rec") or recording
    return {"title": title, "cart": cart, "recording": recording, "program": version()}


def filled(page, cart, recording, font, names):
    """The page of a run, out of its frame."""
    return replaced(page, {
        "TITLE": escaped(names["title"]), "NAMES": packed(json.dumps(names).encode()), "CART": packed(cart),
        "RECORDING": packed(recording), "FONT": packed(font)})


def shown_name(path):
    """A file's name as the page shows it."""
    return os.fsencode(path.name).decode("utf-8", "replace")


def of_files(files):
    """The bytes of the page of a run, of the three files that an object has as `cart`, `recording` and `font`."""
    paths = (files.cart, files.recording, files.font)
    names = names_of(shown_name(files.cart), shown_name(files.recording))
    return filled(frame(), *(path.read_bytes() for path in paths), names).encode()
