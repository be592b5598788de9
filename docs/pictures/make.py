#!/usr/bin/env python3
"""Makes garden.png, README's picture: a place of the example's recording before and after the script's edits.

    python3 docs/pictures/make.py

It needs ./w4 and nothing else.
"""
import pathlib
import struct
import subprocess
import tempfile
import zlib

HERE = pathlib.Path(__file__).resolve().parent
TOP = HERE.parent.parent
SIDE, HEADER, IMAGE = 160, 15, 76_815
SCALE, GAP = 2, 8


def images():
    """The images that the example's script shows."""
    with tempfile.TemporaryDirectory() as room:
        words = ["examples/garden/cart.wasm", "examples/garden/game.w4rec", "examples/first/font.bin",
                 "examples/garden/edits.txt", f"{room}/edited.w4rec"]
        out = subprocess.run([TOP / "w4", "edit", *words], cwd=TOP, stdout=subprocess.PIPE, check=True).stdout
    return [out[at + HEADER:at + IMAGE] for at in (0, IMAGE)]


def rows(pictures):
    """The rows of the pictures side by side, each pixel SCALE wide and high; white between them."""
    for y in range(SIDE):
        parts = []
        for picture in pictures:
            row = picture[3 * SIDE * y:3 * SIDE * (y + 1)]
            parts.append(b"".join(row[3 * x:3 * x + 3] * SCALE for x in range(SIDE)))
        yield from [(b"\xff\xff\xff" * GAP).join(parts)] * SCALE


def chunk(kind, data):
    return struct.pack(">I", len(data)) + kind + data + struct.pack(">I", zlib.crc32(kind + data))


def png(lines):
    width, height = len(lines[0]) // 3, len(lines)
    return (b"\x89PNG\r\n\x1a\n" + chunk(b"IHDR", struct.pack(">IIBBBBB", width, height, 8, 2, 0, 0, 0))
            + chunk(b"IDAT", zlib.compress(b"".join(b"\0" + line for line in lines), 9)) + chunk(b"IEND", b""))


(HERE / "garden.png").write_bytes(png(list(rows(images()))))
