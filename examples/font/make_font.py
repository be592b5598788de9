#!/usr/bin/env python3
"""Turns glyphs.txt into a font: 1,792 bytes, eight for each code from 32 to 255, one a row, the
highest bit leftmost. A 0 bit is ink, which the console paints in colour 1, a 1 bit is background.

    python3 make_font.py glyphs.txt font.bin
"""
import sys


def glyphs(lines):
    """The rows of each glyph by its code."""
    rows_of = {}
    rows = None
    for line in lines:
        if line.startswith("code "):
            rows = rows_of.setdefault(int(line.split()[1]), [])
        elif rows is not None and line and set(line) <= {"#", "."}:
            rows.append(int(line.replace("#", "0").replace(".", "1"), 2))
    return rows_of


def main():
    source, target = sys.argv[1:]
    with open(source, encoding="utf-8") as text:
        rows_of = glyphs(text.read().split("\n"))
    if sorted(rows_of) != list(range(32, 256)) or any(len(rows) != 8 for rows in rows_of.values()):
        sys.exit("a glyph is missing, or hasn't eight rows")
    with open(target, "wb") as font:
        for code in range(32, 256):
            font.write(bytes(rows_of[code]))


main()
