#!/usr/bin/env python3
"""Writes the lines that the carts of inputs/imports/ are to write into the folder `imports`, and prints the sums of
their images and how many units their frames take, from the rules of the console and not from the program.
"""
import hashlib
import os
import struct
import sys

HERE = os.path.dirname(os.path.abspath(__file__))
sys.dont_write_bytecode = True
sys.path.insert(0, os.path.join(HERE, os.pardir, "inputs"))
import import_carts as carts  # noqa: E402
sys.path.insert(0, HERE)
from images import image  # noqa: E402
from wave import Voice  # noqa: E402

SIDE = 160


def page_of(data):
    page = bytearray(65_536)
    for address, held in data.items():
        page[address:address + len(held)] = held
    return bytes(page)


def cut(start, count):
    """Which of so many cells from a place on are on the screen."""
    return range(max(0, -start), min(count, SIDE - start))


class Screen:
    def __init__(self, page):
        self.page, self.entries, self.word = page, {}, 0

    def paint(self, x, y, color):
        nibble = self.word >> 4 * (color - 1) & 15
        if nibble and 0 <= x < SIDE and 0 <= y < SIDE:
            self.entries[x, y] = (nibble - 1) % 4

    def colors(self, word):
        self.word = word

    def hline(self, x, y, length):
        for i in cut(x, length):
            self.paint(x + i, y, 1)

    def vline(self, x, y, length):
        for i in cut(y, length):
            self.paint(x, y + i, 1)

    def rect(self, x, y, w, h):
        for i in cut(x, w):
            for j in cut(y, h):
                self.paint(x + i, y + j, 1)
                if i in (0, w - 1) or j in (0, h - 1):
                    self.paint(x + i, y + j, 2)

    def oval(self, x, y, w, h):
        """A cell is within where its middle is in the ellipse, and at the edge where a neighbour isn't within."""
        def within(i, j):
            return ((2 * i + 1 - w) * h) ** 2 + ((2 * j + 1 - h) * w) ** 2 <= (w * h) ** 2
        for i in cut(x, w):
            for j in cut(y, h):
                if within(i, j):
                    self.paint(x + i, y + j, 1)
                    if not (within(i - 1, j) and within(i + 1, j) and within(i, j - 1) and within(i, j + 1)):
                        self.paint(x + i, y + j, 2)

    def line(self, x1, y1, x2, y2):
        """The loop of the WASM-4 runtime, from the upper end down. Steps along a row alone are taken together, since
        there may be many."""
        if y2 < y1:
            x1, y1, x2, y2 = x2, y2, x1, y1
        width, height, step = abs(x2 - x1), y2 - y1, 1 if x1 < x2 else -1
        error = width // 2 if width > height else -(height // 2)
        x, y = x1, y1
        while (x, y) != (x2, y2):
            if error >= height:
                times = (error - height) // height + 1 if y < y2 else abs(x2 - x)
                left = min(x, x + step * (times - 1))
                self.hline(left, y, times)
                x, error = x + step * times, error - height * times
                continue
            self.paint(x, y, 1)
            if error > -width:
                error, x = error - height, x + step
            error, y = error + width, y + 1
        self.paint(x2, y2, 1)

    def blit(self, address, x, y, w, h, flags):
        self.blitSub(address, x, y, w, h, 0, 0, w, flags)

    def blitSub(self, address, x, y, w, h, source_x, source_y, stride, flags):
        turned = flags // 8 % 2
        for i in range(w):
            for j in range(h):
                column = w - 1 - i if flags // 2 % 2 != turned else i
                row = h - 1 - j if flags // 4 % 2 else j
                pixel = (source_y + row) * stride + source_x + column
                if flags % 2:
                    value = self.page[address + pixel // 4] >> (6 - 2 * (pixel % 4)) & 3
                else:
                    value = self.page[address + pixel // 8] >> (7 - pixel % 8) & 1
                self.paint(*((x + j, y + i) if turned else (x + i, y + j)), value + 1)

    def codes(self, codes, left, y):
        """A glyph has eight bytes, one a row, the highest bit leftmost. A bit 0 is ink."""
        x = left
        for code in codes:
            if code == 10:
                x, y = left, y + 8
                continue
            if 32 <= code < 256:
                for row in range(8):
                    for column in range(8):
                        bit = carts.FONT[8 * (code - 32) + row] >> (7 - column) & 1
                        self.paint(x + column, y + row, bit + 1)
            x += 8

    def text(self, address, x, y):
        self.codes(source(self.page, "text", address), x, y)

    def textUtf8(self, address, count, x, y):
        self.codes(source(self.page, "textUtf8", address, count), x, y)

    def textUtf16(self, address, count, x, y):
        self.codes(units_of(source(self.page, "textUtf16", address, count)), x, y)


def source(page, name, address, count=0, *_):
    """The bytes of a text: so many, or those before a 0, and none past the page's end."""
    return page[address:address + count] if "Utf" in name else page[address:].split(b"\0")[0]


def units_of(held):
    return [low + 256 * high for low, high in zip(held[::2], held[1::2])]


def drawn(name):
    calls, data = carts.CARTS[name]
    screen = Screen(page_of(data))
    for call, *arguments in calls:
        getattr(screen, call)(*arguments)
    return image(lambda x, y: screen.entries.get((x, y), 0))


def traced(lines):
    """The text of place 0 and of a frame with these lines, which are cut after 128 bytes."""
    def escaped(byte):
        return b"%c" % byte if 32 <= byte <= 126 and byte != 92 else b"\\x%02x" % byte
    return b"frame 0\nframe 1\n" + b"".join(
        b"trace " + b"".join(map(escaped, line[:128])) + b"\n" for line in lines)


# A unit of two bytes that isn't one byte is a question mark.
TRACES = [b"hello", b"end", b"", b"A" * 128, b"lo\0m", b"A" * 128, b"nd", b"A\xff??", b"",
          bytes([31, 32, 65, 91, 92, 93, 126, 127, 255])]
FORMATTED = [b"x=-5 ff ab%", b"\xfb\xff|\xb8", b"<f64> abxyz 80000000 10000", b"-5 255 12472 65533 -2147483648",
             b"qD\xc3%d", b"no places", b"-" * 125 + b"fff"]
# The disk has the page's last six bytes, `saved!`, of which three fit behind 65,533.
DISK_LINES = [b"1024 8 6 3 0 0", b"\0" + b"\x07" * 8 + b"\0", b"\0savsav"]

# What each frame of the longest tone sounds at its first tick.
VOICE = Voice(*carts.LONGEST[1:])


def sounds():
    yield b"frame 0\n"
    for k in range(1, 1_022):
        yield b"frame %d\n" % k
        if k == 1:
            yield b"tone 3 50 0 255 255 255 255 100 100 0 0 0\n"
        if VOICE.ticks < VOICE.total:
            yield b"sound 3 %d %d\n" % (VOICE.level_now(), VOICE.frequency_now())
        VOICE.ticks += 735


def units(calls, data):
    """A unit for each instruction, and what a call weighs. The bytes that texts are made of stay as they are."""
    page, total = page_of(data), 0
    for name, *arguments in calls:
        total += len(arguments) + 1
        if name == "colors":
            total += 1  # the address
        elif "text" in name or "trace" in name:
            total += 64 + len(source(page, name, *arguments))
        else:
            total += {"tone": 16, "diskr": 1_024, "diskw": 1_024}.get(name, 256)
        total += 2 * carts.TAKES.get(name, (0, 0))[1]  # the answer's address, and its store
    return total


def main():
    os.makedirs(os.path.join(HERE, "imports"), exist_ok=True)
    for name, lines in (("traces", TRACES), ("tracefs", FORMATTED), ("disk-calls", DISK_LINES)):
        with open(os.path.join(HERE, "imports", name + ".txt"), "wb") as file:
            file.write(traced(lines))
    for name in ("shapes", "texts"):
        print(name, "out-sha256", hashlib.sha256(drawn(name)).hexdigest())
    print("longest-tone out-sha256", hashlib.sha256(b"".join(sounds())).hexdigest())
    for name, of_cart in carts.CARTS.items():
        print(name, "units", units(*of_cart))


if __name__ == "__main__":
    main()
