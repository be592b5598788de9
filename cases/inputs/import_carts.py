#!/usr/bin/env python3
"""Writes the carts of imports/, their recordings and the font of the texts: carts whose `update` calls imports, one
call after another. wanted/imports.py says what comes of them.

A call is the name of an import and its arguments. What `diskw` and `diskr` return is stored at ANSWERS, one number
behind the other. A call of `colors` isn't one: it stores DRAW_COLORS.
"""
import hashlib
import os
import struct
import sys

HERE = os.path.dirname(os.path.abspath(__file__))
sys.dont_write_bytecode = True
sys.path.insert(0, HERE)
from encoding import hexed, number  # noqa: E402
from make import constant, importing  # noqa: E402

# How many numbers an import takes and returns.
TAKES = {
    "blit": (6, 0), "blitSub": (9, 0), "line": (4, 0), "hline": (3, 0), "vline": (3, 0), "oval": (4, 0), "rect": (4, 0),
    "text": (3, 0), "textUtf8": (4, 0), "textUtf16": (4, 0), "tone": (4, 0), "diskr": (2, 1), "diskw": (2, 1),
    "trace": (1, 0), "traceUtf8": (2, 0), "traceUtf16": (2, 0), "tracef": (2, 0),
}
ANSWERS = 0x2800
FAR, LEAST = 2**31 - 1, -2**31
ALL = 2**32 - 1

# A sprite of 4 by 2 pixels, 1000 0110, and one of two bits, 0123 3210.
SPRITES = {0x2000: b"\x86", 0x2008: b"\x1b\xe4"}
# Every shape, also where it is cut by the screen's sides or lies wholly outside, and of colours that paint nothing.
SHAPES = [
    ("colors", 0x0032), ("rect", -5, -5, FAR, FAR),
    ("colors", 0x0004), ("hline", -1, 5, FAR), ("hline", 3, 8, 0), ("hline", 3, 8, -9), ("hline", LEAST, 9, FAR),
    ("colors", 0x0003), ("vline", 2, -1, FAR), ("vline", 8, 3, -1), ("vline", FAR, 0, 99),
    ("colors", 0x0014), ("rect", -3, 150, 10, 20), ("rect", 140, -9, 30, 12), ("rect", 3, 3, 0, 9),
    ("colors", 0x0041), ("oval", 10, 10, 4, 4), ("oval", 16, 10, 1, 1), ("oval", 18, 10, 0, 5), ("oval", 20, 10, 5, 0),
    ("oval", 22, 10, -3, 5), ("oval", 24, 10, 2, 2), ("oval", 28, 10, 2, 7), ("oval", 32, 10, 12, 12),
    ("oval", 46, 10, 13, 6), ("oval", 62, 10, 3, 10), ("oval", 0, 0, FAR, FAR), ("oval", LEAST, 3, 9, 9),
    ("oval", 120, 120, 90, 61), ("oval", -20, 60, 50, 44),
    ("colors", 0x0040), ("oval", 70, 10, 20, 16), ("colors", 0x0001), ("oval", 92, 10, 20, 16),
    ("colors", 0x0004), ("line", 20, 30, 23, 31), ("line", 33, 31, 30, 30), ("line", 3, 35, 2, 39),
    ("line", 150, 140, 40, 141), ("line", 40, 60, 33, 72), ("line", 90, 30, 17, 64), ("line", 7, 33, 12, 33),
    ("line", 60, 40, 63, 45), ("line", 70, 46, 65, 39), ("line", 76, 40, 80, 44),
    ("colors", 0x0001), ("line", -300, 100, 700, 141), ("line", 5, -150, 140, 300), ("line", 99, 99, 99, 99),
    ("line", LEAST, 0, FAR, 159), ("line", FAR, 139, LEAST, 0), ("line", 50, 170, 60, 400),
    ("colors", 0x0000), ("line", 0, 0, 159, 159), ("rect", 0, 0, 160, 160), ("oval", 0, 0, 160, 160),
    ("colors", 0x0034), ("blit", 0x2000, 100, 50, 4, 2, 0), ("blit", 0x2000, 105, 50, 4, 2, 2),
    ("blit", 0x2000, 110, 50, 4, 2, 4), ("blit", 0x2000, 115, 50, 4, 2, 8), ("blit", 0x2000, 120, 50, 0, 2, 0),
    ("colors", 0x4321), ("blit", 0x2008, 100, 60, 4, 2, 1), ("blit", 0x2008, 158, 60, 4, 2, 15),
    ("blitSub", 0x2008, 130, 60, 2, 2, 1, 0, 4, 1), ("blitSub", 0x2000, 135, 60, 2, 1, 1, 1, 4, 2),
    ("blitSub", 0x2008, 140, 60, 2, 2, 2, 0, 4, 13), ("blitSub", 0x2000, 145, 60, 3, 2, 0, 0, 2, 4),
]

# Texts up to a 0 or the page's end, of so many bytes, of units of two bytes; codes that no glyph is there for move on.
FONT = b"".join(hashlib.sha256(b"%d" % code).digest()[:8] for code in range(32, 256))
LETTERS = {
    0x2000: b"A\nB\0C", 0x2010: b"\x09\xff\x1f\x20\x7f\x01\x80",
    0x2020: bytes([65, 0, 44, 1, 10, 0, 66, 0, 10, 10, 67]), 0x2030: b"clipped", 65_533: b"EN\n",
}
TEXTS = [
    ("colors", 0x0021), ("text", 0x2000, 0, 0), ("text", 65_533, 40, 0), ("textUtf8", 65_534, ALL, 80, 0),
    ("textUtf8", 0x2000, 5, 120, 0),
    ("colors", 0x4302), ("text", 0x2010, -8, 24),
    ("colors", 0x0030), ("textUtf16", 0x2020, 11, 3, 40), ("textUtf16", 65_535, 2, 50, 40),
    ("colors", 0x0043), ("text", 0x2030, 150, 60), ("text", 0x2030, 100, 155), ("text", 0x2030, 20, -3),
    ("text", 0x2030, -30, 70), ("text", 65_536, 0, 100), ("textUtf8", ALL, ALL, 0, 110),
]

# Lines up to a 0 or the page's end, of so many bytes, of units of two bytes; bytes that aren't printed as they are.
TRACED = {
    0x2000: b"hello\0more", 0x2010: bytes([65, 0, 255, 0, 0, 1, 65, 1, 66]),
    0x2020: bytes([31, 32, 65, 91, 92, 93, 126, 127, 255]), 0x2100: b"A" * 200, 65_533: b"end",
}
TRACES = [
    ("trace", 0x2000), ("trace", 65_533), ("trace", 65_536), ("trace", 0x2100), ("traceUtf8", 0x2003, 4),
    ("traceUtf8", 0x2100, 129), ("traceUtf8", 65_534, ALL), ("traceUtf16", 0x2010, 9), ("traceUtf16", 65_535, 2),
    ("trace", 0x2020),
]

# Formats, and the words that they take their arguments from: two of them are the addresses of texts.
WORDS = struct.pack("<iIIIII", -5, 255, 0x30B8, 65_533, 2**31, 65_536)
FORMATS = [
    b"x=%d %x %s%%", b"%c%c|%c", b"%f %s%s %x %x", b"%d %d %d %d %d", b"%q%D%\xc3%%d%", b"no places",
    b"-" * 125 + b"%x%d",
]
FORMATTED = {0x2800: WORDS, 0x30B8: b"ab", 65_533: b"xyz"}
FORMATTED.update({0x2000 + 256 * at: form + b"\0%d" for at, form in enumerate(FORMATS)})
TRACEFS = [("tracef", 0x2000 + 256 * at, 0x2800) for at in range(len(FORMATS))]

# Disk calls that are cut by the disk's room, by the disk's length and by the page's end. Their answers and what they
# read are traced.
DISK_BYTES = {0x2000: b"\x07" * 1_024, 0x2900: b"%d %d %d %d %d %d\0", 65_530: b"saved!"}
DISK_CALLS = [
    ("diskw", 0x2000, 2_000), ("diskr", 0x3000, 8), ("diskw", 65_530, 100), ("diskr", 65_533, 100),
    ("diskr", 65_536, 9), ("diskw", ALL, 9),
    ("tracef", 0x2900, ANSWERS), ("traceUtf8", 0x2FFF, 10), ("traceUtf8", 65_529, 100),
]

# The bytes of a tone's arguments: a peak of 0, of 99 and of 101, all flags of a channel, and the note.
TONES = [
    ("tone", 0x00DC01B8, 0x04030201, volume, flags)
    for volume, flags in [(0xFFFF0032, 0xFFFFFF80), (0x6332, 3), (0x6565, 0), (50, 60), (50, 64)]
]
# The longest tone there is, of a peak and a level past 100.
LONGEST = ("tone", 50, ALL, 0xFFFF, 3)

CARTS = {
    "shapes": (SHAPES, SPRITES),
    "texts": (TEXTS, LETTERS),
    "traces": (TRACES, TRACED),
    "tracefs": (TRACEFS, FORMATTED),
    "disk-calls": (DISK_CALLS, DISK_BYTES),
    "tones": (TONES, {}),
}


def cart(calls, data, before=b"", after=b""):
    """A cart whose `update` makes these calls, with this around them."""
    names = sorted({name for name, *_ in calls} - {"colors"})
    instructions, answers = before, 0
    for name, *arguments in calls:
        numbers = b"".join(constant(n - 2**32 if n > FAR else n) for n in arguments)
        if name == "colors":
            instructions += constant(0x14) + numbers + hexed("3b 01 00")
            continue
        called = numbers + b"\x10" + number(names.index(name))
        if TAKES[name][1]:
            called = constant(ANSWERS + 4 * answers) + called + hexed("36 02 00")
            answers += 1
        instructions += called
    return importing([(name, *TAKES[name]) for name in names], instructions + after, sorted(data.items()))


def recording(of_cart, pads):
    """A recording of version 1 with this first pad in each frame."""
    return (b"W4RC\x01" + hashlib.sha256(of_cart).digest() + struct.pack("<IHI", 100_000, 0, len(pads))
            + b"".join(bytes([pad]) + bytes(8) for pad in pads))


def write(name, data):
    os.makedirs(os.path.join(HERE, "imports"), exist_ok=True)
    with open(os.path.join(HERE, "imports", name), "wb") as file:
        file.write(data)


def main():
    carts = {name: (cart(calls, data), [0]) for name, (calls, data) in CARTS.items()}
    # it plays the tone where pad 1 isn't 0
    carts["longest-tone"] = cart([LONGEST], {}, constant(22) + hexed("2d 00 00 04 40"), b"\x0b"), [1] + [0] * 1_020
    for name, (of_cart, pads) in carts.items():
        write(name + ".wasm", of_cart)
        write(name + ".w4rec", recording(of_cart, pads))
    write("font.bin", FONT)


if __name__ == "__main__":
    main()
