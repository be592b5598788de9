#!/usr/bin/env python3
"""Writes the carts, recordings and long lists beside it. Each cart is listed here as its bytes.

Add a line and run it, or put a file here that was made in any other way.
"""
import hashlib
import os
import struct
import sys

sys.dont_write_bytecode = True
from encoding import hexed, number, section  # noqa: E402
from make_cart import made  # noqa: E402

HERE = os.path.dirname(os.path.abspath(__file__))


def write(name, data):
    path = os.path.join(HERE, name)
    os.makedirs(os.path.dirname(path), exist_ok=True)
    with open(path, "wb") as file:
        file.write(data)


def code(*bodies):
    """A code section of these bodies: locals, instructions, end."""
    return section(10, number(len(bodies)) + b"".join(number(len(body)) + body for body in bodies))


# The smallest cart: its preamble, its sections of types, imports and functions, its exports and its code.
PREAMBLE = hexed("00 61 73 6d 01 00 00 00")
MEMORY = hexed("02 0f 01 03 65 6e 76 06 6d 65 6d 6f 72 79 02 00 01")
FRONT = PREAMBLE + hexed("01 04 01 60 00 00") + MEMORY + hexed("03 02 01 00")
EXPORTS = hexed("07 0a 01 06 75 70 64 61 74 65 00 00")
CODE = hexed("0a 04 01 02 00 0b")


def with_body(body):
    """The smallest cart, with this body of `update`."""
    return FRONT + EXPORTS + code(hexed(body))


def with_sections(middle, back):
    """The smallest cart, with these sections before its exports and these after them."""
    return FRONT + hexed(middle) + EXPORTS + hexed(back)


def constant(n):
    """i32.const."""
    spelled = b"\x41"
    while not -64 <= n < 64:
        spelled += bytes([n % 128 + 128])
        n >>= 7
    return spelled + bytes([n % 128])


def call(function, *arguments):
    """A call of the import with this index, with constants."""
    return b"".join(map(constant, arguments)) + b"\x10" + number(function)


def store(address, instructions):
    """i32.store of what these instructions leave."""
    return constant(address) + instructions + hexed("36 02 00")


def importing(functions, instructions, data=(), variables=0):
    """A cart whose `update` does this. It imports functions of `env`: each has its name and how many i32 it
    takes and gives. `data` has addresses and the bytes that stand there at first. `variables` are of i32.
    """
    def name(text):
        return number(len(text)) + text.encode()

    types = [hexed("60 00 00")]
    types += [b"\x60" + number(takes) + b"\x7f" * takes + number(gives) + b"\x7f" * gives
              for _, takes, gives in functions]
    imports = [name("env") + name(text) + b"\x00" + number(1 + at)
               for at, (text, _, _) in enumerate(functions)]
    imports.append(name("env") + name("memory") + hexed("02 00 01"))
    segments = [b"\x00" + constant(address) + b"\x0b" + number(len(held)) + held for address, held in data]
    return PREAMBLE + b"".join([
        section(1, number(len(types)) + b"".join(types)),
        section(2, number(len(imports)) + b"".join(imports)),
        section(3, hexed("01 00")),
        section(7, b"\x01" + name("update") + b"\x00" + number(len(functions))),
        code((number(1) + number(variables) + b"\x7f" if variables else b"\x00") + instructions + b"\x0b"),
        section(11, number(len(segments)) + b"".join(segments)) if segments else b"",
    ])


# It stores pad 1 into the first byte of the framebuffer.
FIRST = with_body("00 41 a0 01 41 16 2d 00 00 3a 00 00 0b")

# It adds the number of four pads to the one at 8,192.
ADDS = " 41 80 c0 00 41 80 c0 00 28 02 00 41 16 28 02 00 6a 36 02 00 "

NESTED = FRONT + EXPORTS + code(b"\x00" + b"\x02\x40" * 20_000 + b"\x0b" * 20_001)



def counts_down(turns):
    """A cart whose frame counts down from a number of turns, and takes 5 units for each and 3 more."""
    return with_body("01 01 7f" + constant(turns).hex() + "21 00 03 40 20 00 41 01 6b 22 00 0d 00 0b 0b")


TONE = ("tone", 4, 0)
DISKW = ("diskw", 2, 1)
DISKR = ("diskr", 2, 1)
TRACE = ("trace", 1, 0)
TRACEF = ("tracef", 2, 0)

# The tones of the cart `plays-by-pad`, each as its four arguments: frequency, duration, volume, flags. Pad 1
# is the tone's number, counted from 1.
TONES = [
    # 1: a pulse, high for half of its period; 2: the other pulse, going down, of all four parts, on the left
    (11_025, 1, 100, 8),
    (440 | 220 << 16, 0x01_01_01_01, 80 << 8 | 40, 17),
    # 3: a triangle, on the right; 4: noise that rises and fades
    (1_000, 3, 60, 34),
    (5_000 | 30_000 << 16, 0x00_00_02_01, 30, 3),
    # 5: a pulse in note mode; 6: a tone without length
    (330, 2, 100, 68),
    (0, 0, 0, 0),
    # 7: a pulse above 44,100 hertz, of pan 3; 8: noise whose phase may come round twice in a tick
    (50_000, 1, 7, 60),
    (65_535, 1, 100, 19),
    # 9: a level past 100; 10: a triangle that falls from 100 to 25
    (700, 2, 255, 4),
    (262, 0x00_02_00_00, 25, 2),
]


def blits_by_pad():
    """What `update` does: 52 times 3 rows of cells, each three rows below the one before; the lowest four bits of
    pad 1 are the flags, the others the width less 1. At x from -12 to 12, and then from 148 to 174.
    """
    number_of, pad = constant(0x1A00) + hexed("2d 00 00"), constant(22) + hexed("2d 00 00")
    less, same, sum_of, product, choice = map(hexed, ("49", "71", "6a", "6c", "1b"))
    colors = constant(0x1B00) + number_of + constant(3) + same + constant(2) + product + sum_of + hexed("2f 01 00")
    x = (number_of + constant(-12) + sum_of + number_of + constant(123) + sum_of
         + number_of + constant(25) + less + choice)
    y = number_of + constant(3) + product
    width = pad + constant(4) + hexed("76") + constant(1) + sum_of
    blit = (constant(0x2000) + x + y + width + constant(3) + number_of + constant(7) + same + constant(1)
            + constant(19) + pad + constant(15) + same + hexed("10 00"))
    begins = constant(0x1A00) + constant(0) + hexed("3a 00 00")
    more = constant(0x1A00) + number_of + constant(1) + sum_of + hexed("3a 00 00")
    again = number_of + constant(52) + less + hexed("0d 00")
    return begins + hexed("03 40") + constant(0x14) + colors + hexed("3b 01 00") + blit + more + again + b"\x0b"


# The blits of the cart `blits-within-pages`, each as colours and ptr, x, y, width, height, column, row, stride:
# over themselves, from before the framebuffer, across its end, across the page's end, and clipped at each side.
BLITS_WITHIN = [
    (0x1342, 560, 3, 12, 70, 30, 0, 0, 160), (0x4021, 160, -7, 40, 41, 9, 2, 1, 160),
    (0x1342, 150, 90, -4, 33, 11, 1, 0, 37), (0x2403, 6549, 149, 60, 21, 10, 3, 1, 23),
    (0x1342, 65529, 40, 151, 19, 14, 0, 0, 19), (0xFED0, 6511, 2, 90, 18, 60, 1, 1, 5),
    (0x1342, 4000, -1, 100, 162, 50, 0, 2, 160), (0x3210, 161, 71, 3, 80, 80, 5, 0, 97),
]


def blits_within_pages():
    """What `update` does: it fills the screen, and then does each of the blits. Pad 1 is their flags."""
    blits = call(0, 0x2000, 0, 0, 160, 160, 0, 0, 3, 1)
    for colors, *arguments in BLITS_WITHIN:
        blits += constant(0x14) + constant(colors) + hexed("3b 01 00")
        blits += b"".join(map(constant, arguments)) + constant(22) + hexed("2d 00 00") + hexed("10 00")
    return constant(0x14) + constant(0x1342) + hexed("3b 01 00") + blits


def plays_by_pad():
    """What `update` does: where pad 1 isn't 0, it plays the tone of that number."""
    pad = constant(22) + hexed("2d 00 00")
    loads = b"".join(
        pad + constant(4) + hexed("74") + b"\x28\x02" + number(0x2000 - 16 + 4 * at) for at in range(4))
    return pad + hexed("04 40") + loads + call(0) + b"\x0b"


def draws_by_pad():
    """What `update` does: it paints the screen in palette index 2, and then shapes in the indices 1 and 3.
    Pad 1 says which: 1 and 2 horizontal lines, 3 and 4 vertical ones, 5 and 6 rectangles, 7 and 8 ovals,
    of the widths 1 to 12 at each place from -12 to 12, and as far from the screen's other side.
    """
    step, shape, pad = hexed("20 00"), hexed("20 01"), constant(22) + hexed("2d 00 00")
    low = shape + constant(12) + hexed("6e") + constant(12) + hexed("6b")
    high = shape + constant(12) + hexed("6e") + constant(136) + hexed("6a")
    size = shape + constant(12) + hexed("70") + constant(1) + hexed("6a")

    def both(function, of):
        return b"".join(of(place) + hexed("10") + number(function) for place in (low, high))

    def where(pads, instructions):
        pair = pad + constant(1) + hexed("6b") + constant(2) + hexed("6e")
        return pair + constant(pads) + hexed("46 04 40") + instructions + b"\x0b"

    def colors(word):
        return constant(20) + constant(word) + hexed("3b 01 00")

    second = pad + constant(1) + hexed("6b") + constant(2) + hexed("70")
    return (colors(0x03) + call(2, 0, 0, 160, 160) + colors(0x42) + hexed("03 40")
            + step + second + constant(150) + hexed("6c 6a 21 01")
            + where(0, both(0, lambda place: place + step + size))
            + where(1, both(1, lambda place: step + place + size))
            + where(2, both(2, lambda place: place + step + size + constant(5)))
            + where(3, both(3, lambda place: place + step + size + constant(5)))
            + step + constant(1) + hexed("6a 22 00") + constant(150) + hexed("48 0d 00 0b"))


CARTS = {
    "smallest": with_body("00 0b"),
    "first": FIRST,

    # the code section's size in five bytes, and with an unused bit; no code; a byte after the code
    "long-size": with_sections("", "0a 84 80 80 80 00 01 02 00 0b"),
    "size-with-an-unused-bit": with_sections("", "0a 84 80 80 80 10 01 02 00 0b"),
    "no-code": with_sections("", ""),
    "byte-after-the-code": with_sections("", "0a 04 01 02 00 0b 00"),
    # i32.const 6560 in two bytes, in three, and without its last byte
    "constant": with_body("00 41 a0 33 1a 0b"),
    "long-constant": with_body("00 41 a0 b3 00 1a 0b"),
    "cut-constant": with_body("00 41 a0 9a 0b"),

    # pad 2 in the system flags, and pad 1 in the byte of the framebuffer that it names
    "sets-flags": with_body("00 41 1f 41 17 2d 00 00 3a 00 00 41 16 2d 00 00 41 16 2d 00 00 3a 00 a0 01 0b"),
    # f64.const after unreachable
    "float": with_body("00 00 44 00 00 00 00 00 00 00 00 1a 0b"),
    # i32.trunc_sat_f32_s; and memory.init, which is left out
    "saturating-truncation": with_body("00 00 fc 00 1a 0b"),
    "memory-init": with_body("00 fc 08 00 00 0b"),
    # i32.add after unreachable: of operands that nobody pushes, and with an i64
    "add-after-unreachable": with_body("00 00 6a 1a 0b"),
    "add-of-an-i64": with_body("00 00 42 00 6a 1a 0b"),
    "if-without-else": with_body("00 41 01 04 7f 41 02 0b 1a 0b"),
    # 2^32 - 1 locals of i32, one more, and 2^32 - 1 of f64
    "many-locals": with_body("01 ff ff ff ff 0f 7f 0b"),
    "too-many-locals-to-count": with_body("02 ff ff ff ff 0f 7f 01 7f 0b"),
    "many-float-locals": with_body("01 ff ff ff ff 0f 7c 0b"),

    # a table of 65,537 entries
    "large-table": with_sections("04 06 01 70 00 81 80 04", CODE.hex()),
    # a start function that isn't there
    "no-such-start": with_sections("", "08 01 01" + CODE.hex()),
    # data that begins at 65,535 and has 2 bytes
    "data-past-the-page": with_sections("", CODE.hex() + "0b 0a 01 00 41 ff ff 03 0b 02 00 00"),
    # a vector of types that its section hasn't room for
    "cut-vector": PREAMBLE + hexed("01 05 ff ff ff ff 0f"),
    "no-memory": PREAMBLE,
    "unknown-import": PREAMBLE + MEMORY.replace(b"memory", b"memorz"),
    "memory-of-two-pages": PREAMBLE + MEMORY[:-1] + b"\x02",
    "no-update": PREAMBLE + MEMORY,
    "update-is-a-memory": PREAMBLE + MEMORY + EXPORTS[:-2] + b"\x02\x00",
    # a data count of 0, which is right, and of 1
    "data-count": with_sections("", "0c 01 00" + CODE.hex()),
    "wrong-data-count": with_sections("", "0c 01 01" + CODE.hex()),
    "65536-zeros": bytes(65_536),
    "65537-zeros": bytes(65_537),
    "nested-blocks": NESTED,

    "three-nops": with_body("00 01 01 01 0b"),
    "endless-loop": with_body("00 03 40 0c 00 0b 0b"),
    "calls-itself": with_body("00 10 00 0b"),
    "unreachable": with_body("00 00 0b"),
    "divides-by-zero": with_body("00 41 01 41 00 6d 1a 0b"),
    # it loads at 65,535 and pad 1 more
    "loads-by-pad": with_body("00 41 ff ff 03 41 16 2d 00 00 6a 2d 00 00 1a 0b"),
    # four bytes stored at 65,533
    "store-past-the-page": with_body("00 41 fd ff 03 41 7f 36 02 00 0b"),
    # pad 1 in the first byte of the framebuffer, and then the same
    "pixels-then-a-trap": with_body("00 41 a0 01 41 16 2d 00 00 3a 00 00 41 fd ff 03 41 7f 36 02 00 0b"),
    # all four pads in the first bytes of the framebuffer; and both coordinates of the mouse
    "four-pads": with_body("00 41 a0 01 41 16 28 02 00 36 02 00 0b"),
    "mouse": with_body("00 41 a0 01 41 1a 28 02 00 36 02 00 0b"),
    # the pads are added to the number at 8,192, which is then stored in the first bytes of the framebuffer
    "adds-pads": with_body("00" + ADDS + "41 a0 01 41 80 c0 00 28 02 00 36 02 00 0b"),
    # and it loads at 65,533 and that number more
    "adds-pads-up-to-2": with_body("00" + ADDS + "41 fd ff 03 41 80 c0 00 28 02 00 6a 2d 00 00 1a 0b"),
    # i32.extend8_s of 128 stored in the first four bytes of the framebuffer
    "extends-a-byte": with_body("00 41 a0 01 41 80 01 c0 36 02 00 0b"),
    # memory.fill of the framebuffer with 0x55
    "fills": with_body("00 41 a0 01 41 d5 00 41 80 32 fc 0b 00 0b"),
    # memory.copy of 3 bytes from address 4 to 5, in the palette; and of 4 bytes to 65,533
    "copies-the-palette": with_body("00 41 05 41 04 41 03 fc 0a 00 00 0b"),
    "copy-past-the-page": with_body("00 41 fd ff 03 41 00 41 04 fc 0a 00 00 0b"),

    # frames of 300,003 units and of 60,003; and one that takes what 1,400 of the first take
    "counts-down": counts_down(60_000),
    "counts-down-from-12000": counts_down(12_000),
    "counts-down-once": counts_down(84_000_000),
    # and of 5,003
    "counts-down-from-1000": counts_down(1_000),
    # the number of frames so far, at 8,192 and in the first bytes of the framebuffer
    "counts-frames": with_body("00 41 80 c0 00 41 80 c0 00 28 02 00 41 01 6a 36 02 00"
                               "41 a0 01 41 80 c0 00 28 02 00 36 02 00 0b"),
    # globals -1, of i32, to which each frame adds 1, and -2, of i64
    "counts-in-a-global": FRONT + hexed("06 0b 02 7f 01 41 7f 0b 7e 00 42 7e 0b") + EXPORTS
                          + code(hexed("00 23 00 41 01 6a 24 00 0b")),
    "draws-by-pad": importing(
        [("hline", 3, 0), ("vline", 3, 0), ("rect", 4, 0), ("oval", 4, 0)], draws_by_pad(), variables=2),
    # DRAW_COLORS is 0x0002; `A`, a newline and `B` at (0, 0)
    "letters": importing(
        [("text", 3, 0)], call(0, 0x2000, 0, 0), [(0x14, b"\x02\x00"), (0x2000, b"A\nB\x00")]),
    "blits-by-pad": importing(
        [("blitSub", 9, 0)], blits_by_pad(),
        [(0x1B00, struct.pack("<4H", 0x1342, 0x4021, 0x2403, 0xFED0)),
         (0x2000, bytes((i * i * 7 + i * 5 + 27) % 256 for i in range(64)))]),
    "blits-within-pages": importing(
        [("blitSub", 9, 0)], blits_within_pages(),
        [(6560, bytes((i * 37 + 11) % 256 for i in range(64))),
         (0x2000, bytes((i * i * 7 + i * 5 + 27) % 256 for i in range(160))),
         (65530, bytes((i * 91 + 45) % 256 for i in range(6)))]),
    # `_start` calls the tone: 440 to 220 hertz, attack 4, sustain 2, release 4, volume 50
    "one-tone": hexed("""
        00 61 73 6d 01 00 00 00 01 0b 02 60 00 00 60 04 7f 7f 7f 7f 00 02 1a 02 03 65 6e 76 04 74 6f 6e 65
        00 01 03 65 6e 76 06 6d 65 6d 6f 72 79 02 00 01
        03 03 02 00 00 07 13 02 06 75 70 64 61 74 65 00 01 06 5f 73 74 61 72 74 00 02
        0a 17 02 02 00 0b 12 00 41 b8 83 f0 06 41 82 88 80 20 41 32 41 00 10 00 0b"""),
    # first frequencies 1 to 65 on channel 0, each one frame of sustain at level 100
    "65-tones": importing([TONE], b"".join(call(0, first, 1, 100, 0) for first in range(1, 66))),
    # the last tone that is listed has no duration, and the one that isn't listed sounds
    "65-tones-and-a-stop": importing([TONE], call(0, 440, 1, 100, 0) * 63 + call(0, 440, 0, 100, 0)
                                     + call(0, 440, 1, 100, 0)),
    "plays-by-pad": importing(
        [TONE], plays_by_pad(), [(0x2000, b"".join(struct.pack("<4I", *tone) for tone in TONES))]),
    # a pulse of three frames, and then a trap
    "tone-then-a-trap": importing([TONE], call(0, 441, 3, 50, 8) + b"\x00"),
    # the second has no duration
    "two-tones": importing([TONE], call(0, 440, 1, 100, 0) + call(0, 440, 0, 100, 0)),
    # tracef with -5, 255 and the address of `ab`
    "traces-a-line": importing(
        [TRACEF], call(0, 0x2000, 0x2010),
        [(0x2000, b"x=%d %x %s%%\x00"), (0x2010, struct.pack("<iII", -5, 255, 0x2020)),
         (0x2020, b"ab\x00")]),
    "33-traces": importing([TRACE], call(0, 0x2000) * 33, [(0x2000, b"a\x00")]),
    # diskw of 2,000 bytes at 8,192, where `abc` stands
    "writes-a-long-disk": importing([DISKW], call(0, 0x2000, 2_000) + b"\x1a", [(0x2000, b"abc")]),
    # diskw of 100 bytes at 65,530
    "writes-a-disk-at-the-end": importing([DISKW], call(0, 65_530, 100) + b"\x1a"),
    # diskw of 2,000 bytes at 8,192, diskr of 8 at 12,288, diskw of 100 at 65,530; their answers are traced
    "counts-of-the-disk": importing(
        [DISKW, DISKR, TRACEF],
        store(0x2800, call(0, 0x2000, 2_000)) + store(0x2804, call(1, 0x3000, 8))
        + store(0x2808, call(0, 65_530, 100)) + call(2, 0x2900, 0x2800),
        [(0x2900, b"%d %d %d\x00")]),
}

# A cart up to its bodies. Its types are [] to [], [i32 i64] to [i32] and [] to [i64]. It has a function of
# the first type, `update`, and one of the second, a table of one entry, an i32 that can be set, and an i64
# that can't.
TYPED_FRONT = hexed("""
    00 61 73 6d 01 00 00 00 01 0e 03 60 00 00 60 02 7f 7e 01 7f 60 00 01 7e
    02 0f 01 03 65 6e 76 06 6d 65 6d 6f 72 79 02 00 01 03 03 02 00 01 04 04 01 70 00 01
    06 0b 02 7f 01 41 00 0b 7e 00 42 00 0b 07 0a 01 06 75 70 64 61 74 65 00 00""")

# The bodies of `update`, which has a local of i32 and one of i64. The second function is `local.get 0`.
UPDATES = """
01
41 00 01
00
41 00 00
41 00 1a
1a
41 00 41 00 41 00 1b 1a
42 00 42 00 41 00 1b 1a
41 00 42 00 41 00 1b 1a
41 00 41 00 42 00 1b 1a
20 01 a7 1a
20 00 a7 1a
20 02 1a
41 00 21 00
42 00 21 00
41 00 22 00 1a
41 00 22 00
23 01 a7 1a
23 00 a7 1a
23 02 1a
41 00 24 00
42 00 24 00
42 00 24 01
02 7f 41 00 0b 1a
02 7f 42 00 0b 1a
02 40 41 00 0b
41 00 02 40 1a 0b
03 7f 41 00 0b 1a
03 7f 0b 1a
03 7f 41 00 0d 00 41 00 0b 1a
02 7f 41 00 0d 00 41 00 0b 1a
41 00 04 40 0b
42 00 04 40 0b
41 00 04 7f 41 00 05 41 00 0b 1a
41 00 04 7f 41 00 05 42 00 0b 1a
41 00 04 7f 41 00 0b 1a
02 7f 41 00 0c 00 0b 1a
02 7f 0c 00 0b 1a
0c 00
0c 01
41 00 0d 00
42 00 0d 00
41 00 0e 01 00 00
42 00 0e 01 00 00
02 7f 41 00 41 00 0e 01 00 00 0b 1a
02 7f 41 00 41 00 0e 01 00 01 0b 1a
0f
41 00 0f
41 00 42 00 10 01 1a
42 00 41 00 10 01 1a
10 02
41 00 42 00 41 00 11 01 00 1a
41 00 11 02 80 00 a7 1a
41 00 42 00 42 00 11 01 00 1a
41 00 11 03 00
41 00 11 00 01
42 00 a7 1a
41 00 a7 1a
41 00 67 1a
42 00 67 1a
42 00 42 00 7c a7 1a
42 00 41 00 7c 1a
42 00 50 67 1a
41 00 50 1a
42 00 42 00 51 67 1a
42 00 42 00 51 79 1a
42 00 a7 67 1a
41 00 ac 79 1a
41 00 ad 67 1a
41 00 c0 67 1a
42 00 c1 1a
42 00 c4 79 1a
41 00 c2 1a
41 00 28 02 00 1a
41 00 28 03 00 1a
42 00 28 02 00 1a
41 00 35 02 00 a7 1a
41 00 35 03 00 a7 1a
41 00 41 00 36 02 00
41 00 42 00 36 02 00
41 00 42 00 3d 01 00
41 00 42 00 3d 02 00
3f 00 1a
3f 00 a7 1a
41 00 40 00 1a
42 00 40 00 1a
41 00 41 00 41 00 fc 0a 00 00
41 00 41 00 42 00 fc 0a 00 00
41 00 41 00 41 00 fc 0b 00
41 00 42 00 41 00 fc 0b 00
00 6a 1a
00 7c a7 1a
00 41 00 6a 1a
00 42 00 6a 1a
00 6a a7 1a
00 1b 6a 1a
00 1b 7c 1a
00 42 00 41 00 1b 7c 1a
00 42 00 41 00 1b 6a 1a
00 41 00 42 00 41 00 1b 1a
00 37 03 00
00 37 04 00
00 10 01 1a
00 10 01 a7 1a
00 fc 0a 00 00
00 42 00 fc 0b 00
0c 00 6a 1a
0f 42 00 6a 1a
02 40 0c 00 6a 1a 0b 6a
02 7f 00 0b 1a
02 7f 00 42 00 0b 1a
02 7f 00 41 00 41 00 0b 1a
41 00 04 7f 41 00 0c 00 05 41 00 0b 1a
41 00 04 7f 41 00 0c 00 05 0b 1a
02 7f 00 0e 01 00 01 0b 1a
02 7f 02 7e 00 0e 01 00 01 0b 1a 41 00 0b 1a
02 7f 02 7f 00 0e 01 00 01 0b 1a 41 00 0b 1a
00 20 02 1a
00 0c 01
"""

# The bodies of the second function; `update` has none.
SECONDS = """
20 00
20 01

20 00 20 00
20 00 0f
20 01 0f
0f
20 00 0c 00
20 01 0c 00
00
"""


# The instructions of floats: those that access the memory, constants, opcodes alone, and saturating truncations.
FLOATS = [f"{code:02x} 00 00" for code in (0x2A, 0x2B, 0x38, 0x39)] + ["43" + " 00" * 4, "44" + " 00" * 8]
FLOATS += [f"{code:02x}" for first, end in ((0x5B, 0x67), (0x8B, 0xA7), (0xA8, 0xAC), (0xAE, 0xC0))
           for code in range(first, end)]
FLOATS += [f"fc {code:02x}" for code in range(8)]


def two_bodies(update, second):
    locals_of_update = hexed("02 01 7f 01 7e")
    return TYPED_FRONT + code(locals_of_update + hexed(update) + b"\x0b", b"\x00" + hexed(second) + b"\x0b")


def named(body):
    return body.replace(" ", "-") or "nothing"


def recording_front(version, cart, budget, disk, count):
    """The bytes of a recording before its frames."""
    digest = hashlib.sha256(CARTS[cart]).digest()
    return (b"W4RC" + bytes([version]) + digest + struct.pack("<IH", budget, len(disk)) + disk
            + struct.pack("<I", count))


def recording(cart, budget, pads, disk=b""):
    """A recording of version 1, with this first pad in each frame."""
    frames = b"".join(bytes([pad]) + bytes(8) for pad in pads)
    return recording_front(1, cart, budget, disk, len(pads)) + frames


def recording_2(cart, budget, pads, flags, disk=b""):
    """A recording of version 2, with this first pad in each frame, and this flag: 1 for a reset, else 0."""
    frames = b"".join(bytes([pad]) + bytes(8) + bytes([flag]) for pad, flag in zip(pads, flags, strict=True))
    return recording_front(2, cart, budget, disk, len(pads)) + frames


def of_frames(cart, budget, frames, disk=b""):
    """A recording of version 2 with these frames of ten bytes."""
    return recording_front(2, cart, budget, disk, len(frames)) + b"".join(map(hexed, frames))


# Zeros; and four pads, the mouse at (-5, 7), its right button, and a reset.
TWO_FRAMES = ["00 00 00 00 00 00 00 00 00 00", "ff 01 02 03 fb ff 07 00 02 01"]

RECORDINGS = {
    "smallest": recording("smallest", 100_000, [0]),
    "first": recording("first", 100_000, [0, 0]),
    "first-27": recording("first", 100_000, [27, 0]),
    "first-0-1-2": recording("first", 100_000, [0, 1, 2]),
    "first-version-2": recording_2("first", 100_000, [0, 0], [0, 0]),
    "smallest-blank": recording_2("smallest", 100_000, [], []),
    "smallest-blank-of-1": recording_2("smallest", 1, [], []),
    "first-of-1": recording("first", 100_000, [0]),
    "first-of-3": recording("first", 100_000, [0, 0, 0]),
    "first-1-1-2": recording("first", 100_000, [1, 1, 2]),
    "smallest-of-9": recording("smallest", 100_000, [0] * 9),
    "smallest-of-10": recording("smallest", 100_000, [0] * 10),
    "smallest-of-120": recording("smallest", 100_000, [0] * 120),
    "smallest-of-120-and-a-pad": recording("smallest", 100_000, [0] * 10 + [1] + [0] * 109),
    "smallest-of-36000": recording("smallest", 100_000, [0] * 36_000),
    "first-0-1-2-version-2": recording_2("first", 100_000, [0, 1, 2], [0, 0, 0]),
    # a budget of 0; a byte less and a byte more; a disk of 1,025 bytes
    "first-without-budget": recording("first", 0, [0, 0]),
    "first-cut": recording("first", 100_000, [0, 0])[:-1],
    "first-and-a-byte": recording("first", 100_000, [0, 0]) + b"\x00",
    "first-version-2-cut": recording_2("first", 100_000, [0, 0], [0, 0])[:-1],
    "first-version-2-and-a-byte": recording_2("first", 100_000, [0, 0], [0, 0]) + b"\x00",
    "first-with-a-long-disk": recording("first", 100_000, [0, 0], bytes(1_025)),
    # another version; frames of the other version; a flag of 2
    "first-version-3": b"W4RC\x03" + recording_2("first", 100_000, [0, 0], [0, 0])[5:],
    "first-version-1-in-tens": b"W4RC\x01" + recording_2("first", 100_000, [0, 0], [0, 0])[5:],
    "first-version-2-in-nines": b"W4RC\x02" + recording("first", 100_000, [0, 0])[5:],
    "first-with-a-flag-of-2": recording_2("first", 100_000, [0, 0], [0, 2]),
    "smallest-and-a-byte": recording("smallest", 100_000, [0]) + b"\x00",
    "three-nops-of-3": recording("three-nops", 3, [0]),
    "three-nops-of-2": recording("three-nops", 2, [0]),
    "endless-loop": recording("endless-loop", 1_000, [0]),
    "calls-itself-of-4096": recording("calls-itself", 4_096, [0]),
    "calls-itself-of-4095": recording("calls-itself", 4_095, [0]),
    "nested-blocks-of-20000": recording("nested-blocks", 20_000, [0]),
    "nested-blocks-of-19999": recording("nested-blocks", 19_999, [0]),
    "unreachable": recording("unreachable", 100_000, [0]),
    "divides-by-zero": recording("divides-by-zero", 100_000, [0]),
    "loads-by-pad": recording("loads-by-pad", 100_000, [0, 1, 0]),
    "loads-by-pad-0": recording("loads-by-pad", 100_000, [0, 0, 0]),
    # pad 1 is 1, 0 and 0: without a reset, and with one in the second frame
    "loads-by-pad-1": recording("loads-by-pad", 100_000, [1, 0, 0]),
    "loads-by-pad-reset": recording_2("loads-by-pad", 100_000, [1, 0, 0], [0, 1, 0]),
    "loads-by-pad-reset-with-a-disk": recording_2("loads-by-pad", 100_000, [1, 0, 0], [0, 1, 0], b"xyz"),
    "store-past-the-page": recording("store-past-the-page", 100_000, [1, 2, 3]),
    "pixels-then-a-trap": recording("pixels-then-a-trap", 100_000, [1, 2, 3]),
    "extends-a-byte": recording("extends-a-byte", 100_000, [0]),
    "fills-of-104": recording("fills", 104, [0]),
    "fills-of-103": recording("fills", 103, [0]),
    "copies-the-palette": recording("copies-the-palette", 100_000, [0]),
    "copy-past-the-page": recording("copy-past-the-page", 100_000, [0]),
    "letters": recording("letters", 100_000, [0]),
    "draws-by-pad": recording("draws-by-pad", 1_000_000, range(1, 9)),
    "blits-by-pad": recording("blits-by-pad", 10_000_000, range(192)),
    "blits-within-pages": recording("blits-within-pages", 10_000_000, range(16)),
    "one-tone": recording("one-tone", 100_000, [0] * 10),
    "65-tones": recording("65-tones", 100_000, [0]),
    "65-tones-and-a-stop": recording("65-tones-and-a-stop", 100_000, [0]),
    "two-tones": recording("two-tones", 100_000, [0]),
    "33-traces": recording("33-traces", 100_000, [0]),
    "counts-of-the-disk": recording("counts-of-the-disk", 100_000, [0], b"xyz"),
    "traces-a-line": recording("traces-a-line", 100_000, [0]),
    "writes-a-long-disk": recording("writes-a-long-disk", 100_000, [0], b"xyz"),
    "first-5-9": recording("first", 100_000, [5, 9]),
    "first-5-9-5-5": recording("first", 100_000, [5, 9, 5, 5]),
    "first-128-127": recording("first", 100_000, [128, 127]),
    "adds-pads": recording("adds-pads", 100_000, [200, 100, 0, 50]),
    "adds-pads-reset": recording_2("adds-pads", 100_000, [3, 4, 5], [0, 0, 1]),
    "each-tone": recording("plays-by-pad", 100_000, [1, 0, 2, 0, 3, 0, 0, 0, 4, 0, 0, 0, 8, 0, 10, 0, 0]),
    # a tone is cut off, by another or by none, and channels sound together
    "tones-together": recording(
        "plays-by-pad", 100_000, [5, 1, 9, 6, 7, 3, 2, 4, 9, 0, 5, 0, 9, 0, 0]),
    "tones-and-a-reset": recording_2(
        "plays-by-pad", 100_000, [3, 9, 0, 4, 0, 2], [0, 0, 1, 0, 0, 1]),
    "pulse": recording("plays-by-pad", 100_000, [1, 0]),
    "one-tone-reset": recording_2("one-tone", 100_000, [0] * 5, [0, 0, 1, 0, 0]),
    "one-tone-not-begun": recording_2("one-tone", 100_000, [], []),
    "tone-then-a-trap": recording("tone-then-a-trap", 100_000, [0] * 4),
    "writes-a-long-disk-not-begun": recording("writes-a-long-disk", 100_000, [], b"xyz"),
    "smallest-longest": recording_2("smallest", 100_000, [0] * 36_000, [0] * 36_000, bytes(1_024)),
    "smallest-longest-and-a-byte":
        recording_2("smallest", 100_000, [0] * 36_000, [0] * 36_000, bytes(1_024)) + b"\x00",
    "writes-a-disk-at-the-end": recording("writes-a-disk-at-the-end", 100_000, [0], b"xyz"),
    "counts-down-of-1000": recording("counts-down", 400_000, [0] * 1_000),
    "counts-down-from-12000-of-400":
        recording("counts-down-from-12000", 400_000, [k % 256 for k in range(400)]),
    "counts-down-once": recording("counts-down-once", 500_000_000, [0]),
    "counts-down-from-1000-of-36000": recording("counts-down-from-1000", 400_000, [0] * 36_000),
    "counts-in-a-global": recording("counts-in-a-global", 100_000, [0]),
    "first-1-0": recording("first", 100_000, [1, 0]),
    "first-5-4": recording("first", 100_000, [5, 4]),
    "first-9-9": recording("first", 100_000, [9, 9]),
    "first-0-3-4": recording("first", 100_000, [0, 3, 4]),
    "first-of-100-and-0": recording("first", 100_000, [100, 0]),
    "endless-loop-of-50": recording("endless-loop", 50, [0, 0]),
    "pulse-and-a-triangle": recording("plays-by-pad", 100_000, [1, 3]),
    "writes-a-long-disk-without-a-disk": recording("writes-a-long-disk", 100_000, [0]),
    # the same of two carts, and with one frame and none
    "smallest-two-frames": of_frames("smallest", 7, TWO_FRAMES, b"ab"),
    "first-two-frames": of_frames("first", 7, TWO_FRAMES, b"ab"),
    "smallest-no-frames": of_frames("smallest", 7, [], b"ab"),
    "smallest-a-kilobyte": of_frames("smallest", 7, [], b"a" * 1_024),
    "smallest-a-kilobyte-of-1": of_frames("smallest", 7, TWO_FRAMES[:1], b"a" * 1_024),
    "smallest-of-2": recording("smallest", 100_000, [0, 0]),
    "counts-frames-of-600": recording("counts-frames", 100_000, [0] * 600),
    # pads 1 and 2
    "sets-flags": of_frames(
        "sets-flags", 100_000, [f"{one:02x} {two:02x}" + " 00" * 8 for one, two in ((1, 1), (2, 1), (3, 0), (4, 0))]),
    "counts-frames-of-1024": recording("counts-frames", 100_000, [0] * 1_024),
}

# The same file by a name of 255 bytes, and by one of 256.
A_NAME = b"inputs/recordings/first.w4rec\n"
NAME_OF_255 = b"inputs/" + b"./" * 113 + b"recordings/first.w4rec"
NAME_OF_256 = NAME_OF_255.replace(b"/", b"//", 1)
assert (len(NAME_OF_255), len(NAME_OF_256)) == (255, 256)

LISTS = {
    "256-names": A_NAME * 256,
    # an empty line is counted and is no name
    "256-names-and-an-empty-line": A_NAME * 255 + b"\n" + A_NAME,
    "257-names": b"a\n" * 257,
    "257-names-behind-an-empty-line": b"\n" + A_NAME * 257,
    "65536-lines": b"\n" * 65_536,
    "65537-lines": b"\n" * 65_537,
    "name-of-255-bytes": NAME_OF_255 + b"\r\n",
    "name-of-256-bytes": A_NAME + b"\n" + NAME_OF_256 + b"\n",
    "65537-bytes-of-a-name": b"a" * 65_537,
}

# the numbers of an input after its first pad
ZEROS = b" 0 0 0 0 0 0"


def answers_again(times):
    """A script that changes an input again and again, and asks for all that there is of the last place."""
    answers = b"settle 2\nshow 400\ndisk 400\nstate 400\ntones 400 400\ntraces 400 400\n"
    changes = [b"set 0 %d" % pad + ZEROS + b"\n" for pad in [1, 0] * (times // 2)]
    return b"keep-every 1\n" + b"".join(change + answers for change in changes)


def late_pads(frames):
    """A log of a session whose every fifth place is kept. A packet of the second player comes each 40 frames,
    30 frames late."""
    lines = []
    for k in range(frames):
        lines += [b"pad 0 %d %d" % (k, k % 256), b"next", b"state %d" % (k + 1)]
        if k % 5 == 4:
            lines += [b"keep %d" % (k + 1)]
        if k % 40 == 39:
            lines += [b"pad 1 %d %d" % (k - 30, k // 40 + 1), b"show %d" % (k + 1)]
    return b"\n".join(lines) + b"\n"


def made_edits(workers):
    """Kept places, three edits of inputs of zeros, and a film, by so many workers."""
    edits = b"set 100 0" + ZEROS + b"\ninsert 200 0" + ZEROS + b"\ndelete 300\n"
    return b"keep-every 60\n" + edits + b"settle %d\nfilm 500 600 %d\n" % (workers, workers)


SCRIPTS = {
    "400-changes": b"keep-every 1\n" + (b"set 0 0" + ZEROS + b"\nstate 1000\nfilm 1000 1000 1\n") * 400,
    "answers-again": answers_again(200),
    "undone-again": b"keep-every 1\nset 0 1" + ZEROS + b"\nstate 400\n"
                    + b"undo\nstate 400\nredo\nstate 400\n" * 200
                    + b"drop 200\nkeep 200\nstate 400\n" * 200 + b"undo\n",
    "made-edits-by-1": made_edits(1),
    "made-edits-by-3": made_edits(3),
    "made-edits-by-4": made_edits(4),
    "made-edits-by-16": made_edits(16),
}

def many_variants():
    """Lines of a session: places are kept, and then an input far from both ends is changed 64 times, and asked for is a
    number ten frames later and the state of the last place."""
    changes = b"".join(
        b"set 10000 %d" % pad + ZEROS + b"\nwatch 22 1 10001 10001\nwatch 8192 4 10011 10011\nstate 36000\n"
        for pad in range(1, 65))
    return b"keep-every 60\nstate 36000\n" + changes + b"set 10000 0" + ZEROS + b"\n"


# What clients of a live session write.
ORDERS = {
    # lines of 1,025 bytes and of 1,024, and a byte 13 at the end
    "long-lines": b"#" + b"a" * 1_024 + b"\n#" + b"a" * 1_023 + b"\nkeep 1\r\ntraces 0 2\nfilm 0 1 2\n",
    # 1,024 bytes and a byte 13 are a byte too many
    "long-line-and-a-return": b"#" + b"a" * 1_023 + b"\r\n",
    "a-hundred": b"".join(b"set 0 %d" % pad + ZEROS + b"\nwatch 160 1 1 1\n" for pad in range(1, 101)),
    "many-variants": many_variants(),
    "one-edit": b"set 0 1" + ZEROS + b"\n",
    # the texts of the recordings `smallest-two-frames` and `smallest-a-kilobyte-of-1`
    "two-frames": b"# budget 7\n# disk 6162\ninsert 0 0" + ZEROS + b"\ninsert 1 255 1 2 3 -5 7 2 reset\n",
    "a-kilobyte": b"# budget 7\n# disk " + b"61" * 1_024 + b"\ninsert 0 0" + ZEROS + b"\n",
}

DISKS = {
    "ab": b"ab",
    "a-kilobyte": b"a" * 1_024,
    "a-kilobyte-and-a-byte": b"a" * 1_025,
}

LOGS = {
    "late-pads": late_pads(400),
    "36001-nexts": b"next\n" * 36_001,
    "1024-keeps": b"next\n" * 1_024 + b"".join(b"keep %d\n" % place for place in range(1, 1_025)),
}


def main():
    for name, cart in CARTS.items():
        write(f"carts/{name}.wasm", cart)
    for length in range(64):
        write(f"fronts/{length:02}.wasm", FIRST[:length])
    for length in range(65):
        write(f"fronts/{length:02}.w4rec", RECORDINGS["first"][:length])
    for body in UPDATES.strip("\n").split("\n"):
        write(f"bodies/{named(body)}.wasm", two_bodies(body, "20 00"))
    for body in SECONDS.strip("\n").split("\n"):
        write(f"results/{named(body)}.wasm", two_bodies("", body))
    for instruction in FLOATS:
        write(f"floats/{named(instruction)}.wasm", with_body(f"00 00 {instruction} 00 0b"))
    for name, bytes_of in RECORDINGS.items():
        write(f"recordings/{name}.w4rec", bytes_of)
    for maker in (7, 14):
        cart, recording_of_it = made(maker)
        write(f"carts/made-{maker}.wasm", cart)
        write(f"recordings/made-{maker}.w4rec", recording_of_it)
    for folder, files in (("lists", LISTS), ("logs", LOGS), ("scripts", SCRIPTS), ("orders", ORDERS)):
        for name, text in files.items():
            write(f"{folder}/{name}.txt", text)
    for name, held in DISKS.items():
        write(f"disks/{name}.bin", held)
    write("font.bin", bytes(1_792))
    write("short-font.bin", bytes(1_791))


if __name__ == "__main__":
    main()
