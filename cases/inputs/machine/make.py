#!/usr/bin/env python3
"""Writes the carts and recordings beside it, and the two images that cases of the machine want.

A cart here is the smallest cart with another body of `update`, where nothing else is said. A cart that tries
values compares each with the one that the standard gives, and traps with `unreachable` where they differ. So
it is wanted that its frame ends without a trap.
"""
import hashlib
import os
import struct
import sys

HERE = os.path.dirname(os.path.abspath(__file__))
sys.path.insert(0, os.path.dirname(HERE))
from encoding import hexed, number, section, signed_number  # noqa: E402

WANTED = os.path.join(HERE, "..", "..", "wanted", "machine")
AMPLE = 100_000


def constant(width, n):
    """i32.const or i64.const of a number from 0 on, which is below 2 to the width."""
    return bytes([0x41 if width == 32 else 0x42]) + signed_number(n - 2**width if n >= 2 ** (width - 1) else n)


def code(*bodies):
    """A code section of these bodies: locals, instructions, end."""
    return section(10, number(len(bodies)) + b"".join(number(len(body)) + body for body in bodies))


PREAMBLE = hexed("00 61 73 6d 01 00 00 00")
TYPE = hexed("01 04 01 60 00 00")
MEMORY = hexed("02 0f 01 03 65 6e 76 06 6d 65 6d 6f 72 79 02 00 01")
FUNCTION = hexed("03 02 01 00")
EXPORT = hexed("07 0a 01 06 75 70 64 61 74 65 00 00")
FRONT = PREAMBLE + TYPE + MEMORY + FUNCTION
SMALLEST = hexed("0a 04 01 02 00 0b")


def with_body(body):
    return FRONT + EXPORT + code(body if isinstance(body, bytes) else hexed(body))


def checks(*tries):
    """A cart that tries these values: the width, the instructions that leave the value, and what it has to be."""
    body = b"\x01\x01\x7f"  # a local of i32
    for width, instructions, wanted in tries:
        differs = b"\x47" if width == 32 else b"\x52"
        body += instructions + constant(width, wanted) + differs + hexed("04 40 00 0b")
    return with_body(body + b"\x0b")


# The first code of each row of the standard's table.
UNARY = {name: place for place, name in enumerate("clz ctz popcnt".split())}
BINARY = {name: 3 + place for place, name in enumerate(
    "add sub mul div_s div_u rem_s rem_u and or xor shl shr_s shr_u rotl rotr".split())}
COMPARE = {name: place for place, name in enumerate("eq ne lt_s lt_u gt_s gt_u le_s le_u ge_s ge_u".split())}


def operation(width, name):
    if name in COMPARE:
        return bytes([(0x46 if width == 32 else 0x51) + COMPARE[name]])
    return bytes([(0x67 if width == 32 else 0x79) + {**UNARY, **BINARY}[name]])


def numbers(width):
    """The cart that tries the rows of numbers.txt of a width."""
    tries = []
    with open(os.path.join(HERE, "numbers.txt"), encoding="utf-8") as file:
        rows = [line.split() for line in file if not line.startswith("#")]
    for row_width, name, *row in rows:
        if int(row_width) == width:
            *operands, value = [int(word, 0) for word in row]
            instructions = b"".join(constant(width, operand) for operand in operands) + operation(width, name)
            tries.append((32 if name in COMPARE else width, instructions, value))
    return checks(*tries)


def divides(width, name, a, b):
    return with_body(b"\x00" + constant(width, a) + constant(width, b) + operation(width, name) + hexed("1a 0b"))


def load(address, offset, op="28 02"):
    """A load by an operand and an offset: of 4 bytes, where nothing else is said."""
    return constant(32, address) + hexed(op) + number(offset)


def loads(address, offset, op="28 02"):
    return with_body(b"\x00" + load(address, offset, op) + hexed("1a 0b"))


def three(a, b, c, op):
    return constant(32, a) + constant(32, b) + constant(32, c) + hexed(op)


def copy(to, source, count):
    return three(to, source, count, "fc 0a 00 00")


def fill(to, value, count):
    return three(to, value, count, "fc 0b 00")


def moves(instructions):
    return with_body(b"\x00" + instructions + b"\x0b")


# A number of eight bytes whose highest bits are 1, and one whose highest bits are 0. Both stand at 8,192 by turns.
HIGH, LOW = 0x8182_8384_8586_8788, 0x0102_0304_0506_0708
# The loads: their code, the width of what they leave, how many bytes they read, and whether these have a sign.
LOADS = [(0x28, 32, 4, False), (0x29, 64, 8, False), (0x2c, 32, 1, True), (0x2d, 32, 1, False), (0x2e, 32, 2, True),
         (0x2f, 32, 2, False), (0x30, 64, 1, True), (0x31, 64, 1, False), (0x32, 64, 2, True), (0x33, 64, 2, False),
         (0x34, 64, 4, True), (0x35, 64, 4, False)]
# The stores: their code, the width of what they take, and how many bytes they write.
STORES = [(0x36, 32, 4), (0x37, 64, 8), (0x3a, 32, 1), (0x3b, 32, 2), (0x3c, 64, 1), (0x3d, 64, 2), (0x3e, 64, 4)]


def put(n):
    return constant(32, 8_192) + constant(64, n) + hexed("37 00 00")


def loaded(code, width, count, has_sign, n):
    held = (n % 2 ** (8 * count)).to_bytes(count, "little")
    wanted = int.from_bytes(held, "little", signed=has_sign) % 2**width
    return width, put(n) + constant(32, 8_190) + bytes([code, 0, 2]), wanted


def stored(code, width, count):
    """The eight bytes, which were 0x11 before a store."""
    before, kept = 0x1111_1111_1111_1111, 2 ** (8 * count)
    instructions = put(before) + constant(32, 8_190) + constant(width, HIGH % 2**width) + bytes([code, 0, 2])
    return 64, instructions + constant(32, 8_192) + hexed("29 00 00"), before - before % kept + HIGH % kept


def copied(to, source, count, wanted):
    """Eight bytes from 99 on, which were 0, 1, 2, 3, 4, 0, 0, 0 before a copy."""
    before = constant(32, 99) + constant(64, 0x0004_0302_0100) + hexed("37 00 00")
    return 64, before + copy(to, source, count) + constant(32, 99) + hexed("29 00 00"), wanted


def choice(index):
    """1 by the label 0 of a br_table, 2 by the label 1, 4 by the last."""
    return (hexed("41 00 21 00 02 40 02 40 02 40") + constant(32, index)
            + hexed("0e 02 00 01 02 0b 41 01 21 00 0c 01 0b 41 02 21 00 0b 20 00 45 04 40 41 04 21 00 0b 20 00"))


def calls(entry):
    """A cart whose `update` calls by an entry of the table, and then wants a 1 at 0. Functions 1 to 3 stand in
    the table of four entries from entry 1 on. Their types are [] to [], [i32] to [], and the first once more;
    the first and the last store 1 at 0. The call names the first type."""
    stores = hexed("00 41 00 41 01 3a 00 00 0b")
    return (PREAMBLE + hexed("01 0b 03 60 00 00 60 01 7f 00 60 00 00") + MEMORY + hexed("03 05 04 00 00 01 02")
            + hexed("04 04 01 70 00 04") + EXPORT + hexed("09 09 01 00 41 01 0b 03 01 02 03")
            + code(b"\x00" + constant(32, entry) + hexed("11 00 00 41 00 2d 00 00 45 04 40 00 0b 0b"),
                   stores, hexed("00 0b"), stores))


BRANCHES = (
    # which label of a br_table
    *((32, choice(index), wanted) for index, wanted in [(0, 1), (1, 2), (2, 4), (9, 4), (0xffff_ffff, 4)]),
    # an if with an else; one without
    (32, hexed("41 01 04 7f 41 05 05 41 06 0b"), 5),
    (32, hexed("41 00 04 7f 41 05 05 41 06 0b"), 6),
    (32, hexed("41 00 21 00 41 01 04 40 41 07 21 00 0b 20 00"), 7),
    (32, hexed("41 00 21 00 41 00 04 40 41 07 21 00 0b 20 00"), 0),
    # a branch drops the 1 that lies below its value, and keeps the 7 that lies outside its block
    (32, hexed("41 07 02 7f 41 01 41 02 0c 00 0b 6a"), 9),
    # a loop of three turns
    (32, hexed("41 00 21 00 03 40 20 00 41 01 6a 22 00 41 03 49 0d 00 0b 20 00"), 3))
# Behind a branch: a loop, an if with an else, and a block in a loop.
UNREACHED = (
    (32, hexed("02 40 0c 00 03 40 0c 00 0b 0b 41 01"), 1),
    (32, hexed("02 40 0c 00 41 00 04 40 41 01 1a 05 00 0b 0b 41 02"), 2),
    (32, hexed("02 7f 41 03 0c 00 03 40 02 40 0c 01 0b 0b 0b"), 3))
# A br_table whose labels take a value. A cart with one has register code that is made instruction by instruction.
TABLE_WITH_A_VALUE = (32, hexed("41 05 02 7f 41 07 41 00 0e 01 00 00 0b 6a"), 12)

# `update` wants 7 - 2 of a function that takes its second parameter from its first, and whose own local is 0.
SUBTRACTS = (PREAMBLE + hexed("01 0a 02 60 00 00 60 02 7f 7f 01 7f") + MEMORY + hexed("03 03 02 00 01") + EXPORT
             + code(hexed("00 41 07 41 02 10 01 41 05 47 04 40 00 0b 0b"), hexed("01 01 7f 20 00 20 01 6b 20 02 6a 0b")))

# `update` calls `hline` (0, 0), 160 long.
ROW = (PREAMBLE + hexed("01 0a 02 60 00 00 60 03 7f 7f 7f 00")
       + hexed("02 1b 02 03 65 6e 76 05 68 6c 69 6e 65 00 01 03 65 6e 76 06 6d 65 6d 6f 72 79 02 00 01")
       + FUNCTION + EXPORT[:-1] + b"\x01" + code(hexed("00 41 00 41 00 41 a0 01 10 00 0b")))

LAST = constant(32, 65_535) + constant(32, 0x1234_56a5) + hexed("3a 00 00")
ONE_AT_0 = "41 00 41 01 3a 00 00"

# The 64-byte cart that puts page byte 22 at 160, of which prefixes are tried.
CART = with_body("00 41 a0 01 41 16 2d 00 00 3a 00 00 0b")

# The budget of each recording of a cart, if it has one.
CARTS = {
    "numbers-of-32-bits": (numbers(32), [AMPLE]),
    "numbers-of-64-bits": (numbers(64), [AMPLE]),
    "div-s-of-the-least-32": (divides(32, "div_s", 2**31, 2**32 - 1), [AMPLE]),
    "div-s-of-the-least-64": (divides(64, "div_s", 2**63, 2**64 - 1), [AMPLE]),
    **{f"{name.replace('_', '-')}-by-0-of-{width}-bits": (divides(width, name, 5, 0), [AMPLE])
       for width in (32, 64) for name in ("div_s", "div_u", "rem_s", "rem_u")},
    "conversions": (checks(
        # i32.extend8_s and extend16_s, i64.extend8_s and extend32_s, i32.wrap_i64, i64.extend_i32_s and _u
        (32, constant(32, 0x80) + b"\xc0", 0xffff_ff80),
        (32, constant(32, 0x17f) + b"\xc0", 0x7f),
        (32, constant(32, 0xffff_ff00) + b"\xc0", 0),
        (32, constant(32, 0x1_8000) + b"\xc1", 0xffff_8000),
        (64, constant(64, 0x180) + b"\xc2", 0xffff_ffff_ffff_ff80),
        (64, constant(64, 0x1_8000_0000) + b"\xc4", 0xffff_ffff_8000_0000),
        (32, constant(64, 0x0123_4567_89ab_cdef) + b"\xa7", 0x89ab_cdef),
        (64, constant(32, 0x8000_0000) + b"\xac", 0xffff_ffff_8000_0000),
        (64, constant(32, 0x8000_0000) + b"\xad", 0x8000_0000),
        # i64.extend16_s, i32.eqz and i64.eqz
        (64, constant(64, 0x1_8000) + b"\xc3", 0xffff_ffff_ffff_8000),
        *((32, constant(32, n) + b"\x45", wanted) for n, wanted in [(0, 1), (256, 0)]),
        *((32, constant(64, n) + b"\x50", wanted) for n, wanted in [(0, 1), (2**32, 0)])), [AMPLE]),
    "select-and-grow": (checks(
        *((32, three(10, 20, c, "1b"), wanted) for c, wanted in [(0, 20), (1, 10), (0x8000_0000, 10)]),
        (32, hexed("3f 00"), 1),
        *((32, constant(32, more) + hexed("40 00"), wanted)
          for more, wanted in [(0, 1), (1, 0xffff_ffff), (0xffff_ffff, 0xffff_ffff)])), [AMPLE]),

    "loads-and-stores": (checks(
        *(loaded(*row, n) for row in LOADS for n in (HIGH, LOW)), *(stored(*row) for row in STORES)), [AMPLE]),
    # only the last byte of the page isn't 0
    "last-byte": (checks(
        (32, LAST + load(65_532, 0), 0xa500_0000),
        (32, load(0, 65_532), 0xa500_0000),
        (32, load(65_531, 1), 0xa500_0000),
        (64, load(65_535, 0, "30 00"), 0xffff_ffff_ffff_ffa5),
        (64, load(65_534, 0, "30 00"), 0),
        (32, load(65_535, 0, "2d 00"), 0xa5)), [AMPLE]),
    "load-past-by-its-width": (loads(65_533, 0), [AMPLE]),
    "load-past-by-its-offset": (loads(1, 65_532), [AMPLE]),
    "load-of-a-byte-past-by-its-offset": (loads(65_535, 1, "2d 00"), [AMPLE]),
    "load-past-by-a-sum-of-2-to-the-32": (loads(4, 0xffff_fffc), [AMPLE]),
    "load-past-by-the-greatest": (loads(0xffff_ffff, 0xffff_ffff), [AMPLE]),
    "store-past-by-a-sum-of-2-to-the-32": (
        moves(constant(32, 164) + constant(32, 1) + hexed("3a 00") + number(0xffff_fffc)), [AMPLE]),
    "store-of-a-byte-at-65536": (moves(constant(32, 65_536) + hexed("41 01 3a 00 00")), [AMPLE]),

    "copies-overlap": (checks(
        copied(101, 100, 4, 0x0403_0201_0100),
        copied(99, 100, 4, 0x0004_0403_0201),
        copied(100, 102, 2, 0x0004_0304_0300),
        copied(102, 100, 0, 0x0004_0302_0100)), [AMPLE]),
    "fills-the-end": (checks(
        (64, fill(65_534, 0x1ee, 2) + constant(32, 65_528) + hexed("29 00 00"), 0xeeee_0000_0000_0000),
        (64, fill(65_536, 1, 0) + copy(65_536, 65_536, 0) + constant(32, 65_528) + hexed("29 00 00"),
         0xeeee_0000_0000_0000)), [AMPLE]),
    "fill-past-the-page": (moves(fill(65_534, 1, 3)), [AMPLE]),
    "fill-of-nothing-at-65537": (moves(fill(65_537, 1, 0)), [AMPLE]),
    "copy-from-past-the-page": (moves(copy(0, 65_535, 2)), [AMPLE]),
    "copy-to-past-the-page": (moves(copy(65_535, 0, 2)), [AMPLE]),
    "fill-of-65537-bytes": (moves(fill(0, 0, 65_537)), [4]),
    "fills-127-bytes": (moves(fill(160, 7, 127)), [5, 4]),
    # from the palette's place on into the framebuffer
    "copies-64-bytes": (moves(copy(160, 4, 64)), [5, 4]),

    "branches": (checks(*BRANCHES), [AMPLE]),
    "branches-and-a-table-with-a-value": (checks(*BRANCHES, *UNREACHED, TABLE_WITH_A_VALUE), [AMPLE]),
    # three turns of a loop of seven instructions, which takes a unit itself, and three instructions more
    "three-turns": (with_body("01 01 7f 03 40 20 00 41 01 6a 22 00 41 03 49 0d 00 0b 41 00 20 00 3a 00 00 0b"), [25, 24]),
    # block, loop, return
    "returns-from-a-loop": (with_body(f"00 02 40 03 40 0f 0b 0b {ONE_AT_0} 0b"), [3, 2]),
    # block, block, const, br_table, and three more by the label 0 alone
    "inner-label": (with_body(f"00 02 40 02 40 41 00 0e 01 00 01 0b {ONE_AT_0} 0b 0b"), [7, 6]),
    "last-label": (with_body(f"00 02 40 02 40 41 09 0e 01 00 01 0b {ONE_AT_0} 0b 0b"), [4, 3]),
    # const, if
    "if-not-taken": (with_body(f"00 41 00 04 40 {ONE_AT_0} 0b 0b"), [2, 1]),

    **{f"calls-entry-{entry}": (calls(entry), [AMPLE]) for entry in range(5)},
    "calls-entry-4294967295": (calls(2**32 - 1), [AMPLE]),
    "subtracts": (SUBTRACTS, [AMPLE]),
    "local-is-0": (with_body("01 01 7f 20 00 04 40 00 0b 0b"), [2]),
    # `update` has 1,024 locals and calls itself: a reserve of 1,025
    "calls-itself-with-locals": (with_body("01 80 08 7f 10 00 0b"), [1_023, 1_022]),
    "row": (ROW, [260, 259]),

    **{f"first-{length}-bytes": (CART[:length], []) for length in (0, 7, 8, 9, 14, 30, 31, 63, 64)},
    "unused-bit-in-the-bodys-size": (FRONT + EXPORT + hexed("0a 08 01 82 80 80 80 10 00 0b"), []),
    "two-sections-of-functions": (FRONT + FUNCTION + EXPORT + SMALLEST, []),
    "types-after-functions": (FRONT + hexed("01 01 00") + EXPORT + SMALLEST, []),
    "name-that-is-no-text": (FRONT + hexed("00 02 01 ff") + EXPORT + SMALLEST, []),
    "name-that-is-text": (FRONT + hexed("00 02 01 61") + EXPORT + SMALLEST, []),
    "memory-init": (with_body("00 00 fc 08 00 00 0b"), []),
    "saturating-truncation": (with_body("00 00 fc 00 1a 0b"), []),
}


def recording(cart, budget):
    """One frame without inputs, and no disk."""
    return b"W4RC\x01" + hashlib.sha256(cart).digest() + struct.pack("<IHI", budget, 0, 1) + bytes(9)


def image(front):
    """The image of a framebuffer that begins with these bytes and is clear after them."""
    colors = [hexed(color) for color in ("e0f8cf", "86c06c", "306850", "071821")]
    framebuffer = front + bytes(6_400 - len(front))
    return b"P6\n160 160\n255\n" + b"".join(
        colors[byte >> shift & 3] for byte in framebuffer for shift in (0, 2, 4, 6))


def write(folder, name, data):
    os.makedirs(folder, exist_ok=True)
    with open(os.path.join(folder, name), "wb") as file:
        file.write(data)


for cart_name, (cart, budgets) in CARTS.items():
    write(HERE, f"{cart_name}.wasm", cart)
    for budget in budgets:
        write(HERE, cart_name + (f"-of-{budget}" if budget != AMPLE else "") + ".w4rec", recording(cart, budget))

# The page from address 4 on, when the frame begins: the palette, DRAW_COLORS 0x1203, and no input.
write(WANTED, "copied.ppm", image(hexed("cf f8 e0 00 6c c0 86 00 50 68 30 00 21 18 07 00 03 12")))
# Color 1 of 0x1203 is the third entry.
write(WANTED, "row.ppm", image(b"\xaa" * 40))
