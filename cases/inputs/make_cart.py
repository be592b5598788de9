#!/usr/bin/env python3
"""Writes the cart and the recording of `w4 make NUMBER` as files, from the rules of docs/MADE-CARTS.md.

    python3 make_cart.py NUMBER CART REC
"""
import hashlib
import os
import struct
import sys

sys.path.insert(0, os.path.dirname(os.path.abspath(__file__)))
from encoding import number, signed_number  # noqa: E402

# add, sub, mul, and, or, xor, shl, shr_s, shr_u, rotl, rotr
OPERATIONS = bytes.fromhex("6a6b6c7172737475767778")
FUNCTIONS, FRAMES, BUDGET = 64, 600, 100_000
WORDS = 6560


def draws(seed):
    """Numbers of 16 bits, one after another."""
    while True:
        seed = (seed * 1_664_525 + 1_013_904_223) % 2**32
        yield seed // 65_536


def const(n):
    return b"\x41" + signed_number(n)


def vector(items):
    return number(len(items)) + b"".join(items)


def sized(data):
    return number(len(data)) + data


def section(kind, items):
    return bytes([kind]) + sized(vector(items))


def name(text):
    return sized(text.encode())


def body(instructions):
    """A body without locals."""
    return sized(b"\x00" + instructions + b"\x0b")


def small_function(drawn):
    first, value, second = next(drawn), next(drawn), next(drawn)
    return b"\x20\x00\x20\x01" + OPERATIONS[first % 11:][:1] + const(value) + OPERATIONS[second % 11:][:1]


def update():
    load, load_byte, store = b"\x28\x02\x00", b"\x2d\x00\x00", b"\x36\x02\x00"
    steps = b"".join(
        const(WORDS + 4 * g) * 2 + load + const(22) + load_byte + b"\x10" + number(g + 1) + store
        for g in range(FUNCTIONS))
    sides = b"".join(const(WORDS + 4 * k) + load_byte for k in range(4))
    return steps + sides + b"\x10\x00"


def made_cart(drawn):
    bodies = [body(small_function(drawn)) for _ in range(FUNCTIONS)] + [body(update())]
    return b"\x00asm\x01\x00\x00\x00" + b"".join([
        section(1, [b"\x60\x00\x00", b"\x60\x02\x7f\x7f\x01\x7f", b"\x60\x04\x7f\x7f\x7f\x7f\x00"]),
        section(2, [name("env") + name("rect") + b"\x00\x02", name("env") + name("memory") + b"\x02\x01\x01\x01"]),
        section(3, [b"\x01"] * FUNCTIONS + [b"\x00"]),
        section(7, [name("update") + b"\x00" + number(FUNCTIONS + 1)]),
        section(10, bodies),
    ])


def made_recording(cart, drawn):
    """A recording of version 2: ten bytes a frame, the last of which says that it has no reset."""
    frames = b"".join(bytes([next(drawn) % 256]) + bytes(9) for _ in range(FRAMES))
    return (b"W4RC\x02" + hashlib.sha256(cart).digest() + struct.pack("<IHI", BUDGET, 0, FRAMES) + frames)


def made(seed):
    drawn = draws(seed)
    cart = made_cart(drawn)
    return cart, made_recording(cart, drawn)


if __name__ == "__main__":
    cart, recording = made(int(sys.argv[1]))
    for path, data in ((sys.argv[2], cart), (sys.argv[3], recording)):
        with open(path, "wb") as file:
            file.write(data)
