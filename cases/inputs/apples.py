#!/usr/bin/env python3
"""Writes recordings of the game of apples into recordings/, for its builds from C and from Rust.

The carts are no part of it: they are `examples/c/apples.c` by clang 14 and `examples/rust/apples.rs` by
rustc 1.63. `tests/build-examples` tries that the sources, built anew, play the same.
"""
import hashlib
import os
import struct

HERE = os.path.dirname(os.path.abspath(__file__))
BUDGET = 100_000
LEFT, RIGHT = 16, 32

# How many frames, and gamepad 1 in each of them. Three rounds, in which 2, 1 and 10 apples are caught,
# mostly by an edge of the basket, and the next one is missed;
ROUNDS = [
    (121, 0), (3, LEFT), (239, 0),
    (10, RIGHT), (232, 0),
    (23, RIGHT), (219, 0), (40, LEFT), (81, 0), (5, LEFT), (116, 0), (5, LEFT), (117, 0), (50, RIGHT),
    (11, 0), (42, LEFT), (19, 0), (11, LEFT), (30, 0), (34, RIGHT), (7, 0), (1, RIGHT), (40, 0)]
# and then, after a reset, to both walls, and both arrows at once.
WALLS = [(45, LEFT), (80, RIGHT), (5, LEFT | RIGHT), (10, LEFT)]


def frames(parts, resets=()):
    """Gamepad 1 alone; the mouse is away."""
    pads = [pad for count, pad in parts for _ in range(count)]
    return [struct.pack("<4BhhBB", pad, 0, 0, 0, 0x7FFF, 0x7FFF, 0, at in resets)
            for at, pad in enumerate(pads)]


def write(name, cart, disk, inputs):
    with open(os.path.join(HERE, "carts", cart + ".wasm"), "rb") as file:
        digest = hashlib.sha256(file.read()).digest()
    front = b"W4RC\x02" + digest + struct.pack("<IH", BUDGET, len(disk)) + disk
    with open(os.path.join(HERE, "recordings", name + ".w4rec"), "wb") as file:
        file.write(front + struct.pack("<I", len(inputs)) + b"".join(inputs))


def main():
    rounds = sum(count for count, _ in ROUNDS)
    for cart in ("apples-from-c", "apples-from-rust"):
        write(cart, cart, b"", frames(ROUNDS + WALLS, {rounds}))
        # its first round, where 2 is the best score already, on a disk of two bytes
        write(cart + "-again", cart, b"\x02\x00", frames(ROUNDS[:3]))


if __name__ == "__main__":
    main()
