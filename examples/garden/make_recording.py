#!/usr/bin/env python3
"""Writes two recordings for the cart beside it: game.w4rec, four seconds of a walk to the right with two
hops; and again.w4rec, two seconds of a walk with a hop, a reset, and one second with another hop.

    python3 make_recording.py
"""
import hashlib
import os
import struct

HERE = os.path.dirname(os.path.abspath(__file__))
RIGHT, BUTTON = 32, 1
# how many frames, and gamepad 1 in each of them
GAME = [(20, 0), (40, RIGHT), (4, RIGHT | BUTTON), (56, RIGHT), (4, BUTTON), (116, 0)]
AGAIN = [(30, RIGHT), (4, RIGHT | BUTTON), (86, RIGHT), (20, 0), (4, BUTTON), (36, 0)]
BUDGET = 100_000


def frames(parts):
    """Gamepad 1 alone; the mouse is away."""
    pads = [pad for count, pad in parts for _ in range(count)]
    return [struct.pack("<BBBBhhB", pad, 0, 0, 0, 0x7FFF, 0x7FFF, 0) for pad in pads]


def write(name, version, inputs):
    with open(os.path.join(HERE, "cart.wasm"), "rb") as file:
        digest = hashlib.sha256(file.read()).digest()
    front = b"W4RC" + bytes([version]) + digest + struct.pack("<IHI", BUDGET, 0, len(inputs))
    with open(os.path.join(HERE, name), "wb") as file:
        file.write(front + b"".join(inputs))


write("game.w4rec", 1, frames(GAME))
# the tenth byte of a frame says whether it begins with a reset
write("again.w4rec", 2, [frame + bytes([at == 120]) for at, frame in enumerate(frames(AGAIN))])
