"""Recordings that the studio's tests write by themselves, and what w4 makes of them without a session."""
import hashlib
import pathlib
import struct
import tempfile

from browser import FONT, GARDEN, run_w4

CART = GARDEN / "cart.wasm"
RIGHT, BUTTON = 32, 1
AWAY = 32767
BUDGET = 100_000


def frame(pad, reset=False, pads=(0, 0, 0), mouse=(AWAY, AWAY, 0)):
    """An input of version 2."""
    return struct.pack("<4BhhBB", pad, *pads, *mouse, reset)


def garden_frames():
    """The inputs of the garden's recording, which is of version 1 and has no reset."""
    data = (GARDEN / "game.w4rec").read_bytes()
    assert data[:5] == b"W4RC\1" and data[41:43] == b"\0\0"
    return [data[at:at + 9] + b"\0" for at in range(47, len(data), 9)]


def recording(frames, cart=CART, budget=BUDGET):
    """The bytes of a recording of version 2."""
    digest = hashlib.sha256(cart.read_bytes()).digest()
    return b"W4RC\2" + digest + struct.pack("<IHI", budget, 0, len(frames)) + b"".join(frames)


def of_frames(command, frames, *words, cart=CART):
    """What a command writes for these inputs."""
    with tempfile.TemporaryDirectory() as room:
        path = pathlib.Path(room, "frames.w4rec")
        path.write_bytes(recording(frames, cart))
        return run_w4(command, cart, path, FONT, *words)


def image(frames, place):
    """The image of a place of a run of these inputs from reset."""
    return of_frames("frames", frames, place, place)
