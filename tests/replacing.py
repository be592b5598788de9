"""What the tests of replacing OUT share: the program, and an edit of two frames with the bytes that OUT gets."""
import hashlib
import os
import pathlib
import struct

TOP = pathlib.Path(__file__).resolve().parent.parent
BUILT = TOP / "crates/w4_program/out/w4_program"
W4 = os.environ.get("W4", str(BUILT if BUILT.exists() else TOP / "release/w4"))
CART = (TOP / "examples/first/cart.wasm").read_bytes()
FONT = (TOP / "examples/first/font.bin").read_bytes()
SCRIPT = "set 0 1 0 0 0 32767 32767 0\nstate 2\n"
ANSWER = b"state 2 of 2 halt running disk 0 kept 0\n"
WRITE = (8, b"w4: cannot write\n")


def recording(pad):
    """Two frames, in version 2, of which the first has this gamepad."""
    frames = b"".join(struct.pack("<4BhhBB", k, 0, 0, 0, 32767, 32767, 0, 0) for k in (pad, 0))
    return b"W4RC\x02" + hashlib.sha256(CART).digest() + struct.pack("<IHI", 100_000, 0, 2) + frames


OLD, NEW = recording(0), recording(1)


def words(out):
    """The program's arguments, in a folder that `put_inputs` has filled."""
    return ["edit", "cart.wasm", "game.w4rec", "font.bin", "script.txt", out]


def put_inputs(folder):
    (folder / "cart.wasm").write_bytes(CART)
    (folder / "font.bin").write_bytes(FONT)
    (folder / "game.w4rec").write_bytes(OLD)
    (folder / "script.txt").write_text(SCRIPT)
