#!/usr/bin/env python3
"""Prints the sums of the long outputs that bounded.case and films.case want, from the rules of the console
and not from the program. Those of films of made carts are printed by made.py.
"""
import hashlib
import os
import sys

HERE = os.path.dirname(os.path.abspath(__file__))
sys.dont_write_bytecode = True
sys.path.insert(0, HERE)
import images  # noqa: E402
import wave  # noqa: E402

CLEAR = images.image(images.of_framebuffer(b""))


def counted(place):
    """The image of a place of the cart `counts-frames`: its number stands in the first four bytes."""
    return images.image(images.of_framebuffer(place.to_bytes(4, "little")))


def state(place, of, kept):
    """The state line of a cart that runs and has no disk."""
    return f"state {place} of {of} halt running disk 0 kept {' '.join(map(str, kept))}\n".encode()


def frames(first, last):
    """The texts of places in whose frames nothing is sounded, or nothing traced."""
    return b"".join(b"frame %d\n" % place for place in range(first, last + 1))


def late_pads():
    """What the log `late-pads` has written: each fifth place is kept after its state was asked for."""
    for place in range(1, 401):
        yield state(place, place, range(0, place, 5))
        if place % 40 == 0:
            yield CLEAR


def answered(*pieces):
    """The answer of an order of a live session: its pieces, each behind its length, and its end."""
    return b"".join(b"%d\n" % len(piece) + piece for piece in pieces) + b"0\n"


def many_variants():
    """What the orders `many-variants` have answered: the pad, which stands at 22 after its frame, a number that
    nothing is stored in, and the state of the last place. The last is an edit."""
    last = answered(state(36_000, 36_000, range(0, 36_001, 60)))
    return (answered() + last
            + b"".join(answered() + answered(b"watch 22 %d\n" % pad) + answered(b"watch 8192 0\n") + last
                       for pad in range(1, 65))
            + answered())


ALL = range(401)
OUTPUTS = {
    "400-changes": (state(1_000, 1_000, range(1_001)) + CLEAR) * 400,
    "400-changes, of a session":
        answered() + (answered() + answered(state(1_000, 1_000, range(1_001))) + answered(CLEAR)) * 400,
    "many-variants": many_variants(),
    "answers-again": (CLEAR + state(400, 400, ALL) + frames(400, 400) * 2) * 200,
    # a place is dropped and kept again
    "undone-again": state(400, 400, ALL) * (1 + 2 * 200 + 200),
    "texts-of-400": frames(0, 400) * 2 + CLEAR * 201,
    "tones or trace of 400 frames": frames(0, 400),
    "frames 0 400": CLEAR * 401,
    "wave of 400 frames": wave.wav([(True, [])] + [(False, [])] * 400),
    "late-pads": b"".join(late_pads()),
    "256-watches": (b"watch 22 " + b" ".join(b"%d" % (k - 1) for k in range(100, 201)) + b"\n") * 256,
    "watches-beside-a-kept-place": b"watch 22 %d\nwatch 22 %d\n" % (398 % 256, 399 % 256) * 100,
    "watch-400": b"watch 22 0 " + b" ".join(b"%d" % (k % 256) for k in range(400)) + b"\n",
    "600-images": b"".join(map(counted, range(600))) + b"refused too long\nrefused no frame\n",
}

for name, output in OUTPUTS.items():
    print(hashlib.sha256(output).hexdigest(), len(output), name)
