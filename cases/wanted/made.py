#!/usr/bin/env python3
"""Writes the lines that `make` is to write for some numbers, beside it, and the recordings that edits of made
carts leave, and prints the sums of the films after these edits: the rules of docs/MADE-CARTS.md are simulated
here, without WebAssembly, and the cart's length is that of `cases/inputs/make_cart.py`.
"""
import hashlib
import os
import sys

HERE = os.path.dirname(os.path.abspath(__file__))
sys.dont_write_bytecode = True
sys.path.append(os.path.join(HERE, os.pardir, "inputs"))
import make_cart  # noqa: E402

MASK = 2**32 - 1
PALETTE = [bytes.fromhex(color) for color in ("e0f8cf", "86c06c", "306850", "071821")]


def signed(a):
    return a - 2**32 if a >= 2**31 else a


def rotl(a, n):
    n %= 32
    return (a << n | a >> 32 - n) & MASK


OPERATIONS = [
    lambda a, b: a + b, lambda a, b: a - b, lambda a, b: a * b, lambda a, b: a & b, lambda a, b: a | b,
    lambda a, b: a ^ b, lambda a, b: a << b % 32, lambda a, b: signed(a) >> b % 32, lambda a, b: a >> b % 32,
    rotl, lambda a, b: rotl(a, 32 - b % 32),
]


def rectangle(x, y, width, height):
    """The palette indices of the screen. DRAW_COLORS is 0x1203: draw color 1 (nibble 3) is palette index 2; draw
    color 2 (nibble 0) is transparent, so that the outline keeps the fill."""
    screen = [[0] * 160 for _ in range(160)]
    for row in range(max(y, 0), min(y + height, 160)):
        for column in range(max(x, 0), min(x + width, 160)):
            screen[row][column] = 2
    return screen


def runs(number, edit=lambda pads: None):
    """The words of the cart at each place, from place 1 on, where gamepad 1 was changed by an edit."""
    drawn = make_cart.draws(number)
    functions = [(next(drawn) % 11, next(drawn), next(drawn) % 11) for _ in range(64)]
    pads = [next(drawn) % 256 for _ in range(600)]
    edit(pads)
    words = [0] * 64
    for pad in pads:
        words = [OPERATIONS[second](OPERATIONS[first](word, pad) & MASK, value) & MASK
                 for word, (first, value, second) in zip(words, functions)]
        yield words


def image(screen):
    return b"P6\n160 160\n255\n" + b"".join(PALETTE[index] for row in screen for index in row)


def screen_of(words):
    return rectangle(*(word % 256 for word in words[:4]))


def lines(number):
    *_, words = runs(number)
    screen = screen_of(words)
    cart, _ = make_cart.made(number)
    lit = sum(index != 0 for row in screen for index in row)
    return (f"cart {len(cart)}\nframes 600\nhalt running\nlit {lit}\n"
            f"image {hashlib.sha256(image(screen)).hexdigest()}\n")


def edit_three(inputs, nothing=0):
    """The edits of the scripts `made-edits-by-..`: `set 100`, `insert 200` of zeros, and `delete 300`."""
    inputs[100] = nothing
    inputs.insert(200, nothing)
    del inputs[300]


def edited(number):
    """The recording of a made cart after these edits, of version 2."""
    _, recording = make_cart.made(number)
    front, frames = recording[:47], [recording[at:at + 10] for at in range(47, len(recording), 10)]
    edit_three(frames, bytes(10))
    return front + b"".join(frames)


def film(number, first, last):
    """Images of a made cart after these edits."""
    words = [None, *runs(number, edit_three)]
    return b"".join(image(screen_of(words[place])) for place in range(first, last + 1))


for number in (0, 7, 14, 37, 43, 2**32 - 1):
    with open(os.path.join(HERE, f"made-{number}.txt"), "w", encoding="ascii") as file:
        file.write(lines(number))
for number in (7, 14):
    with open(os.path.join(HERE, "recordings", f"made-{number}-edited.w4rec"), "wb") as file:
        file.write(edited(number))
    print(hashlib.sha256(film(number, 500, 600)).hexdigest(), f"places 500 to 600 of made cart {number}")
