#!/usr/bin/env python3
"""Writes the disks beside it, and prints the lines and sums, that apples.case wants: the game of
examples/c/apples.c and examples/rust/apples.rs is simulated here from its rules, without WebAssembly.

A basket of 16 pixels begins at 72 and goes left and right by 2. An apple of 8 falls from line 16 by 1 pixel
a frame, and by one more for each four that were caught. Where it comes below line 136 it is caught if it is
above a part of the basket. Else the round ends, and a score above the best one is saved, in four bytes, and
traced. The next apple falls in a column that a linear congruential generator gives, to which each frame
adds its pad.
"""
import copy
import hashlib
import os
import struct
import sys

HERE = os.path.dirname(os.path.abspath(__file__))
sys.dont_write_bytecode = True
sys.path.insert(0, HERE)
import images  # noqa: E402
import wave  # noqa: E402

INPUTS = os.path.join(HERE, os.pardir, "inputs")
FONT = os.path.join(HERE, os.pardir, os.pardir, "examples", "first", "font.bin")
LEFT, RIGHT = 16, 32
APPLE = """
....##..
...#....
.######.
##.#####
#.######
########
.######.
..####..
""".split()


class Game:
    def __init__(self, disk):
        self.basket, self.apple, self.score, self.random = 72, (76, 16), 0, 0
        self.disk = disk
        self.best = int.from_bytes(disk[:4], "little")

    def frame(self, pad):
        """The tones that it plays, and the lines that it traces."""
        self.basket = max(self.basket - 2, 0) if pad & LEFT else self.basket
        self.basket = min(self.basket + 2, 144) if pad & RIGHT else self.basket
        self.random = (self.random * 1_664_525 + 1_013_904_223 + pad) % 2**32
        x, y = self.apple
        self.apple = x, y + 1 + self.score // 4
        if self.apple[1] <= 136:
            return [], []
        self.apple = self.random // 65_536 % 153, 16
        return self.land(x)

    def land(self, x):
        if set(range(x, x + 8)) & set(range(self.basket, self.basket + 16)):
            self.score += 1
            return [(400 + 20 * self.score, 8 << 8, 40, 0)], []
        lines = []
        if self.score > self.best:
            self.best = self.score
            self.disk = struct.pack("<I", self.best)
            lines = [f"best score {self.best}"]
        self.score = 0
        return [(300 | 80 << 16, 30 << 8, 60, 2)], lines

    def image(self):
        pixels = {}

        def stamp(rows, left, top, index):
            for j, row in enumerate(rows):
                pixels.update({(left + i, top + j): index for i, mark in enumerate(row) if mark == "#"})

        stamp(["#" * 16] * 8, self.basket, 144, 3)
        stamp(["#" * 14] * 6, self.basket + 1, 145, 1)
        stamp(APPLE, *self.apple, 3)
        for text, left in ((f"SCORE {self.score:3}", 4), (f"BEST {self.best:3}", 92)):
            for at, code in enumerate(text.encode()):
                stamp(GLYPHS[code], left + 8 * at, 4, 3)
        return images.image(lambda x, y: pixels.get((x, y), 0))


def glyphs():
    """The rows of each glyph by its code. A 0 bit is ink."""
    with open(FONT, "rb") as file:
        font = file.read()
    rows = [f"{byte:08b}".replace("0", "#") for byte in font]
    return {code: rows[8 * (code - 32):8 * (code - 31)] for code in range(32, 256)}


GLYPHS = glyphs()


def play(name):
    """The game at each place of a recording of version 2, and what the place played and traced."""
    with open(os.path.join(INPUTS, "recordings", name), "rb") as file:
        data = file.read()
    begin = 43 + int.from_bytes(data[41:43], "little")
    game = Game(data[43:begin])
    yield copy.copy(game), True, [], []
    for at in range(begin + 4, len(data), 10):
        if data[at + 9]:
            game = Game(game.disk)
        tones, lines = game.frame(data[at])
        yield copy.copy(game), bool(data[at + 9]), tones, lines


def sum_of(data):
    return hashlib.sha256(data).hexdigest()


def images_of(places):
    return b"".join(game.image() for game, *_ in places)


def main():
    places = list(play("apples-from-c.w4rec"))
    again = list(play("apples-from-c-again.w4rec"))
    for name, place in {"score-2": places[605], "score-10": places[-1], "short-score-2": again[-1]}.items():
        with open(os.path.join(HERE, name + ".disk"), "wb") as file:
            file.write(place[0].disk)
    for place, (_, _, _, lines) in enumerate(places):
        for line in lines:
            print(f"place {place}: {line}")
    print("the last places:", len(places) - 1, len(again) - 1)
    print("wave:", sum_of(wave.wav([(reset, tones) for _, reset, tones, _ in places])))
    print("frames 1400 1500:", sum_of(images_of(places[1400:1501])))
    print("frames 350 363 of the second:", sum_of(images_of(again[350:364])))


main()
