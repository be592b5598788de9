#!/usr/bin/env python3
"""Prints the rows and sums that examples.case wants of the garden: its robot, its picture and its waltz are
simulated here from what examples/garden/garden.wat says in words, without WebAssembly.
"""
import hashlib
import os
import struct
import sys

HERE = os.path.dirname(os.path.abspath(__file__))
sys.dont_write_bytecode = True
sys.path.insert(0, HERE)
import wave  # noqa: E402

EXAMPLES = os.path.join(HERE, os.pardir, os.pardir, "examples")
BUTTON, LEFT, RIGHT = 1, 16, 32
SKY, SUN, LEAVES, EARTH = range(4)
PALETTE = ["dcefff", "f4a259", "5b8e7d", "2d3142"]
ROBOT = """
....########....
...##########...
...##..##..##...
...##########...
...###....###...
....########....
......####......
..###########...
.##.##########..
.##.########.##.
....########.##.
....########....
....###..###....
....###..###....
...####..####...
...####..####...
""".split()
FLOWER = """
..1111..
.111111.
.112211.
.112211.
..1111..
....3...
...33...
....3...
""".split()
TUNE = "E5 - G5 - E5 D5 C5 - E5 - C5 B4 A4 - C5 - F5 E5 D5 - - B4 D5 -".split()
BASS = "C3 - E4 - G4 - A2 - C4 - E4 - F3 - C4 - F4 - G3 - B3 - D4 -".split()
BRUSHES = "--x-x---x-x---x-x---x-xx"


def hertz(note):
    """In equal temperament, A4 being 440 hertz."""
    above_a = {"C": -9, "D": -7, "E": -5, "F": -4, "G": -2, "A": 0, "B": 2}[note[0]]
    return round(440 * 2 ** (above_a / 12 + int(note[1]) - 4))


class Garden:
    def __init__(self):
        self.frames = self.hop = self.hops = 0
        self.x, self.flipped = 8, False

    def step(self, dx):
        self.x = min(max(self.x + dx, 0), 144)
        self.flipped = dx < 0

    def frame(self, pad):
        """The tones that it plays."""
        tones = []
        if pad & LEFT:
            self.step(-1)
        if pad & RIGHT:
            self.step(1)
        if self.hop:
            self.hop -= 1
        elif pad & BUTTON:
            self.hop = 24
            self.hops += 1
            tones.append((280 | 700 << 16, 16 | 8 << 8, 40, 0))
        if self.frames % 10 == 0:
            at = self.frames // 10 % 24
            if TUNE[at] != "-":
                tones.append((hertz(TUNE[at]), 6 | 14 << 8, 26, 1 | 1 << 2))
            if BASS[at] != "-":
                tones.append((hertz(BASS[at]), 4 | 16 << 8, 45, 2))
            if BRUSHES[at] != "-":
                tones.append((8_000, 5 << 8, 7, 3 | 2 << 4))
        self.frames += 1
        return tones

    def point(self, x, y, index):
        if 0 <= x < 160 and 0 <= y < 160:
            self.screen[y][x] = index

    def oval(self, left, top, width, height, fill, outline):
        def inside(i, j):
            over, down = (2 * i + 1 - width) * height, (2 * j + 1 - height) * width
            return over * over + down * down <= (width * height) ** 2

        cells = {(i, j) for i in range(width) for j in range(height) if inside(i, j)}
        for i, j in cells:
            within = {(i - 1, j), (i + 1, j), (i, j - 1), (i, j + 1)} <= cells
            self.point(left + i, top + j, fill if within else outline)

    def stamp(self, rows, left, top, colors):
        for j, row in enumerate(rows):
            for i, mark in enumerate(row):
                if mark in colors:
                    self.point(left + i, top + j, colors[mark])

    def text(self, words, left, top):
        with open(os.path.join(EXAMPLES, "first", "font.bin"), "rb") as file:
            font = file.read()
        for at, code in enumerate(words.encode()):
            rows = [f"{bits:08b}" for bits in font[8 * (code - 32):8 * (code - 31)]]
            self.stamp(rows, left + 8 * at, top, {"0": EARTH})

    def draw(self):
        self.screen = [[SKY] * 160 for _ in range(160)]
        self.oval(112, 18, 32, 32, SUN, LEAVES)
        self.oval(-30, 84, 130, 120, LEAVES, EARTH)
        self.oval(70, 98, 140, 110, LEAVES, EARTH)
        for y in range(138, 160):
            for x in range(160):
                self.point(x, y, LEAVES if y == 141 else EARTH)
        self.text("A ROBOT'S GARDEN", 8, 6)
        for at in range(8):
            self.stamp(FLOWER, 20 * at + 6, 130 - at % 4, {"1": SUN, "2": LEAVES, "3": EARTH})
        rows = [row[::-1] if self.flipped else row for row in ROBOT]
        height = 24 - self.hop if self.hop > 12 else self.hop
        self.stamp(rows, self.x, 122 - height, {"#": EARTH})

    def image(self):
        """As the last frame drew it."""
        self.draw()
        colors = [bytes.fromhex(color) for color in PALETTE]
        return b"P6\n160 160\n255\n" + b"".join(colors[index] for row in self.screen for index in row)


def play(inputs):
    """The garden after inputs, each a pad and whether a reset comes first; and what each place played."""
    garden, places = Garden(), [(True, [])]
    for pad, reset in inputs:
        if reset:
            garden = Garden()
        places.append((reset, garden.frame(pad)))
    return garden, places


def inputs_of(name):
    with open(os.path.join(EXAMPLES, "garden", name), "rb") as file:
        data = file.read()
    size = 8 + data[4]
    assert data[41:43] == bytes(2) and (len(data) - 47) % size == 0
    return [(data[at], data[at + 9:at + size] == b"\x01") for at in range(47, len(data), size)]


def sum_of(data):
    return hashlib.sha256(data).hexdigest()


def recording(inputs):
    """The game with these inputs, in version 2; the mouse is away."""
    with open(os.path.join(EXAMPLES, "garden", "game.w4rec"), "rb") as file:
        front = b"W4RC\x02" + file.read()[5:47]
    return front + b"".join(bytes([pad, 0, 0, 0, 255, 127, 255, 127, 0, reset]) for pad, reset in inputs)


def images(*held):
    """An image after each of these lists of pads."""
    return [play([(pad, False) for pad in pads])[0].image() for pads in held]


def main():
    for name in ("game", "again"):
        inputs = inputs_of(name + ".w4rec")
        garden, places = play(inputs)
        image = sum_of(garden.image())
        print(f"examples/garden/{name}.w4rec {len(inputs)} halt running image {image} disk 0")
        print(f"{garden.hops} hops; the sound of {name}:", sum_of(wave.wav(places)))
    game = inputs_of("game.w4rec")
    print("hops at places 59 to 62 and 119 to 122:",
          *(play(game[:place])[0].hops for place in (59, 60, 61, 62, 119, 120, 121, 122)))

    # rollback.txt: right is held; then the button is known to be held from frame 10; then it was let go in 12
    right, both = [RIGHT], [RIGHT | BUTTON]
    before, late, let_go = images(right * 20, right * 10 + both * 10, right * 10 + both * 2 + right * 8)
    assert before != late == let_go
    print("rollback.txt:", sum_of(before + late + b"refused conflict 32 33\n" + let_go
                                  + b"state 20 of 20 halt running disk 0 kept 0 10\n"))

    # edits.txt: place 70 with the first hop and without it
    edited = game[:60] + [(RIGHT, False)] * 4 + game[64:]
    hop, walk = (play(inputs[:70])[0].image() for inputs in (game, edited))
    print("edits.txt:", sum_of(hop + walk + b"state 70 of 240 halt running disk 0 kept 0\n"))
    print("OUT:", sum_of(recording(edited)))


main()
