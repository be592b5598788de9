#!/usr/bin/env python3
"""Writes the outputs beside it that cases want, from the rules of the console and not from the program."""
import hashlib
import os
import sys

HERE = os.path.dirname(os.path.abspath(__file__))
sys.dont_write_bytecode = True
sys.path.insert(0, HERE)
from images import PALETTE, image, of_framebuffer  # noqa: E402


def write(name, data):
    with open(os.path.join(HERE, name), "wb") as file:
        file.write(data)


def written(recording):
    """A recording of version 1 as it is written, in version 2: no frame has a reset."""
    assert recording[:5] == b"W4RC\x01"
    disk_end = 43 + int.from_bytes(recording[41:43], "little")
    front, frames = recording[5:disk_end + 4], recording[disk_end + 4:]
    assert len(frames) == 9 * int.from_bytes(recording[disk_end:disk_end + 4], "little")
    return b"W4RC\x02" + front + b"".join(frames[at:at + 9] + b"\x00" for at in range(0, len(frames), 9))


# The recordings that edits of cases leave.
INPUTS = os.path.join(HERE, os.pardir, "inputs")
LEFT = """
calls-itself-of-4095 calls-itself-of-4096 copy-past-the-page counts-down-from-1000-of-36000
counts-down-from-12000-of-400 counts-down-of-1000 counts-in-a-global counts-frames-of-1024 counts-frames-of-600 divides-by-zero endless-loop fills-of-103 fills-of-104 first
first-1-0 first-1-1-2 first-27 first-5-4 first-5-9 first-9-9 first-of-1 first-of-100-and-0 first-of-3 loads-by-pad loads-by-pad-0 loads-by-pad-1 nested-blocks-of-19999
nested-blocks-of-20000 smallest smallest-of-120-and-a-pad smallest-of-2 smallest-of-9 store-past-the-page three-nops-of-2
three-nops-of-3 unreachable writes-a-long-disk
"""
for folder, names in (("recordings", [name + ".w4rec" for name in LEFT.split()]),
                      ("machine", sorted(os.listdir(os.path.join(INPUTS, "machine"))))):
    os.makedirs(os.path.join(HERE, folder), exist_ok=True)
    for name in names:
        if name.endswith(".w4rec"):
            with open(os.path.join(INPUTS, folder, name), "rb") as file:
                write(os.path.join(folder, name), written(file.read()))

# A page on which nothing was painted.
write("clear.ppm", image(of_framebuffer(b"")))
# The first byte of the framebuffer is pad 1: 27, 228, 1 and 2.
write("pad-27.ppm", image(of_framebuffer(b"\x1b")))
write("pad-228.ppm", image(of_framebuffer(b"\xe4")))
write("pad-1.ppm", image(of_framebuffer(b"\x01")))
write("pad-2.ppm", image(of_framebuffer(b"\x02")))
# Its first four bytes are the pads of four players; the second lets its button go.
write("pads-1-2-4-8.ppm", image(of_framebuffer(b"\x01\x02\x04\x08")))
write("pads-1-0-4-8.ppm", image(of_framebuffer(b"\x01\x00\x04\x08")))
# Two letters of a font of zeros, which is all ink, one below the other: 8 by 16 pixels in the second color.
write("letters.ppm", image(lambda x, y: 1 if x < 8 and y < 16 else 0))


def blits_of(pad):
    """What the cart `blits-by-pad` shows where this is pad 1, drawn cell by cell."""
    sprite = bytes((i * i * 7 + i * 5 + 27) % 256 for i in range(64)) + bytes(64)
    flags, width, screen = pad % 16, pad // 16 + 1, {}
    turned = flags // 8 % 2
    for k in range(52):
        left, colors = k - 12 if k < 25 else k + 123, (0x1342, 0x4021, 0x2403, 0xFED0)[k % 4]
        for i in range(width):
            for j in range(3):
                column = k % 8 + (width - 1 - i if flags // 2 % 2 != turned else i)
                pixel = 19 * (1 + (2 - j if flags // 4 % 2 else j)) + column
                if flags % 2:
                    value = sprite[pixel // 4] >> (6 - 2 * (pixel % 4)) & 3
                else:
                    value = sprite[pixel // 8] >> (7 - pixel % 8) & 1
                nibble = colors >> 4 * value & 15
                if nibble:
                    at = (left + j, 3 * k + i) if turned else (left + i, 3 * k + j)
                    screen[at] = (nibble - 1) % 4
    return image(lambda x, y: screen.get((x, y), 0))


# 192 images: all flags, and the widths 1 to 12. The case has their sum.
blits = hashlib.sha256()
for pad_1 in range(192):
    blits.update(blits_of(pad_1))
print("blits-by-pad, out-sha256", blits.hexdigest())

def blit(page, colors, flags, ptr, x, y, w, h, src_x, src_y, stride):
    """Paints a sprite cell by cell. What it reads is the page as it was."""
    before, turned = bytes(page), flags // 8 % 2
    for i in range(w):
        for j in range(h):
            column = src_x + (w - 1 - i if flags // 2 % 2 != turned else i)
            pixel = (src_y + (h - 1 - j if flags // 4 % 2 else j)) * stride + column
            at = ptr + pixel // (4 if flags % 2 else 8)
            byte = before[at] if at < 65_536 else 0
            value = byte >> (6 - 2 * (pixel % 4)) & 3 if flags % 2 else byte >> (7 - pixel % 8) & 1
            nibble = colors >> 4 * value & 15
            u, v = (x + j, y + i) if turned else (x + i, y + j)
            if nibble and 0 <= u < 160 and 0 <= v < 160:
                at, shift = 160 + (160 * v + u) // 4, 2 * (u % 4)
                page[at] = page[at] & ~(3 << shift) | (nibble - 1) % 4 << shift


def blits_within(flags):
    """What the cart `blits-within-pages` shows where its pad is this."""
    page = bytearray(65_536)
    page[6_560:6_624] = bytes((i * 37 + 11) % 256 for i in range(64))
    page[0x2000:0x20A0] = bytes((i * i * 7 + i * 5 + 27) % 256 for i in range(160))
    page[65_530:] = bytes((i * 91 + 45) % 256 for i in range(6))
    for colors, flags_of, *arguments in (
            (0x1342, 1, 0x2000, 0, 0, 160, 160, 0, 0, 3),
            (0x1342, flags, 560, 3, 12, 70, 30, 0, 0, 160), (0x4021, flags, 160, -7, 40, 41, 9, 2, 1, 160),
            (0x1342, flags, 150, 90, -4, 33, 11, 1, 0, 37), (0x2403, flags, 6549, 149, 60, 21, 10, 3, 1, 23),
            (0x1342, flags, 65529, 40, 151, 19, 14, 0, 0, 19), (0xFED0, flags, 6511, 2, 90, 18, 60, 1, 1, 5),
            (0x1342, flags, 4000, -1, 100, 162, 50, 0, 2, 160), (0x3210, flags, 161, 71, 3, 80, 80, 5, 0, 97)):
        blit(page, colors, flags_of, *arguments)
    return image(of_framebuffer(page[160:6_560]))


# 16 images, one for each of the flags.
print("blits-within-pages, out-sha256",
      hashlib.sha256(b"".join(blits_within(pad_1) for pad_1 in range(16))).hexdigest())

# 128 as a signed byte is -128: the bytes 80 ff ff ff.
write("extended.ppm", image(of_framebuffer(bytes.fromhex("80ffffff"))))
# Each byte of the framebuffer is 0x55.
write("filled.ppm", image(lambda x, y: 1))
# The palette's first entry is spelled cf f8 e0 00 at address 4. The three bytes from 4 on are copied to 5,
# so that it is cf cf f8 e0: blue, green, red.
write("palette.ppm", image(lambda x, y: 0, ["f8cfcf"] + PALETTE[1:]))

# Shapes of the widths 1 to 12 at each place from -12 to 12, and as far from the screen's other side, on a
# page of entry 2.
def hline(x, y, length):
    return {(x + i, y): 1 for i in range(length)}


def vline(x, y, length):
    return {(x, y + i): 1 for i in range(length)}


def rect(x, y, w, h):
    return {(x + i, y + j): 3 if i in (0, w - 1) or j in (0, h - 1) else 1
            for i in range(w) for j in range(h)}


def oval(x, y, w, h):
    """A cell is within where its middle is in the ellipse, and at the edge where a neighbour isn't within."""
    def within(i, j):
        return ((2 * i + 1 - w) * h) ** 2 + ((2 * j + 1 - h) * w) ** 2 <= (w * h) ** 2

    def inner(i, j):
        return within(i - 1, j) and within(i + 1, j) and within(i, j - 1) and within(i, j + 1)
    return {(x + i, y + j): 1 if inner(i, j) else 3 for i in range(w) for j in range(h) if within(i, j)}


def drawn(pad):
    entries = {}
    for step in range(150):
        place, size = divmod(150 * ((pad - 1) % 2) + step, 12)
        for x in (place - 12, place + 136):
            draw = [lambda: hline(x, step, size + 1), lambda: vline(step, x, size + 1),
                    lambda: rect(x, step, size + 1, 5), lambda: oval(x, step, size + 1, 5)][(pad - 1) // 2]
            entries.update(draw())
    return image(lambda x, y: entries.get((x, y), 2))


print("draws-by-pad:", hashlib.sha256(b"".join(map(drawn, range(1, 9)))).hexdigest())

# The disk that a recording brings; `abc` and the zeros that follow it in the page, cut at the disk's limit;
# and the last six bytes of a page that nothing was written to.
write("xyz.disk", b"xyz")
write("abc.disk", b"abc" + bytes(1_021))
write("six-zeros.disk", bytes(6))

# 65 tones on channel 0, one frame each at level 100, with the frequencies 1 to 65: 64 are listed, and the
# last one sounds.
lines = [f"tone 0 {first} 0 0 0 1 0 100 100 0 0 0" for first in range(1, 65)]
write("65-tones.txt", "\n".join(["frame 0", "frame 1", *lines, "dropped 1", "sound 0 100 65", ""]).encode())

# 33 traces of `a` in a frame.
write("33-traces.txt", b"frame 0\nframe 1\n" + b"trace a\n" * 32 + b"dropped 1\n")


def state(place, of, kept):
    """The state line of a cart that runs and has no disk."""
    return f"state {place} of {of} halt running disk 0 kept {' '.join(map(str, kept))}\n"


# The script `1024-places`: each second place of 1,024, of which the last becomes 1,023; then 1,024 places;
# then the last one without place 5.
EACH_SECOND, FULL = [*range(0, 1_024, 2), 1_023], "refused full\n"
write("1024-places.txt", (
    FULL + state(0, 1_024, [0]) + FULL + state(1_023, 1_023, EACH_SECOND) + state(1_023, 1_023, range(1_024))
    + FULL + "refused kept\nrefused no frame\n" + FULL + FULL
    + state(1_024, 1_024, [place for place in range(1_025) if place != 5])).encode())

# The last of 1,024 places, by its number.
write("1024-frames.ppm", image(of_framebuffer((1_024).to_bytes(4, "little"))))

# The rows of 256 recordings of two frames of zeros.
CLEAR = hashlib.sha256(image(of_framebuffer(b""))).hexdigest()
write("256-rows.txt", f"inputs/recordings/first.w4rec 2 halt running image {CLEAR} disk 0\n".encode() * 256)


def page_of_first(pad):
    """The page of a place of the cart `first`: registers as the reset leaves them, and the pad, which stands in the
    framebuffer too. The recordings have a mouse of zeros."""
    page = bytearray(65_536)
    page[4:32] = bytes.fromhex("cff8e000 6cc08600 50683000 21180700 0312") + bytes([pad]) + bytes(9)
    page[160] = pad
    return bytes(page)


# The pages of the places 1 and 2 where the pads are 5 and 9.
write("pad-5.page", page_of_first(5))
write("pad-9.page", page_of_first(9))


def answered(*pieces):
    """The answer of an order of a live session: its pieces, each behind its length, and its end."""
    return b"".join(b"%d\n" % len(piece) + piece for piece in pieces) + b"0\n"


# The answers of the orders `a-hundred`: an edit's is empty.
write("a-hundred-answers.txt", b"".join(
    answered() + answered(b"watch 160 %d\n" % pad) for pad in range(1, 101)))

# 400 frames of 60,003 units.
write("400-units.txt", b"start 0\n" + b"".join(b"units %d 60003\n" % k for k in range(400)))
