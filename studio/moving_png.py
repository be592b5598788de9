"""A film as a moving PNG (Portable Network Graphics, third edition), which browsers show: made without
another program, and without sound.
"""
import struct
import zlib

from refusal import Refusal

SIDE, SCALE, RATE = 160, 4, 60  # pixels of an image's side, of a pixel's side in the film; frames a second
HEADER = b"P6\n160 160\n255\n"  # before the pixels that `frames` writes of each place
PIXELS = 3 * SIDE * SIDE
LONGEST = 65_535  # what a frame's delay can count
AS_ABOVE = b"\2" + bytes(3 * SCALE * SIDE)  # a row that is the same as that above it


def chunk(name, data):
    return struct.pack(">I", len(data)) + name + data + struct.pack(">I", zlib.crc32(name + data))


def read_images(stream, count):
    """The pixels of each image."""
    for _ in range(count):
        data = stream.read(len(HEADER) + PIXELS)
        if len(data) < len(HEADER) + PIXELS or not data.startswith(HEADER):
            raise Refusal("those places aren't there")
        yield data[len(HEADER):]


def held(images):
    """Each image that differs from the one before it, and for how many frames it stands."""
    last, length = None, 0
    for pixels in images:
        if pixels == last and length < LONGEST:
            length += 1
            continue
        if length:
            yield last, length
        last, length = pixels, 1
    if length:
        yield last, length


def compressed(pixels):
    """The rows of an image, each pixel of it a square."""
    wide = bytearray(SCALE * PIXELS)
    for color in range(3):
        for at in range(SCALE):
            wide[3 * at + color::3 * SCALE] = pixels[color::3]
    width = 3 * SCALE * SIDE
    rows = (b"\0" + wide[at:at + width] + AS_ABOVE * (SCALE - 1) for at in range(0, len(wide), width))
    return zlib.compress(b"".join(rows), 6)


def of_images(stream, count):
    """The film of the images that a stream of `frames` has, played without an end."""
    side = SCALE * SIDE
    shown = [(compressed(pixels), length) for pixels, length in held(read_images(stream, count))]
    chunks = [chunk(b"IHDR", struct.pack(">2I5B", side, side, 8, 2, 0, 0, 0)),
              chunk(b"acTL", struct.pack(">2I", len(shown), 0))]
    number = 0  # of the chunks that belong to a frame
    for at, (data, length) in enumerate(shown):
        chunks.append(chunk(b"fcTL", struct.pack(">5I2H2B", number, side, side, 0, 0, length, RATE, 0, 0)))
        number += 1
        if at == 0:
            chunks.append(chunk(b"IDAT", data))
        else:
            chunks.append(chunk(b"fdAT", struct.pack(">I", number) + data))
            number += 1
    return b"\x89PNG\r\n\x1a\n" + b"".join(chunks) + chunk(b"IEND", b"")
