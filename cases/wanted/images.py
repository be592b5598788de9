"""Images, for the scripts that say what is wanted.

An image is a PPM file of 160 by 160 pixels. A pixel's entry stands in two bits of the framebuffer, the lowest
bits of a byte leftmost, and names one of the palette's four colors.
"""
PALETTE = ["e0f8cf", "86c06c", "306850", "071821"]


def image(entry_of, palette=PALETTE):
    """The image whose pixel (x, y) has this entry."""
    colors = [bytes.fromhex(color) for color in palette]
    return b"P6\n160 160\n255\n" + b"".join(colors[entry_of(x, y)] for y in range(160) for x in range(160))


def of_framebuffer(front):
    """The entries of a framebuffer that begins with these bytes and is clear after them."""
    def entry_of(x, y):
        byte, place = divmod(160 * y + x, 4)
        return front[byte] >> 2 * place & 3 if byte < len(front) else 0
    return entry_of
