"""Sound and films of a saved recording, made by commands of w4. The server calls them in threads."""
import pathlib
import shutil
import struct
import subprocess
import tempfile

import moving_png
import programs
from refusal import Refusal

WAV_HEADER, PLACE_SOUND = 44, 2_940  # bytes of a WAV file's header, and of the sound of a place
BLOCK = 1 << 16
SIZE = "scale=640:640:flags=neighbor"


def start(*words):
    """A command of w4 whose output is read."""
    return programs.start([programs.program(), *words], stdin=subprocess.DEVNULL, stdout=subprocess.PIPE,
                          stderr=subprocess.DEVNULL)


def skip(stream, count):
    while count and (block := stream.read(min(count, BLOCK))):
        count -= len(block)


def wave(files, first, last):
    """A WAV file of the sound of places, cut out of that of the whole recording."""
    length = (last - first + 1) * PLACE_SOUND
    with start("wave", files.cart, files.draft, files.font) as process:
        header = process.stdout.read(WAV_HEADER)
        skip(process.stdout, first * PLACE_SOUND)
        samples = process.stdout.read(length)
        process.kill()
    if len(samples) < length:
        raise Refusal("those places aren't there")
    return b"RIFF" + struct.pack("<I", length + 36) + header[8:40] + struct.pack("<I", length) + samples


def film(files, first, last):
    """Type and bytes of a film of places: a moving PNG without sound where ffmpeg isn't installed."""
    if shutil.which("ffmpeg"):
        return "video/mp4", film_with_sound(files, first, last)
    with start("frames", files.cart, files.draft, files.font, first, last) as images:
        return "image/png", moving_png.of_images(images.stdout, last - first + 1)


def film_with_sound(files, first, last):
    """The images and the sound of places, joined by ffmpeg."""
    with tempfile.TemporaryDirectory() as room:
        sound, joined = pathlib.Path(room, "sound.wav"), pathlib.Path(room, "film.mp4")
        sound.write_bytes(wave(files, first, last))
        with start("frames", files.cart, files.draft, files.font, first, last) as images:
            status, errors = join(images.stdout, sound, joined)
            images.kill()
        if status:
            raise Refusal(errors or f"ffmpeg failed (status {status})")
        return joined.read_bytes()


def join(images, sound, joined):
    """Runs ffmpeg; its status, and what it says."""
    words = ["ffmpeg", "-y", "-loglevel", "error", "-f", "image2pipe", "-framerate", "60", "-c:v", "ppm", "-i", "-",
             "-i", sound, "-vf", SIZE, "-pix_fmt", "yuv420p", joined]
    with programs.start(words, stdin=images, stderr=subprocess.PIPE) as made:
        _, errors = made.communicate()
    return made.returncode, errors.decode("utf-8", "replace").strip()
