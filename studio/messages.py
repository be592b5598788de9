"""Lines for whoever started the studio. Nothing fails because of them: a terminal may be closed, a disk be full."""
import contextlib
import os

OUTPUT, ERRORS = 1, 2  # numbers of the standard streams


def hold_standard_streams():
    """Gives a stream that is closed to /dev/null, so that no file of the studio gets its number, and its messages."""
    number = os.open(os.devnull, os.O_RDWR)
    while number <= ERRORS:
        number = os.open(os.devnull, os.O_RDWR)
    os.close(number)


def write_line(text, stream=OUTPUT):
    """Writes a line, or as much of it as there is room for."""
    with contextlib.suppress(OSError):
        os.write(stream, text.encode("utf-8", "replace") + b"\n")


def say(text):
    """Writes a line of the studio to standard error."""
    write_line(f"studio: {text}", ERRORS)
