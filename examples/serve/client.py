#!/usr/bin/env python3
"""A client of `w4 serve`, in one file: orders typed by hand, and a bot.

    python3 client.py CART REC FONT OUT
        reads orders, such as `show 70`, and shows the answers
    python3 client.py CART REC FONT OUT try-inputs FRAME ADDRESS WIDTH
        tries 64 inputs of gamepad 1 in a frame, watches a number in memory ten frames later, and keeps the
        input that makes it the greatest
    python3 client.py CART REC FONT OUT picture PLACE FILE.png
        saves the picture of a place

OUT becomes the recording as it is left. W4 in the environment names the program; else it is ./w4, or the w4 on the
PATH. It ends with the program's status, with 1 where an order was refused, and with 2 where the arguments aren't these.
"""
import collections
import contextlib
import os
import re
import struct
import subprocess
import sys
import tempfile
import zlib

IMAGE, HEADER, SIDE = 76_815, 15, 160
LATER = 10  # frames from the one that is tried to the place that is watched
# All that one player can hold at once: buttons 1 and 2, left 16, right 32, up 64, down 128.
BYTES = [directions | buttons for directions in range(0, 256, 16) for buttons in range(4)]
# What to do where an order is refused, and where the program ends by itself: by its status.
AFTER_REFUSAL = {
    "no frame": "the recording ends before it; `state 0` says how many inputs it has",
    "outside": "ADDRESS and WIDTH together are at most 65536",
    "no order": "docs/FORMATS.md, 'Live session', has the orders, and what their numbers may be",
    "cannot write": "{out} can't be replaced: its folder has to be writable and to have room",
}
AFTER_STATUS = {
    2: "{program} knows no `serve`, or a name isn't UTF-8: W4=.. names another program",
    3: "{cart} is no cart of this console: docs/TASKS.md, 'Find out why a cart is refused', says what to change",
    4: "{recording} is no recording, or one of another cart than {cart}: `w4 rebind` makes it one of this cart",
    5: "{font} is no font: examples/first/font.bin is one",
    8: "{out} can't be written: its folder has to be writable and to have room; the file is as it was",
    9: "memory ran out: {out} is as it was, or has the orders so far; keep fewer places",
    13: "the orders can't be read any more: {out} has those so far",
}


class Refused(Exception):
    """The answer of an order that can't be done."""

    def __init__(self, order, why):
        super().__init__(f"{order}: refused {why}")
        self.why = why


class Failure(Exception):
    """What ends the client: a sentence, and the exit status."""

    def __init__(self, sentence, status=1):
        super().__init__(sentence)
        self.status = status if status >= 0 else 128 - status


class Session:
    """A live session. Each line has one answer: pieces, each after its length, and a length of 0 at the end."""

    def __init__(self, cart, recording, font, out):
        program = os.environ.get("W4") or ("./w4" if os.path.exists("./w4") else "w4")
        self.names = {"program": program, "cart": cart, "recording": recording, "font": font, "out": out}
        self.sent = collections.deque()  # the orders whose answers are still to come
        try:
            # SIGXFSZ stays ignored, as Python itself ignores it, so a limit of file sizes is an error that is told;
            # Ctrl-C ends the client, and the program then sees the end of its input, and writes OUT.
            self.process = subprocess.Popen([program, "serve", cart, recording, font, out], stdin=subprocess.PIPE,
                                            stdout=subprocess.PIPE, restore_signals=False, start_new_session=True)
        except OSError as error:
            raise Failure(f"{program}: {error.strerror}: start this at the top of the repository, or name the program "
                          "by W4=..", 127) from None

    def ended(self):
        """Why the program has ended, beside its own line on standard error: which file, and what to do."""
        with contextlib.suppress(OSError):
            self.process.stdin.close()
        status = self.process.wait()
        if status == 7:
            names = [self.names[name] for name in ("cart", "recording", "font")]
            lost = [name for name in names if not os.access(name, os.R_OK) or os.path.isdir(name)] or names
            return Failure(f"{', '.join(lost)}: no such file, or it can't be read: name another", 7)
        killed = f"{{program}} was killed by signal {-status}: {{out}} is as it was last saved"
        unknown = f"{{program}} ended with status {status}, and isn't this w4: W4=.. names another program"
        sentence = AFTER_STATUS.get(status, killed if status < 0 else unknown)
        return Failure(sentence.format(**self.names), status or 1)

    def send(self, *orders):
        """Sends orders; `receive` gets their answers one after another."""
        self.sent.extend(orders)
        try:
            self.process.stdin.write("".join(f"{order}\n" for order in orders).encode(errors="surrogateescape"))
            self.process.stdin.flush()
        except BrokenPipeError:
            raise self.ended() from None

    def pieces(self):
        """The pieces of the next answer as they come."""
        while (line := self.process.stdout.readline()) != b"0\n":
            if not re.fullmatch(rb"\d+\n", line):
                raise self.ended()
            yield self.process.stdout.read(int(line))

    def receive(self):
        answer, order = b"".join(self.pieces()), self.sent.popleft()
        if answer.startswith(b"refused ") and len(answer) < 40:
            raise Refused(order, answer.decode().strip()[len("refused "):])
        return answer

    def ask(self, order):
        self.send(order)
        return self.receive()

    def text(self, order):
        return self.ask(order).decode("latin-1")

    def advice(self, refused):
        """What to do after a refusal."""
        return AFTER_REFUSAL.get(refused.why, "the state doesn't permit it").format(**self.names)

    def rescue(self):
        """Writes the inputs, which OUT can't have, as a script into a file of their own, and says where it is."""
        count = self.text("state 0").split()[3]
        lines = self.text(f"inputs 0 {count}").replace("set ", "insert ")
        with tempfile.NamedTemporaryFile("w", prefix="w4-inputs-", suffix=".txt", delete=False) as file:
            file.write(lines)
        return f"the inputs are in {file.name}, a script for `w4 edit` over a recording that `w4 blank` makes"

    def close(self):
        """Ends the session with OUT written. Where it can't be, the inputs are put elsewhere."""
        try:
            self.ask("save")
        except Refused as refused:
            try:
                place = self.rescue()
            except OSError as error:
                place = f"nor can the inputs be put elsewhere ({error.strerror})"
            with contextlib.suppress(Failure):
                self.end()
            raise Failure(f"{self.advice(refused)}; {place}", 8) from None
        return self.end()

    def end(self):
        """Ends the input, and waits for the program, which writes OUT."""
        self.process.stdin.close()
        while self.process.stdout.read(65_536):
            pass
        if self.process.wait():
            raise self.ended()
        return 0


def chunk(kind, data):
    """A part of a PNG file."""
    return struct.pack(">I", len(data)) + kind + data + struct.pack(">I", zlib.crc32(kind + data))


def png(image):
    """A PNG file of an image as `show` writes it, each pixel three wide and high."""
    rows = [image[HEADER + 3 * SIDE * y:HEADER + 3 * SIDE * (y + 1)] for y in range(SIDE)]
    wide = [b"".join(row[3 * x:3 * x + 3] * 3 for x in range(SIDE)) for row in rows]
    lines = b"".join((b"\0" + row) * 3 for row in wide)
    head = struct.pack(">IIBBBBB", 3 * SIDE, 3 * SIDE, 8, 2, 0, 0, 0)
    return b"\x89PNG\r\n\x1a\n" + b"".join([
        chunk(b"IHDR", head), chunk(b"IDAT", zlib.compress(lines)), chunk(b"IEND", b"")])


def write_png(name, image):
    try:
        with open(name, "wb") as file:
            file.write(png(image))
    except OSError as error:
        raise Failure(f"{name}: {error.strerror}: name one in a folder that is writable and has room") from None


def save_picture(session, place, name):
    write_png(name, session.ask(f"show {place}"))


def try_inputs(session, frame, address, width):
    """Tries each byte of gamepad 1 in the frame, and leaves the one that makes the number the greatest."""
    place = frame + 1 + LATER
    old = session.text(f"inputs {frame} {frame + 1}").split()[2:]
    try:
        session.ask(f"keep {frame}")  # so that each try runs the frames from this one on alone
    except Refused as refused:
        if refused.why == "no frame":
            raise  # else it is kept already, or no more can be
    tries = [f"set {frame} {byte} {' '.join(old[1:])}" for byte in BYTES]
    session.send(*(order for each in tries for order in (each, f"watch {address} {width} {place} {place}")))
    values = []
    for _ in tries:
        session.receive()
        values.append(int(session.receive().split()[2]))
    best = values.index(max(values))
    session.ask(tries[best])
    return BYTES[best], values


def show(order, answer):
    """Shows an answer: text as it is, images as files."""
    images = [answer[at:at + IMAGE] for at in range(0, len(answer), IMAGE)] if answer[:3] == b"P6\n" else []
    for number, image in enumerate(images):
        name = "-".join(re.findall(r"\w+", order) + [str(number)]) + ".png"
        write_png(name, image)
        print(f"{name} is written")
    if not images:
        sys.stdout.write(answer.decode("latin-1") if answer.isascii() else f"{len(answer)} bytes\n")


def type_orders(session):
    """Reads orders until the input ends."""
    while True:
        try:
            order = input("w4> " if sys.stdin.isatty() else "")
        except EOFError:
            return
        try:
            show(order, session.ask(order))
        except Refused as refused:
            print(f"{refused}: {session.advice(refused)}")
        except Failure as failure:
            if session.process.poll() is not None:
                raise
            print(failure)  # a picture that can't be written; the session goes on


def numbers(words):
    """Words that have to be numbers."""
    for word in words:
        if not word.isdecimal():
            raise Failure(f"{word} is no number: `client.py` without arguments shows what it takes", 2)
    return map(int, words)


def carry_out(session, acts):
    """What the arguments behind the files ask for."""
    if not acts:
        type_orders(session)
    elif acts[0] == "picture":
        save_picture(session, *numbers(acts[1:2]), acts[2])
    else:
        frame, address, width = numbers(acts[1:])
        best, values = try_inputs(session, frame, address, width)
        print(f"best of {len(values)} tries in frame {frame}: gamepad 1 = {best}, number {max(values)} "
              f"(smallest {min(values)})")


def main(words):
    acts = words[4:]
    if len(words) < 4 or (acts[:1], len(acts)) not in [([], 0), (["picture"], 3), (["try-inputs"], 4)]:
        raise Failure(__doc__, 2)
    session = Session(*words[:4])
    try:
        carry_out(session, acts)
    except KeyboardInterrupt:
        print(f"client: the session ends, and {words[3]} is written; Ctrl-C once more gives that up", file=sys.stderr)
        session.end()
        return 130
    except Refused as refused:
        session.close()
        raise Failure(f"{words[1]}: {refused}: {session.advice(refused)}") from None
    except Failure:
        if session.process.poll() is None:
            session.close()
        raise
    return session.close()


if __name__ == "__main__":
    try:
        sys.exit(main(sys.argv[1:]))
    except Failure as failure:
        print(f"client: {failure}", file=sys.stderr)
        sys.exit(failure.status)
    except KeyboardInterrupt:
        sys.exit("client: the program still computes; OUT is written when it is done, and is as it was last saved")
