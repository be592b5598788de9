#!/usr/bin/env python3
"""Writes the sounds that `wave` is to write for some recordings into the folder `wave`: the rules of tones
and of the sound are simulated here, without WebAssembly.

A place is what its frame played: whether a reset came first, and the tones in their order, each as the four
arguments of the call.
"""
import os
import struct
import sys

HERE = os.path.dirname(os.path.abspath(__file__))
sys.dont_write_bytecode = True
sys.path.insert(0, os.path.join(HERE, os.pardir, "inputs"))
from make import TONES  # noqa: E402

TICKS = 735  # of a frame
RATE = 44_100
KEPT = 64  # tones of a frame that are listed


class Voice:
    """A tone as its channel plays it."""

    def __init__(self, frequency, duration, volume, flags):
        self.first, self.second = frequency & 0xFFFF, frequency >> 16
        self.sustain, self.release, self.decay, self.attack = (duration >> at & 255 for at in (0, 8, 16, 24))
        self.peak = min(volume >> 8 & 255, 100) or 100
        self.level = min(volume & 255, 100)
        self.channel, self.duty, self.pan = flags & 3, flags >> 2 & 3, flags >> 4 & 3
        self.note = bool(flags & 64)
        self.total = TICKS * (self.attack + self.decay + self.sustain + self.release)
        self.ticks = 0

    def level_now(self):
        parts = [(self.attack, 0, self.peak), (self.decay, self.peak, self.level),
                 (self.sustain, self.level, self.level), (self.release, self.level, 0)]
        since = self.ticks
        for frames, start, end in parts:
            length = TICKS * frames
            if since < length:
                return (start * (length - since) + end * since) // length
            since -= length
        raise ValueError("the tone has ended")

    def frequency_now(self):
        if self.second == 0 or self.note:
            return self.first
        way = abs(self.second - self.first) * self.ticks // self.total
        return self.first + way if self.second > self.first else self.first - way


class Channels:
    def __init__(self):
        self.voices = [None] * 4

    def play(self, arguments):
        voice = Voice(*arguments)
        self.voices[voice.channel] = voice if voice.total else None

    def pass_frame(self):
        """For voices whose ticks stand where the frame began."""
        for voice in filter(None, self.voices):
            voice.ticks += TICKS
        self.end()

    def end(self):
        self.voices = [voice if voice and voice.ticks < voice.total else None for voice in self.voices]


class Sound:
    """What is heard: channels of its own, four phases and the register of the noise."""

    def __init__(self):
        self.channels = Channels()
        self.phases = [0] * 4
        self.register = 1

    def value(self, channel, voice):
        high, phase = 80 * voice.level_now(), self.phases[channel]
        if channel < 2:
            return high if 8 * phase < RATE * (1, 2, 4, 6)[voice.duty] else -high
        if channel == 3:
            return high if self.register % 2 else -high
        if phase < RATE // 4:
            height = phase
        elif phase < 3 * RATE // 4:
            height = RATE // 2 - phase
        else:
            height = phase - RATE
        cut = high * abs(height) // (RATE // 4)
        return cut if height > 0 else -cut

    def tick(self):
        left = right = 0
        for channel, voice in enumerate(self.channels.voices):
            if voice is None:
                continue
            if not voice.note:
                value = self.value(channel, voice)
                left += value if voice.pan != 2 else 0
                right += value if voice.pan != 1 else 0
                phase = self.phases[channel] + voice.frequency_now()
                if channel == 3 and phase >= RATE:
                    x = self.register
                    self.register = x // 2 + 16_384 * ((x + x // 2) % 2)
                self.phases[channel] = phase % RATE
            voice.ticks += 1
        return struct.pack("<hh", left, right)

    def frame(self, tones, sounding):
        """The samples of a frame with these listed tones, after which just these channels sound."""
        for tone in tones[:KEPT]:
            self.channels.play(tone)
        for channel in range(4):
            if not sounding[channel]:
                self.channels.voices[channel] = None
        samples = b"".join(self.tick() for _ in range(TICKS))
        self.channels.end()
        return samples


def wav(places):
    console, sound, frames = Channels(), Sound(), []
    for reset, tones in places:
        if reset:
            console = Channels()
        for tone in tones:
            console.play(tone)
        frames.append(sound.frame(tones, [voice is not None for voice in console.voices]))
        console.pass_frame()
    data = b"".join(frames)
    form = struct.pack("<4sIHHIIHH", b"fmt ", 16, 1, 2, RATE, 4 * RATE, 4, 16)
    front = struct.pack("<4sI4s", b"RIFF", len(data) + 36, b"WAVE") + form
    return front + struct.pack("<4sI", b"data", len(data)) + data


def by_pad(pads, resets=()):
    """The cart `plays-by-pad`: place 0, and then what each pad plays."""
    return [(True, [])] + [(at in resets, [TONES[pad - 1]] if pad else []) for at, pad in enumerate(pads)]


SLIDE = (14_418_360, 67_109_890, 50, 0)
SOUNDS = {
    "silence-of-1": [(True, [])],
    "silence-of-2": [(True, []), (False, [])],
    "pulse": by_pad([1, 0]),
    "each-tone": by_pad([1, 0, 2, 0, 3, 0, 0, 0, 4, 0, 0, 0, 8, 0, 10, 0, 0]),
    "tones-together": by_pad([5, 1, 9, 6, 7, 3, 2, 4, 9, 0, 5, 0, 9, 0, 0]),
    "tones-and-a-reset": by_pad([3, 9, 0, 4, 0, 2], {2, 5}),
    # the tone is played by `_start`
    "one-tone": [(True, [SLIDE])] + [(False, [])] * 10,
    "one-tone-reset": [(True, [SLIDE])] + [(False, [])] * 2 + [(True, [SLIDE])] + [(False, [])] * 2,
    "one-tone-not-begun": [(True, [SLIDE])],
    # the 65th isn't listed
    "65-tones": [(True, []), (False, [(first, 1, 100, 0) for first in range(1, 66)])],
    # the cart is halted after its first frame
    "tone-then-a-trap": [(True, []), (False, [(441, 3, 50, 8)])] + [(False, [])] * 3,
}

if __name__ == "__main__":
    os.makedirs(os.path.join(HERE, "wave"), exist_ok=True)
    for name, places in SOUNDS.items():
        with open(os.path.join(HERE, "wave", name + ".wav"), "wb") as file:
            file.write(wav(places))
