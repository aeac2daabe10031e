#!/usr/bin/env python3
"""Makes the recording that comes with the repository: a scene of the Hut level, 8 channels, 24 seconds.

    tools/scene.py > crates/watch/data/hut.rec

The same seed makes the same bytes. A recording is n in two bytes, then for each hop a flag byte (1: static is heard), n dB values
(f64) and n powers (f32), the lowest byte of each first; 375 hops are a second. What is in it:

  0 to 1.2 s    digital silence: the receiver is on and its converter is not, every power is 0 (-200 dB)
  1.2 s on      noise, a power with an exponential distribution in each channel; its mean drifts from -147 to -140 dB, so
                that every floor lies below -140 dB
  4 s on        a strong caller on channel 2, 28 dB over the noise at the start, 20 words a minute: CQ CQ DE HB9RF
  13 s on       a weak caller on channel 5, 12 dB over the noise, 13 words a minute: HB9RF DE OE7X K
  10.4 s        a static crash of 0.5 s, 35 dB over everything on every channel, with its flag

Each of the six rules that a floor can come from is at work in it: on channel 0 all of them, between 1.2 s and 2.4 s, while the seed gives
way to the channel's own quartile.
"""
import math
import random
import struct
import sys

SEED = 1906
CHANNELS = 8
HOPS_A_SECOND = 375
SECONDS = 24
SILENCE = 1.2
NOISE_DB = (-147.0, -140.0)
CRASH = (10.4, 10.9)
CRASH_OVER_DB = 35.0
# channel, start in seconds, words a minute, level in dB, text
CALLERS = [
    (2, 4.0, 20, -118.0, "CQ CQ DE HB9RF"),
    (5, 13.0, 13, -131.0, "HB9RF DE OE7X K"),
]
# What a keyed tone leaks into the channels beside it, in dB against its own.
LEAK_DB = {1: -34.0, 2: -50.0}
MORSE = {
    "A": ".-", "B": "-...", "C": "-.-.", "D": "-..", "E": ".", "F": "..-.", "H": "....", "K": "-.-", "O": "---",
    "Q": "--.-", "R": ".-.", "X": "-..-", "7": "--...", "9": "----.",
}


def keyed(text):
    """A dot for each entry: True where the key is down. A dash is 3 dots, a gap between letters 3, between words 7."""
    dots = []
    for word in text.split():
        for letter in word:
            for sign in MORSE[letter]:
                dots += [True] * (1 if sign == "." else 3) + [False]
            dots += [False] * 2
        dots += [False] * 4
    return dots


def power(db):
    return 10.0 ** (db / 10.0)


def hop_powers(hop, noise, callers):
    """The linear power of each channel in one hop, before the crash is added."""
    t = hop / HOPS_A_SECOND
    mean = power(NOISE_DB[0] + (NOISE_DB[1] - NOISE_DB[0]) * t / SECONDS)
    powers = [mean * noise.expovariate(1.0) for _ in range(CHANNELS)]
    for channel, start, words, level, dots in callers:
        dot = 1.2 / words
        at = int((t - start) / dot) if t >= start else -1
        if 0 <= at < len(dots) and dots[at]:
            # a tone over noise: its power swings a little from hop to hop
            powers[channel] += power(level + noise.gauss(0.0, 0.7))
            for away, leak in LEAK_DB.items():
                for beside in (channel - away, channel + away):
                    powers[beside % CHANNELS] += power(level + leak)
    return powers


def main():
    noise = random.Random(SEED)
    callers = [(c, start, words, level, keyed(text)) for c, start, words, level, text in CALLERS]
    out = sys.stdout.buffer
    out.write(struct.pack("<H", CHANNELS))
    for hop in range(SECONDS * HOPS_A_SECOND):
        t = hop / HOPS_A_SECOND
        powers = hop_powers(hop, noise, callers)
        crashes = CRASH[0] <= t < CRASH[1]
        if crashes:
            powers = [p + power(NOISE_DB[0] + CRASH_OVER_DB) * noise.expovariate(1.0) for p in powers]
        if t < SILENCE:
            powers = [0.0] * CHANNELS
        # a power as the handset has it, an f32; its dB are those of that f32
        powers = struct.unpack("<%df" % CHANNELS, struct.pack("<%df" % CHANNELS, *powers))
        db = [10.0 * math.log10(p + 1e-20) for p in powers]
        out.write(struct.pack("<B%dd%df" % (CHANNELS, CHANNELS), int(crashes), *db, *powers))


if __name__ == "__main__":
    main()
