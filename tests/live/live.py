#!/usr/bin/env python3
"""A live stream on standard input: what a hop gives to print comes before more is sent.

    tests/live/live.py WATCH

It writes recordings to the program `watch` by a pipe: hops alone, hops in two pieces, and two hops and a half at once. After each piece it
waits for every line of the hops that are whole, and sends nothing meanwhile: a program that waits for a hop behind, or for the end, never
writes them. It is no test of time: LIMIT only ends it where a line never comes, and PAUSE is how long it looks out for one that must not
come yet. All that came must be, at the end, what the program writes when the same recording is sent at once.
"""
import os
import select
import struct
import subprocess
import sys

# Hops alone, in two pieces, and three as two and a half and the rest, again and again: a turn has 7 hops and a batch has up to 15, so that in
# 105 hops each of them stands at each place of a batch.
TURN = [1, 1, 1, 1, 3]
ALONE = 2
HOPS = 106
LIMIT = 60.0
PAUSE = 0.02
SLOW = 15
# What makes lines: with levels of 100 dB a channel is alive from 100 dB over its floor on. Slow hops, which alone move the floors, have LOW. The
# smoothed dB go PART of the way to a hop's dB, so that the others bring them 3 dB over that level or below it, as they are to; a slow hop brings
# them below by itself.
LEVEL = 100.0
LOW = -150.0
PART = 0.0645


class Failed(Exception):
    pass


def is_alive(hop):
    """Each hop changes the state but one between two slow hops, another each time; and the first of all, where nothing is alive yet."""
    batch, place = divmod(hop, SLOW)
    return (place - (place > batch % 14)) % 2 == 1


def recording(n):
    """The header, and the bytes of each hop."""
    hops, smoothed = [], LOW
    for hop in range(HOPS):
        to = LOW + LEVEL + (3.0 if is_alive(hop) else -3.0)
        db = LOW if hop % SLOW == 0 else smoothed + (to - smoothed) / PART
        smoothed += PART * (db - smoothed)
        hops.append(struct.pack("<B%dd%df" % (n, n), 0, *[db] * n, *[1e-15] * n))
    return struct.pack("<H", n), hops


def changes(hop, n):
    """What each line of a hop begins with, its seconds left out: the hop, the channel and the change."""
    if hop == 0 or is_alive(hop) == is_alive(hop - 1):
        return []
    return [[str(hop), str(k), "rise" if is_alive(hop) else "drop"] for k in range(n)]


def rows(hop, n):
    """The same of the rows of CSV, which slow hops alone have."""
    return [[str(hop), str(k)] for k in range(n) if hop % SLOW == 0]


# words of the command line, lines before the first hop, lines of a hop
MODES = [(["--on", "100", "--off", "100", "--early", "100", "-"], 3, changes), (["--csv", "-"], 1, rows)]


class Stream:
    def __init__(self, watch, options):
        self.program = subprocess.Popen([watch] + options, stdin=subprocess.PIPE, stdout=subprocess.PIPE, bufsize=0)
        self.said = b""
        self.lines = 0

    def send(self, piece):
        self.program.stdin.write(piece)

    def comes(self, seconds):
        """Whether more comes within this time, and not the end."""
        out = self.program.stdout.fileno()
        if not select.select([out], [], [], seconds)[0]:
            return False
        more = os.read(out, 65536)
        self.said += more
        return more != b""

    def take(self, count, what):
        """The next lines, and there are no more of them."""
        while self.said.count(b"\n") < self.lines + count:
            if not self.comes(LIMIT):
                raise Failed("%s: %d lines are due, and %d came" % (what, count, self.said.count(b"\n") - self.lines))
        fresh = self.said.decode().split("\n")[self.lines:]
        self.lines += count
        if fresh[count:] != [""]:
            raise Failed("%s: %d lines are due, and more came: %r" % (what, count, fresh[count]))
        return fresh[:count]

    def end(self):
        self.program.stdin.close()
        while self.comes(LIMIT):
            pass
        self.program.kill()
        self.program.wait()
        return self.said


def pieces(hops):
    """What is sent, piece by piece, and how many hops are whole then."""
    at = turn = 0
    while at < len(hops):
        count = TURN[turn % len(TURN)]
        its, size = b"".join(hops[at:at + count]), len(hops[at])
        if turn % len(TURN) < ALONE:
            yield its, at + 1
        else:
            cut = len(its) - size // 2 if count > 1 else 1 + 5 * at % (size - 1)
            yield its[:cut], at + count - 1
            yield its[cut:], at + count
        at, turn = at + count, turn + 1


def live(watch, n, mode):
    """How many hops had lines."""
    options, head, lines_of = mode
    header, hops = recording(n)
    stream, whole, sent, told = Stream(watch, options), 0, 0, 0
    try:
        stream.send(header)
        stream.take(head, "the head")
        for piece, then in pieces(hops):
            stream.send(piece)
            sent += len(piece)
            its = [lines_of(hop, n) for hop in range(whole, then)]
            due, whole = sum(its, []), then
            for line, first in zip(stream.take(len(due), "%d hops are sent" % whole), due):
                words = line.replace(",", " ").split()
                if (words[:1] + words[2:])[:len(first)] != first:
                    raise Failed("%r came, and %r is due" % (line, " ".join(first)))
            told += sum(lines != [] for lines in its)
            if sent > whole * len(hops[0]) and stream.comes(PAUSE):
                raise Failed("hop %d is not whole, and a line came" % whole)
        said = stream.end()
    finally:
        stream.program.kill()
    at_once = subprocess.run([watch] + options, input=header + b"".join(hops), stdout=subprocess.PIPE, timeout=LIMIT).stdout
    if said != at_once:
        raise Failed("what came differs from what comes when all is sent at once")
    return told


def main():
    told = 0
    for n in [1, 5]:
        for mode in MODES:
            try:
                told += live(sys.argv[1], n, mode)
            except (Failed, OSError, subprocess.TimeoutExpired) as what:
                print("live: watch %s, %d channels: %s" % (" ".join(mode[0]), n, what))
                sys.exit(1)
    print("live: %d hops, each told before more was sent" % told)


if __name__ == "__main__":
    main()
