#!/usr/bin/env python3
"""Damages real records: tests/hostile/damage.py SEED COUNT > FILE writes the file that tests/hostile makes from that seed.

Each record is one of tests/records or samples/, with one to four of these done to it: a bit or a byte flipped, bytes dropped or doubled, a
digit changed (of the leader or the directory, mostly), bytes brought in that mean something (terminators, delimiters, halves of
characters), a piece exchanged for one of another record, the end cut off, or joined to the next frame. All is drawn from the seed alone.
"""
import glob
import os
import random
import sys

TOP = os.path.dirname(os.path.dirname(os.path.dirname(os.path.realpath(__file__))))
MEANT = (b"\x1d", b"\x1e", b"\x1f", b"\x1f9", b"\r\n", b"\x00", b"\x1b", b" ", b"\xc3", b"\xa9", b"\xe2\x80", b"\xff", b"\xed\xa0\x80", b"(OCoLC)")


def real_records():
    """Each frame of the real files and of the samples."""
    found = []
    for file in sorted(glob.glob(f"{TOP}/tests/records/*.mrc") + glob.glob(f"{TOP}/samples/*.mrc")):
        with open(file, "rb") as it:
            found += [frame + b"\x1d" for frame in it.read().split(b"\x1d") if frame.strip()]
    return found


def place(draw, frame, most=1):
    """A place for as many bytes: in the leader or the directory as often as anywhere."""
    base = frame[12:17]
    head = int(base) if base.isdigit() and draw.random() < 0.5 else len(frame)
    return draw.randrange(max(1, min(head, len(frame)) - most + 1))


def flip(draw, frame, _):
    at = place(draw, frame)
    frame[at] ^= draw.choice((1, 2, 4, 8, 16, 32, 64, 128, 0xFF))


def change_letter(draw, frame, _):
    """Most accepted records come from here: a letter of a text becomes another."""
    letters = [at for at in range(len(frame)) if 0x61 <= frame[at] <= 0x7A]
    if letters:
        frame[draw.choice(letters)] = draw.randrange(0x61, 0x7B)


def change_digit(draw, frame, _):
    base = frame[12:17]
    head = int(base) if base.isdigit() else len(frame)
    digits = [at for at in range(min(head, len(frame))) if 0x30 <= frame[at] <= 0x39]
    if digits:
        frame[draw.choice(digits)] = draw.choice(b"0123456789")


def drop(draw, frame, _):
    length = draw.choice((1, 1, 1, 2, 12, 40))
    at = place(draw, frame, length)
    del frame[at : at + length]


def double(draw, frame, _):
    length = draw.choice((1, 1, 1, 2, 12, 40))
    at = place(draw, frame, length)
    frame[at:at] = frame[at : at + length]


def bring_in(draw, frame, _):
    at = place(draw, frame)
    piece = draw.choice(MEANT)
    frame[at : at + draw.choice((0, len(piece)))] = piece


def exchange(draw, frame, other):
    length = draw.choice((4, 12, 24, 100))
    at = place(draw, frame, length)
    start = draw.randrange(max(1, len(other) - length))
    frame[at : at + length] = other[start : start + length]


def cut_off(draw, frame, _):
    del frame[draw.randrange(len(frame)) :]
    if draw.random() < 0.5:
        frame += b"\x1d"


def join(draw, frame, _):
    if frame.endswith(b"\x1d"):
        frame.pop()


HARMS = (flip, flip, *[change_letter] * 7, change_digit, change_digit, drop, double, bring_in, exchange, cut_off, join)


def damaged(draw, records):
    frame = bytearray(draw.choice(records))
    for _ in range(draw.choice((1, 1, 1, 2, 4))):
        draw.choice(HARMS)(draw, frame, draw.choice(records))
        frame = frame or bytearray(b"\x1d")
    return bytes(frame)


def damaged_file(seed, count, records=None):
    draw = random.Random(seed)
    records = records or real_records()
    return b"".join(damaged(draw, records) for _ in range(count))


if __name__ == "__main__":
    if len(sys.argv) != 3:
        sys.exit(__doc__)
    sys.stdout.buffer.write(damaged_file(int(sys.argv[1]), int(sys.argv[2])))
