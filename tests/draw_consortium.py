#!/usr/bin/env python3
"""Draws the files of three libraries: tests/draw_consortium.py SEED RECORDS FOLDER writes FOLDER/liba.mrc, libb.mrc and libc.mrc.

Each has RECORDS frames: loads, corrections, withdrawals (of records that are there and of others), and what is refused. Numbers, titles
and names are few, so that editions meet in chains: by ISBN, by control number, and by a title and a name that only a merged edition has.
"""
import random
import sys

END, FIELD, DELIMITER = b"\x1d", b"\x1e", "\x1f"


def isbn(number):
    twelve = f"978{number:09d}"
    return twelve + str(-sum(int(digit) * (3 if at % 2 else 1) for at, digit in enumerate(twelve)) % 10)


def frame(status, fields):
    directory, body = b"", b""
    for tag, text in fields:
        stored = text.encode() + FIELD
        directory += f"{tag}{len(stored):04d}{len(body):05d}".encode()
        body += stored
    base = 25 + len(directory)
    return f"{base + len(body) + 1:05d}{status}am a22{base:05d} a 4500".encode() + directory + FIELD + body + END


def record(draw, control, status, many):
    """A record of one of a few works. A refused one has no title."""
    fields = [("001", control), ("008", "240101s%d    xx                  eng d" % draw.choice((1999, 1999, 2001)))]
    if draw.random() < 0.4:
        fields.append(("020", f"  {DELIMITER}a{isbn(draw.randrange(many))}"))
    if draw.random() < 0.1:
        fields.append(("035", f"  {DELIMITER}a(OCoLC){draw.randrange(1, many)}"))
    if draw.random() < 0.8:
        fields.append(("100", f"1 {DELIMITER}aName{draw.randrange(many // 8)}, A."))
    if draw.random() < 0.97:
        fields.append(("245", f"10{DELIMITER}aTitle {draw.randrange(many // 3)} /{DELIMITER}cof someone."))
    if draw.random() < 0.3:
        fields.append(("650", f" 0{DELIMITER}aSubject {draw.randrange(9)}."))
    fields.append(("852", f"  {DELIMITER}aHall{DELIMITER}h{draw.randrange(50)}"))
    return frame(status, fields)


def delivery(draw, letter, records):
    text, known = bytearray(), []
    for number in range(records):
        kind = draw.random()
        if kind < 0.03:
            text += draw.choice((b"stray\x1d", b"\x1d", b"00099nam a2200000 a 4500\x1d"))
            continue
        if kind < 0.08:
            text += draw.choice((b"\r\n", b"\n"))
        control, status = f"{letter}{number}", "n"
        if known and kind < 0.25:
            control, status = draw.choice(known), draw.choice("cd")
        elif kind > 0.98:
            status = "d"
        elif kind > 0.9:
            control = f"{letter} {number}.x"
        known.append(control)
        text += record(draw, control, status, records)
    return text + draw.choice((b"", b"the rest", b"\n"))


def main(seed, records, folder):
    for name in "abc":
        draw = random.Random(f"{seed} {name}")
        with open(f"{folder}/lib{name}.mrc", "wb") as file:
            file.write(delivery(draw, name, int(records)))


main(*sys.argv[1:])
