#!/usr/bin/env python3
"""Extracts the headings and titles of MARC 21 records (ISO 2709, UTF-8): headings.py FILE.. >TEXTS

Takes each field 1XX, 240, 245 and 7XX, as one text: the values of its subfields with a letter for a code, joined by a
blank. Writes a line for each, after a mark: '1' for a name (X00, X10, X11), of which the first comma is kept, and '2'
for a title.
"""
import sys

TERMINATORS = "\x1d\x1e\x1f"


def fields(record):
    """The tag and text of each field of a record."""
    base = int(record[12:17])
    for at in range(24, base - 1, 12):
        entry = record[at:at + 12].decode("ascii")
        start = base + int(entry[7:12])
        yield entry[:3], record[start:start + int(entry[3:7])].decode("utf-8")


def main(paths):
    out = open(sys.stdout.fileno(), "w", encoding="utf-8", newline="\n")
    for path in paths:
        with open(path, "rb") as file:
            records = file.read().split(b"\x1d")
        for record in records[:-1]:
            for tag, text in fields(record):
                if not (tag[0] in "17" or tag in ("240", "245")) or not tag.isdigit():
                    continue
                parts = text.rstrip(TERMINATORS).split("\x1f")[1:]
                text = " ".join(part[1:] for part in parts if part[:1].isalpha())
                mark = "1" if tag[0] in "17" and tag[1:] in ("00", "10", "11") else "2"
                print(mark + text.replace("\n", " ").replace("\r", " "), file=out)


main(sys.argv[1:])
