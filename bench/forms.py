#!/usr/bin/env python3
"""The normal form of each text of a file, by Python's unicodedata: forms.py FILE

Prints what `bench_parts forms` prints of the same file: how many texts it has, and how many bytes their forms have.
"""
import sys
from unicodedata import category, normalize

DELETED = {"Mn", "Me", "Lm"}
LETTERS_AND_NUMBERS = {"Lu", "Ll", "Lt", "Lm", "Lo", "Nd", "Nl", "No"}
KEPT = LETTERS_AND_NUMBERS | {"Mc"}
PLAIN = str.maketrans({"æ": "ae", "œ": "oe", "ø": "o", "đ": "d", "ð": "d", "þ": "th", "ł": "l", "ı": "i"})


def normal(text, keeps_first):
    """The nine steps, one after the other."""
    text = normalize("NFKD", normalize("NFKD", text).casefold())
    text = "".join(c for c in text if category(c) not in DELETED and c not in "'[]")
    text = text.translate(PLAIN)
    comma = text.find(",") if keeps_first else -1
    if comma >= 0 and not any(category(c) in LETTERS_AND_NUMBERS for c in text[comma + 1:]):
        comma = -1
    text = "".join(c if category(c) in KEPT or c in "&+@#♭♯" or at == comma else " " for at, c in enumerate(text))
    return " ".join(text.split())


def main(path):
    with open(path, encoding="utf-8", newline="\n") as file:
        lines = file.read().split("\n")[:-1]
    size = 0
    for line in lines:
        size += len(normal(line[1:], line[:1] == "1").encode("utf-8"))
    print("texts", len(lines), "bytes", size)


main(sys.argv[1])
