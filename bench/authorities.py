#!/usr/bin/env python3
"""Makes authority records (MARC 21, ISO 2709, UTF-8): authorities.py COUNT >RECORDS

Each record has a control number, field 100 or 110, one to three fields 400 or 410, and in some a note; it has 250 bytes on
average. The same COUNT gives the same bytes. One heading of a person in four has accents. One variant in 50 leads to two
headings, and one in 50 is established elsewhere; one record in 200 is deleted.
"""
import random
import sys

GIVEN = "Ann Carl Clara Edith Fanny George Gustav Hedwig Ivan Jean Karel Ludwig Marie Max Olga Peter Ruth Thomas".split()
SYLLABLES = "ba ce dvo ek fe ga ha ji ko la ma ne or po ra sme ta na vi za".split()
ACCENTED_GIVEN = "Antonín Bedřich Božena Émile François Jiří Leoš Zdeněk".split()
ACCENTED = 0.25
ACCENTED_SYLLABLES = "há lá rák né žák ří šk ův čá".split()
BODIES = "Academy Archive College Council Institute Library Museum Office Orchestra Society".split()
NOTES = ("Found in a list of members, and in the title pages of two works.", "Authority from the national file; dates from an obituary.")


def word(draw, accents=False):
    ends = ACCENTED_SYLLABLES if accents else SYLLABLES
    return ("".join(draw.choice(SYLLABLES) for _ in range(draw.randint(1, 3))) + draw.choice(ends)).capitalize()


def person(draw):
    born = draw.randint(1500, 1990)
    accents = draw.random() < ACCENTED
    given = draw.choice(ACCENTED_GIVEN if accents else GIVEN)
    return "100", "1 ", [("a", f"{word(draw, accents)}, {given} {draw.choice(GIVEN)[0]}.,"), ("d", f"{born}-{born + draw.randint(20, 90)}.")]


def body(draw):
    return "110", "2 ", [("a", f"{word(draw)} {draw.choice(BODIES)} of {word(draw)}."), ("b", f"{draw.choice(BODIES)} {draw.randint(1, 999)}.")]


def field(tag, indicators, subfields):
    return tag, indicators + "".join("\x1f" + code + text for code, text in subfields)


def frame(fields, status):
    data = b""
    directory = b""
    for tag, text in fields:
        stored = text.encode() + b"\x1e"
        directory += b"%s%04d%05d" % (tag.encode(), len(stored), len(data))
        data += stored
    base = 25 + len(directory)
    return b"%05d%cz  a22%05dn  4500" % (base + len(data) + 1, ord(status), base) + directory + b"\x1e" + data + b"\x1d"


def main(count):
    draw = random.Random(28)
    out = sys.stdout.buffer
    earlier = [person(draw)]
    for number in range(count):
        make = person if draw.random() < 0.8 else body
        tag, indicators, subfields = make(draw)
        fields = [("001", f"n{number:09d}"), ("008", "240110n| azannaabn          |n aaa      "), field(tag, indicators, subfields)]
        for _ in range(draw.choice((1, 1, 1, 1, 2, 3))):
            chance = draw.random()
            other = draw.choice(earlier) if chance < 0.04 else make(draw)
            fields.append(field("4" + other[0][1:], other[1], other[2]))
            if chance < 0.02 or len(earlier) < 1000:
                earlier.append(other)
        earlier.append((tag, indicators, subfields))
        del earlier[:-2000]
        if draw.random() < 0.3:
            fields.append(field("670", "  ", [("a", draw.choice(NOTES))]))
        out.write(frame(fields, "d" if draw.random() < 0.005 else "n"))


main(int(sys.argv[1]))
