#!/usr/bin/env python3
"""Makes the files of a consortium: bench/make_consortium.py SEED LIBRARIES RECORDS FOLDER [--no-updates]

Writes FOLDER/lib01.mrc and so on, a library's first load, and, without --no-updates, FOLDER/lib01.upd.mrc and so on, a later delivery of
corrections (leader/05 `c`) and withdrawals (`d`). All files together have RECORDS records, of MARC 21 in ISO 2709 and UTF-8, each of some
630 bytes. All is drawn from SEED alone.

An edition stands in one to six libraries, whose records differ: in the form of the ISBN, in which numbers there are, in the notes and
subjects, in encoding level and date. One edition in 20 is a serial with an ISSN, one in 20 has no number at all, and one work in three
has several editions. One record in 20 of the files with updates is in a later delivery.
"""
import os
import random
import sys

SURNAMES = (
    "Abel Bauer Castro Dvořák Eriksen Fabre Grieg Hill Ibsen Jansen Klein Łukasiewicz Moreau Novak Okafor Petrov Quist Rossi Saito Torres"
).split()
FORENAMES = "Ada Ben Clara David Emil Flora Georg Hanna Ivan Jane Karl Lena Max Nora Oskar Paula".split()
WORDS = (
    "archive autumn bridge canal city coast cotton desert dialogue education engine forest garden glass grammar harbour history horizon "
    "island journey kingdom language letters library logic machine market memory migration mountain music night northern ocean painting "
    "people plain poetry railway region river science season silence society song southern stone story summer teaching theory trade travel tree valley "
    "village voice water weather winter women wood work writing youth"
).split()
PLACES = ("Berlin", "Boston", "Kraków", "Lagos", "Lima", "London", "Lyon", "Oslo", "Praha", "Tokyo")
NOTES = (
    "Includes bibliographical references and index.",
    "Translated from the original edition, with a new preface by the author.",
    "Published in cooperation with the national library.",
    "A revised version of the lectures that were given at the summer school.",
    "Contains a map of the region and a table of the sources.",
)
LEVELS = "   17u"
ROOMS = ("Main", "Stacks", "Annex")


def check_digit10(nine):
    rest = -sum(int(digit) * weight for digit, weight in zip(nine, range(10, 1, -1))) % 11
    return "0123456789X"[rest]


def check_digit13(twelve):
    return str(-sum(int(digit) * (3 if at % 2 else 1) for at, digit in enumerate(twelve)) % 10)


def check_digit8(seven):
    rest = -sum(int(digit) * weight for digit, weight in zip(seven, range(8, 1, -1))) % 11
    return "0123456789X"[rest]


def data(tag, indicators, *subfields):
    return tag, indicators + "".join("\x1f" + code + text for code, text in subfields)


def frame(status, kind, level, fields):
    """The frame of a record of these fields."""
    directory, body = "", b""
    for tag, text in sorted(fields, key=lambda field: field[0]):
        stored = text.encode("utf-8") + b"\x1e"
        directory += f"{tag}{len(stored):04d}{len(body):05d}"
        body += stored
    base = 25 + len(directory)
    leader = f"{base + len(body) + 1:05d}{status}{kind} a22{base:05d}{level}a 4500"
    return (leader + directory + "\x1e").encode("ascii") + body + b"\x1d"


class Maker:
    """The editions and records of a consortium."""

    def __init__(self, seed):
        self.draws, self.made = random.Random(f"consortium {seed}"), 0

    def digits(self, many):
        return "".join(self.draws.choices("0123456789", k=many))

    def title(self):
        return " ".join(self.draws.choices(WORDS, k=self.draws.randint(2, 5))).capitalize()

    def work(self):
        name = f"{self.draws.choice(SURNAMES)}, {self.draws.choice(FORENAMES)} {chr(self.draws.randint(65, 90))}."
        return self.title(), name, [f"{self.draws.choice(WORDS).capitalize()} {self.draws.choice(WORDS)}" for _ in range(3)]

    def edition(self, work):
        """What is true of an edition, whoever describes it."""
        self.made += 1
        is_serial, has_numbers = self.draws.random() < 0.05, self.draws.random() < 0.95
        nine, seven = self.digits(9), self.digits(7)
        return {
            "work": work,
            "serial": is_serial,
            "year": self.draws.randint(1950, 2023),
            "place": self.draws.choice(PLACES),
            "publisher": self.draws.choice(WORDS).capitalize(),
            "pages": self.draws.randint(60, 900),
            "isbn": nine if has_numbers and not is_serial else None,
            "issn": seven + check_digit8(seven) if has_numbers and is_serial else None,
            "lccn": f"{self.draws.randint(50, 99)}{self.made % 1000000:06d}" if has_numbers else None,
            "oclc": str(1000000 + self.made) if has_numbers else None,
        }

    def isbn(self, nine):
        ten, thirteen = nine + check_digit10(nine), "978" + nine
        forms = (ten, f"{ten[0]}-{ten[1:4]}-{ten[4:9]}-{ten[9]} (pbk.)", thirteen + check_digit13(thirteen))
        return self.draws.choice(forms)

    def record(self, library, number, edition, status="n"):
        """The record by which a library describes an edition, or corrects its description."""
        title, name, subjects = edition["work"]
        some = self.draws.random
        dates = f"c{edition['year']}9999" if edition["serial"] else f"s{edition['year']}    "
        day = f"20{self.draws.randint(10, 24)}{self.draws.randint(1, 12):02d}{self.draws.randint(10, 28)}"
        stamp = f"{day}{self.draws.randint(0, 23):02d}{self.draws.randint(0, 59):02d}00.0"
        fields = [
            ("001", number),
            ("003", library),
            ("005", stamp),
            ("008", f"240101{dates}xx                  eng d"),
            data("245", "10", ("a", f"{title} /"), ("c", f"{name.split(',')[1].strip()} {name.split(',')[0]}.")),
            data("260", "  ", ("a", f"{edition['place']} :"), ("b", f"{edition['publisher']} Press,"), ("c", f"{edition['year']}.")),
            data("300", "  ", ("a", f"{edition['pages']} p. ;"), ("c", "24 cm.")),
            data("852", "  ", ("a", library), ("b", self.draws.choice(ROOMS)), ("h", f"Q{self.digits(3)}.{self.digits(2)}")),
        ]
        fields += [data("500", "  ", ("a", note)) for note in self.draws.sample(NOTES, self.draws.randint(1, 3))]
        fields += [data("650", " 0", ("a", f"{subject}.")) for subject in subjects[: self.draws.randint(1, 3)]]
        if not edition["serial"]:
            fields.append(data("100", "1 ", ("a", name)))
        if edition["isbn"] and some() < 0.9:
            fields.append(data("020", "  ", ("a", self.isbn(edition["isbn"]))))
        if edition["issn"]:
            fields.append(data("022", "  ", ("a", f"{edition['issn'][:4]}-{edition['issn'][4:]}")))
        if edition["lccn"] and some() < 0.5:
            fields.append(data("010", "  ", ("a", f"   {edition['lccn']} ")))
        if edition["oclc"] and some() < 0.7:
            fields.append(data("035", "  ", ("a", f"(OCoLC){self.draws.choice(('ocm', ''))}{edition['oclc']}")))
        return frame(status, "as" if edition["serial"] else "am", self.draws.choice(LEVELS), fields)


def main(seed, libraries, records, folder, *options):
    has_updates = "--no-updates" not in options
    maker, count = Maker(seed), int(libraries)
    wanted = int(records)
    first_loads = wanted - wanted // 20 if has_updates else wanted
    held = [[] for _ in range(count)]
    made, work, left = 0, None, 0
    loads = [[] for _ in range(count)]
    while made < first_loads:
        if left == 0:
            work, left = maker.work(), maker.draws.choice((1, 1, 2, 3))
        left -= 1
        edition = maker.edition(work)
        for at in maker.draws.sample(range(count), min(count, maker.draws.choice((1, 1, 2, 2, 3, 4, 6)), first_loads - made)):
            number = f"{at + 1:02d}{len(held[at]) + 1:07d}"
            held[at].append((number, edition))
            loads[at].append(maker.record(f"L{at + 1}", number, edition))
            made += 1
    later = [[] for _ in range(count)]
    for _ in range(wanted - made if has_updates else 0):
        at = maker.draws.choice([at for at in range(count) if held[at]])
        number, edition = maker.draws.choice(held[at])
        if maker.draws.random() < 0.3:
            later[at].append(frame("d", "am", " ", [("001", number)]))
        else:
            later[at].append(maker.record(f"L{at + 1}", number, edition, "c"))
    os.makedirs(folder, exist_ok=True)
    for at in range(count):
        for name, delivery in ((f"lib{at + 1:02d}.mrc", loads[at]), (f"lib{at + 1:02d}.upd.mrc", later[at])):
            if has_updates or not name.endswith(".upd.mrc"):
                with open(os.path.join(folder, name), "wb") as out:
                    out.write(b"".join(delivery))


if __name__ == "__main__":
    if len(sys.argv) < 5:
        sys.exit(__doc__)
    main(*sys.argv[1:])
