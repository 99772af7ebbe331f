"""Files of hostile records, and usual ones of the same number, for bench/hostile."""
import os
import sys

sys.path.insert(0, os.path.join(os.path.dirname(os.path.dirname(os.path.realpath(__file__))), "tests/hostile"))
from built import fixed, record

FULL_FRAME = 8330


def book(number, title, year=b"1999", name=None, more=()):
    fields = [(b"001", number), (b"008", fixed(year)), *more]
    if name:
        fields.append((b"100", b"1 $a" + name))
    return record([*fields, (b"245", b"00$a" + title)])


def isbn(at):
    """An ISBN of ten digits for a number."""
    nine = b"%09d" % at
    rest = -sum((digit - 48) * weight for digit, weight in zip(nine, range(10, 1, -1))) % 11
    return nine + b"0123456789X"[rest : rest + 1]


def usual(count):
    """Records of different numbers, titles and names."""
    return b"".join(book(b"n%07d" % at, b"Title number %07d" % at, name=b"Name %07d" % at) for at in range(count))


def terminators(count):
    return b"\x1d" * count


def endless(count):
    """One frame without an end, of as many bytes as usual records have."""
    return b"a" * len(usual(count))


def full_frames(count):
    """Frames of 8,330 entries over 13 bytes of data, of 99,999 bytes each, for each 700 usual records."""
    frame = b"99999nam a2299985 a 4500" + b"500001300000" * FULL_FRAME + b"\x1e  \x1faaaaaaaaa\x1e\x1d"
    return frame * max(1, count // 700)


def one_number(count):
    """Records that all have one control number: each corrects the one before."""
    return b"".join(book(b"id", b"Title number %07d" % at) for at in range(count))


def one_edition(count):
    """Records of one title, date and name, which are one edition."""
    return b"".join(book(b"n%07d" % at, b"Red ships", name=b"Hill, Ann") for at in range(count))


def chain(count):
    """Records of different titles, each with a control number of the one before and one of the next: one edition, that grows by each."""
    pair = lambda at: (b"035", b"  $a(OCoLC)%d" % (at + 1))
    return b"".join(book(b"n%07d" % at, b"Title number %07d" % at, more=[pair(at), pair(at + 1)]) for at in range(count))


def one_title_dates(count):
    """Records of one title and name with different dates: as many editions as there are years, 10,000 at most."""
    return b"".join(book(b"n%07d" % at, b"Red ships", b"%04d" % (at % 10_000), b"Hill, Ann") for at in range(count))


def one_title_names(count):
    """Records of one title and date with different names, which are as many editions."""
    return b"".join(book(b"n%07d" % at, b"Red ships", name=b"Name %07d" % at) for at in range(count))


def with_isbns(number, title, isbns):
    """A record of these ISBNs, in as many fields 020 as they need."""
    fields = [b"  " + b"".join(b"$a" + it for it in isbns[at : at + 800]) for at in range(0, len(isbns), 800)]
    return book(number, title, more=[(b"020", text) for text in fields])


def each_one_isbn(count):
    return b"".join(with_isbns(b"n%07d" % at, b"Title number %07d" % at, [isbn(at)]) for at in range(count))


def joined_by_isbns(count):
    """As many records with an ISBN each, 8,000 at most, and then one that has them all: it joins as many editions at once."""
    return each_one_isbn(count) + with_isbns(b"all", b"All of them", [isbn(at) for at in range(count)])


def isbns_first(count):
    """A record with as many ISBNs, 8,000 at most, and then as many with one of them each: each joins the one edition."""
    return with_isbns(b"all", b"All of them", [isbn(at) for at in range(count)]) + each_one_isbn(count)


def grid(count):
    """Records of one title, of each of so many dates with each of as many names, and then one that has an ISBN of each date and of each
    name: with it all match, so it joins as many editions at once."""
    side = max(2, int(count**0.5))
    cells = [
        book(b"n%03d-%03d" % (row, column), b"Red ships", b"%04d" % (1000 + row), b"Name %03d" % column, [(b"020", b"  $a" + isbn(row))] if row == column else [])
        for row in range(side)
        for column in range(side)
    ]
    return b"".join(cells) + with_isbns(b"all", b"All of them", [isbn(at) for at in range(side)])


def grid_without(count):
    """The same without the last record."""
    whole = grid(count)
    return whole[: whole.rindex(b"\x1d", 0, -1) + 1]


def with_pairs(pairs):
    """A record for each control pair, in a field 035."""
    return b"".join(
        book(b"n%07d" % at, b"Title number %07d" % at, more=[(b"035", b"  $a(%s)%s" % pair)]) for at, pair in enumerate(pairs)
    )


def usual_pairs(count):
    return with_pairs([(b"OCLC", b"number-%09d" % at) for at in range(count)])


def with_numbers(numbers):
    """A record under each control number."""
    return b"".join(book(number, b"Title number %07d" % at) for at, number in enumerate(numbers))


def usual_numbers(count):
    return with_numbers([b"number-%025d" % at for at in range(count)])
