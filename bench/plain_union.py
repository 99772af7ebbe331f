#!/usr/bin/env python3
"""A union of libraries' files as a systems librarian would script it: bench/plain_union.py OUT FILE..

The last record of a file under a control number counts, and none if that has status `d`. Records that share an ISBN, an ISSN, an LCCN or
an OCLC number are one edition, through any chain of such records; one without any of these is one edition with those of its title, first
name and year. The longest record of an edition is written, with the notes, subjects, added names, numbers and holdings of the others, and
a field 993 for each of its records. What is not ISO 2709 is passed over. It is the baseline of the merged export, not a model of it: it
knows no rules, no normal forms beyond small letters, no best field, and no works.
"""
import re
import sys

END, FIELD, DELIMITER = b"\x1d", b"\x1e", b"\x1f"
UNITED = re.compile(rb"020|022|035|5..|6..|7..|852")


def fields_of(record):
    base = int(record[12:17])
    entries = record[24 : base - 1]
    for at in range(0, len(entries), 12):
        size, start = int(entries[at + 3 : at + 7]), int(entries[at + 7 : at + 12])
        yield entries[at : at + 3], record[base + start : base + start + size - 1]


def values(field, code=b"a"):
    return [part[1:] for part in field[2:].split(DELIMITER)[1:] if part[:1] == code]


def isbn13(text):
    match = re.match(rb"[\s]*([0-9Xx-]+)", text)
    number = match.group(1).replace(b"-", b"").upper() if match else b""
    if len(number) == 10 and number[:9].isdigit():
        number = b"978" + number[:9]
        number += b"%d" % (-sum((byte - 48) * (3 if at % 2 else 1) for at, byte in enumerate(number)) % 10)
    return number if len(number) == 13 and number.isdigit() else None


def keys(fields):
    """The keys of a record: of its numbers, or, without any, of its description."""
    found, title, name, year = [], b"", b"", b""
    for tag, field in fields:
        if tag == b"020":
            found += [(tag, key) for key in map(isbn13, values(field)) if key]
        elif tag == b"022":
            found += [(tag, text.replace(b"-", b"").upper()) for text in values(field)]
        elif tag == b"010":
            found += [(tag, text.replace(b" ", b"")) for text in values(field)]
        elif tag == b"035":
            for text in values(field):
                match = re.fullmatch(rb"\(OCoLC\)(?:ocm|ocn|on)?0*(\d+)\s*", text)
                found += [(tag, match.group(1))] if match else []
        elif tag == b"245":
            title = b"".join(values(field) + values(field, b"b"))
        elif tag in (b"100", b"110", b"111"):
            name = b"".join(values(field))
        elif tag == b"008":
            year = field[7:11]
    return found or [(b"245", re.sub(rb"[^a-z0-9]", b"", (title + name).lower()) + year)]


def union_of(editions):
    """One record of an edition's records."""
    base = max(editions, key=lambda one: len(one[1]))
    fields = list(fields_of(base[1]))
    seen = set(fields)
    for _, record in editions:
        for field in fields_of(record):
            if UNITED.fullmatch(field[0]) and field not in seen:
                seen.add(field)
                fields.append(field)
    fields += [(b"993", b"  " + DELIMITER + b"a" + name[0] + DELIMITER + b"b" + name[1]) for name, _ in editions]
    directory, body = b"", b""
    for tag, text in sorted(fields, key=lambda field: field[0]):
        directory += b"%s%04d%05d" % (tag, len(text) + 1, len(body))
        body += text + FIELD
    start = 25 + len(directory)
    leader = b"%05d" % (start + len(body) + 1) + base[1][5:12] + b"%05d" % start + base[1][17:24]
    return leader + directory + FIELD + body + END


def main(out, *files):
    current = {}
    for at, path in enumerate(files, 1):
        with open(path, "rb") as file:
            for record in file.read().split(END):
                try:
                    number = next(field for tag, field in fields_of(record + END) if tag == b"001").strip()
                except (ValueError, StopIteration):
                    continue
                name = b"L%d" % at, number
                if record[5:6] == b"d":
                    current.pop(name, None)
                else:
                    current[name] = record + END
    above = {name: name for name in current}

    def top(name):
        while above[name] != name:
            above[name] = above[above[name]]
            name = above[name]
        return name

    first = {}
    for name, record in current.items():
        for key in keys(list(fields_of(record))):
            above[top(name)] = top(first.setdefault(key, name))
    editions = {}
    for name, record in current.items():
        editions.setdefault(top(name), []).append((name, record))
    with open(out, "wb") as file:
        for edition in editions.values():
            file.write(union_of(edition))
    print(len(current), "records", len(editions), "editions")


if __name__ == "__main__":
    if len(sys.argv) < 3:
        sys.exit(__doc__)
    main(*sys.argv[1:])
