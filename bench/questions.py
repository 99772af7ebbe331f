#!/usr/bin/env python3
"""How many questions of each kind a script answers in a second, once all libraries are loaded.

usage: bench/questions.py PROGRAM FILE..

PROGRAM is the built program, crates/union_main/out/union_main after ./union ran once; each FILE is a library's records. What is
asked for is drawn from the export of these files. One script loads them and then asks the questions of one kind after those
of another, with a `count` between two kinds; a kind's time is that between the answers to the two counts, as they come through
a pipe, so it holds the writing of the answers too. What is printed is, for each kind, how many questions there were, how many
lines they were answered by, and the questions a second.
"""
import itertools, os, random, subprocess, sys, tempfile, time

QUESTIONS = 4000
# The most bytes that a script may have.
LARGEST_SCRIPT = 1_048_576
KINDS = ("id", "holdings", "isbn", "issn", "control", "title", "work")
MARK = b"editions "


def fields(record):
    """The tag and the bytes of each field of a record in ISO 2709."""
    base = int(record[12:17])
    for at in range(24, base - 1, 12):
        size, start = int(record[at + 3 : at + 7]), int(record[at + 7 : at + 12])
        yield record[at : at + 3], record[base + start : base + start + size - 1]


def subfields(body):
    for part in body.split(b"\x1f")[1:]:
        yield part[:1], part[1:]


def askable(record):
    """The questions that an exported record gives: kind and line."""
    for tag, body in fields(record):
        found = dict(reversed(list(subfields(body))))
        text = found.get(b"a", b"")
        if tag == b"993":
            who = text + b" " + found[b"b"]
            yield "id", b"id " + who
            yield "holdings", b"holdings " + who
        elif tag == b"020" and text:
            yield "isbn", b"isbn " + text.split()[0]
        elif tag == b"022" and text:
            yield "issn", b"issn " + text.split()[0]
        elif tag == b"035" and text.startswith(b"("):
            yield "control", b"control " + text
        elif tag == b"245" and text:
            yield "title", b"title " + text
        elif tag == b"991":
            yield "work", b"work " + text


def drawn(export):
    """As many questions of each kind as the script has room for, drawn from all that the export gives."""
    asked = {kind: [] for kind in KINDS}
    with open(export, "rb") as file:
        for record in file.read().split(b"\x1d")[:-1]:
            for kind, line in askable(record + b"\x1d"):
                asked[kind].append(line)
    draws = random.Random(1)
    return {kind: within(draws.choices(lines, k=QUESTIONS)) if lines else [] for kind, lines in asked.items()}


def within(lines):
    """The longest prefix of the lines that has room in a kind's part of the script."""
    room = LARGEST_SCRIPT // len(KINDS) - 4096
    sizes = itertools.accumulate(len(line) + 1 for line in lines)
    return [line for line, size in zip(lines, sizes) if size <= room]


def marks(program, script):
    """When the answer to each `count` came, and how many lines came before it."""
    with subprocess.Popen([program, "script", script], stdout=subprocess.PIPE) as run:
        rest, lines = b"", 0
        while piece := os.read(run.stdout.fileno(), 1 << 16):
            now = time.monotonic()
            *whole, rest = (rest + piece).split(b"\n")
            for line in whole:
                lines += 1
                if line.startswith(MARK):
                    yield now, lines


def main(program, files):
    loads = [b"load L%d %s" % (at, os.fsencode(os.path.abspath(file))) for at, file in enumerate(files, 1)]
    words = [f"L{at}={file}" for at, file in enumerate(files, 1)]
    with tempfile.TemporaryDirectory() as work:
        with open(f"{work}/export", "wb") as out:
            subprocess.run([program, "export", *words], stdout=out, stderr=subprocess.DEVNULL, check=False)
        asked = drawn(f"{work}/export")
        with open(f"{work}/script", "wb") as out:
            for lines in (loads, *asked.values()):
                out.write(b"".join(line + b"\n" for line in [*lines, b"count"]))
        before = None
        for kind, mark in zip((None, *KINDS), marks(program, f"{work}/script")):
            if kind:
                seconds, lines = mark[0] - before[0], mark[1] - before[1] - 1
                number = len(asked[kind])
                print(f"{kind}: {number} questions, {lines} lines, {number / max(seconds, 1e-6):,.0f} questions a second")
            before = mark


if __name__ == "__main__":
    if len(sys.argv) < 3:
        sys.exit(__doc__)
    main(sys.argv[1], sys.argv[2:])
