#!/bin/sh
# How many normal forms a second are made, beside the same nine steps by Python's unicodedata in the same run.
#
# usage: bench/forms.sh [FILE..]
#
# The program is `bench_parts forms`, which `rt run` builds. Each FILE is a file of MARC 21 records (ISO 2709, UTF-8),
# of which bench/headings.py takes the headings and titles; without one, the few below are used. The texts in ASCII and those
# that have other characters go to two files, each repeated until it has 300,000 texts at least. The program and bench/forms.py
# read each three times, in turn, and must print the same totals. What is printed is the median of the processor time of each,
# start and reading counted, as forms per second, and the ratio of the two. Compare ratios alone: the rates mean nothing on
# another machine.
. "$(dirname "$0")/common.sh"
need_bench bench_parts

if [ $# -ge 1 ]; then
    python3 "$here/headings.py" "$@" >"$work/texts"
else
    cat >"$work/texts" <<'TEXTS'
1Wagner, Richard, 1813-1883.
1O'Neill, Eugene, 1888-1953.
1United Nations. Economic Commission for Europe.
2The adventures of Tom Sawyer / by Mark Twain [pseud.] ; with an introduction.
2Peer Gynt [sound recording] : suites no. 1 & 2, op. 46, op. 55.
2Programming in C++ : a first course.
1Dvořák, Antonín, 1841-1904.
1Brontë, Charlotte, 1816-1855.
1Łukasiewicz, Jan.
1Чехов, Антон Павлович, 1860-1904.
1Καζαντζάκης, Νίκος, 1883-1957.
2Die Königin von Saba : Oper in vier Akten.
2Études-caprices, op. 18. No 4; arr.
2Arii͡a Orfei͡a [sound recording] : iz 3 akta op. Orfeĭ.
2Ṭoplpunḳṭ.
2Війна і мир : роман.
2תולדות ישראל.
2Truyện Kiều / Nguyễn Du.
TEXTS
fi

LC_ALL=C grep -v '[^ -~]' "$work/texts" >"$work/ascii" || true
LC_ALL=C grep '[^ -~]' "$work/texts" >"$work/other" || true

python3 - "$work" "$program" "$here/forms.py" <<'P'
import os, sys
from measure import in_turn, medians
folder, program, script = sys.argv[1:]
LEAST = 300_000
RUNS = 3

for name in ("ascii", "other"):
    path = os.path.join(folder, name)
    with open(path, "rb") as file:
        part = file.read()
    texts = part.count(b"\n")
    if texts == 0:
        print(f"{name}: no such texts")
        continue
    times = -(-LEAST // texts)
    with open(path, "wb") as file:
        file.write(part * times)
    answers, spent = in_turn({"program": [program, "forms", path], "python": [sys.executable, script, path]}, RUNS)
    assert answers["program"] == answers["python"], answers
    seconds, count = medians(spent), texts * times
    print(
        f"{name}: {texts} texts, {len(part) / texts - 2:.0f} bytes each; program {count / seconds['program']:,.0f} forms/s, "
        f"python {count / seconds['python']:,.0f} forms/s, ratio {seconds['python'] / seconds['program']:.1f}; {answers['program']}"
    )
P
