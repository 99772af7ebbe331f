#!/bin/sh
# How fast frames are checked against the nineteen rules, beside yaz-marcdump (Debian's package yaz) in the same run.
#
# usage: bench/rules.sh [FILE..]
#
# The program is `bench_parts rules`, which `rt run` builds. The FILEs are files of MARC 21 records (ISO 2709), which are
# taken together; without one, a file of 2,000 records is made. Three inputs are made, each repeated until it has 100 MB at least:
# - 'records': the records of the files,
# - 'crowded': a frame of 8,330 entries with 13 bytes of data among them,
# - 'reversed': a frame of 7,690 entries, each with a field of its own, in the reverse order of the directory.
# The program, the program with the word `status` (which asks for the status of each frame alone, and makes no record) and
# `yaz-marcdump -n` read each three times, in turn. What is printed is the best processor time of each, start and reading
# counted, as frames and bytes a second, and yaz-marcdump's time over the program's: above 1 the program is the faster.
# Compare ratios alone: the rates mean nothing on another machine.
. "$(dirname "$0")/common.sh"
need_bench bench_parts
command -v yaz-marcdump >/dev/null || { echo "yaz-marcdump is not installed (Debian's package yaz)" >&2; exit 2; }
if [ $# -eq 0 ]; then
    python3 "$maker" 1 1 2000 "$work/made" --no-updates >"$work/notes"
    set -- "$work"/made/*.mrc
fi

python3 - "$work" "$program" "$@" <<'P'
import os, sys
from measure import in_turn
folder, program, *paths = sys.argv[1:]
LEAST = 100_000_000
RUNS = 3
LEADER = "%05dnam a22%05d a 4500"


def frame(entries, data):
    """The frame of such entries (tag, length, start) and data."""
    base = 25 + 12 * len(entries)
    directory = "".join("%s%04d%05d" % entry for entry in entries)
    return (LEADER % (base + len(data) + 1, base) + directory + "\x1e" + data + "\x1d").encode("ascii")


def crowded():
    """As many entries as a frame has room for with 13 bytes of data, in which each byte is a field."""
    return frame([("009", 1, n % 13) for n in range(8330)], "\x1e" * 13)


def reversed_fields():
    """As many empty control fields as a frame has room for, in the reverse order of the directory."""
    count = 7690
    return frame([("009", 1, count - 1 - n) for n in range(count)], "\x1e" * count)


def records():
    """The records of the files."""
    parts = []
    for path in paths:
        with open(path, "rb") as file:
            parts.append(file.read())
    return b"".join(parts)


for name, part in (("records", records()), ("crowded", crowded()), ("reversed", reversed_fields())):
    path = os.path.join(folder, name)
    times = -(-LEAST // len(part))
    with open(path, "wb") as file:
        for _ in range(times):
            file.write(part)
    count = part.count(b"\x1d")
    frames, size = count * times, len(part) * times
    commands = {"record": [program, "rules"], "status": [program, "rules", "status"], "yaz-marcdump": ["yaz-marcdump", "-n", path]}
    answers, spent = in_turn(commands, RUNS, path)
    best = {name_of: min(times_of) for name_of, times_of in spent.items()}
    print(f"{name}: {frames} frames of {len(part) // count:,} bytes")
    for name_of, seconds in best.items():
        print(
            f"  {name_of}: {frames / seconds:,.0f} frames/s, {size / seconds / 1e6:,.0f} MB/s; "
            f"ratio {best['yaz-marcdump'] / seconds:.2f}" + ("" if name_of == "yaz-marcdump" else f"; {answers[name_of]}")
        )
    os.remove(path)
P
