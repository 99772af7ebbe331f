#!/bin/sh
# The merged export by one worker, beside a plain program in Rust that does the same without proofs, and the parts of that.
#
# usage: bench/plain.sh [RECORDS [LIBRARIES]]
#
# The program is the built one, which ./union leaves in crates/union_main/out, or the one that the environment names as PROGRAM. The plain
# one is bench/plain_union.rs, built here by `rustc -O`; its head says what it leaves out. The files have RECORDS records in all (100,000
# if not given), and are those of LIBRARIES libraries (8). Both programs run RUNS times (an environment variable; 3), in turn. What is
# printed is the median of the processor time of each in microseconds a record, start and end counted, its largest memory, and the
# records that it exported; then the program's time as a multiple of the plain one's, and whether the two exports are the same; and
# then the median of each part of the plain program, as it tells it itself. All is one run: compare ratios alone.
. "$(dirname "$0")/common.sh"
[ $# -le 2 ] || usage
need_union
command -v rustc >/dev/null || { echo "rustc is not installed" >&2; exit 2; }
rustc -O --edition 2024 -o "$work/plain_union" "$here/plain_union.rs"
make_libraries "${2:-8}" "${1:-100000}"

run=0
while [ "$run" -lt "${RUNS:-3}" ]; do
    # shellcheck disable=SC2086
    spent "$program" export --workers=1 $words >>"$work/union.times"
    mv "$work/out" "$work/union.mrc"
    # shellcheck disable=SC2086
    spent "$work/plain_union" $words >>"$work/plain.times"
    mv "$work/out" "$work/plain.mrc"
    grep '	' "$work/notes" >>"$work/parts"
    run=$((run + 1))
done

cmp -s "$work/union.mrc" "$work/plain.mrc" && same="the same" || same="not the same"
python3 - "$work" "$same" "$(cat "$work"/libraries/*.mrc | records)" "$(records <"$work/union.mrc")" "$(records <"$work/plain.mrc")" <<'P'
import statistics, sys
work, same, *counts = sys.argv[1:]
records, *exported = map(int, counts)


def microseconds(name):
    """The median of the processor time a record, and the largest memory in megabytes."""
    with open(f"{work}/{name}.times") as file:
        runs = [tuple(map(float, line.split())) for line in file]
    return statistics.median(user + system for _, user, system, _ in runs) / records * 1e6, max(run[3] for run in runs) / 1024


times = []
for name, count in zip(("union", "plain"), exported):
    time, memory = microseconds(name)
    times.append(time)
    print(f"{name}: {time:.2f} us a record, {memory:.0f} MB, {count} records exported")
print(f"union takes {times[0] / times[1]:.2f} times as long; the exports are {same}")
parts = {}
with open(f"{work}/parts") as file:
    for line in file:
        part, time = line.rstrip("\n").split("\t")
        parts.setdefault(part, []).append(float(time))
for part, spent in parts.items():
    print(f"  {part}: {statistics.median(spent):.2f} us a record")
P
