#!/bin/sh
# Turns per second at a desk beside std's Mutex round the same machine, in one run.
#
# usage: bench/desk.sh [TURNS]
#
# The desk's program is proved and built by 'rt run', std's by rustc. Each line has the threads, the turns a second of the desk
# and of the Mutex, and their ratio: the median of seven runs of each, taken in turn, with the start of the process.
. "$(dirname "$0")/common.sh"
[ $# -le 1 ] || usage
turns=${1:-2000000}
rustc -O -o "$work/mutex" "$here/desk_mutex.rs"
(cd "$top/crates/bench_desks" && rt run >/dev/null 2>&1)
need_bench bench_desks
python3 - "$program" "$work/mutex" "$turns" <<'P'
import statistics, subprocess, sys, time
desk, mutex, turns = sys.argv[1], sys.argv[2], int(sys.argv[3])
for threads in (1, 2, 4):
    each = turns // threads
    rates = [[], []]
    for _ in range(7):
        for k, command in enumerate(([desk, "desk"], [mutex])):
            start = time.perf_counter()
            out = subprocess.run([*command, str(threads), str(each)], check=True, capture_output=True, text=True).stdout
            spent = time.perf_counter() - start
            assert int(out) == each * threads, out
            rates[k].append(each * threads / spent)
    a, b = (statistics.median(r) for r in rates)
    print(f"{threads} threads: desk {a:.0f}, Mutex {b:.0f} turns a second, ratio {a / b:.2f}")
P
