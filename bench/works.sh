#!/bin/sh
# How long works take to change, beside an earlier build of the same program if there is one.
#
# usage: bench/works.sh [EARLIER]
#
# The program is `bench_parts works`, which `rt run` builds; EARLIER is such a program built from an earlier state of the
# repository. Each makes works of 76,800 keys by 300 changes of 256 new keys, and again with changes of one pair after them,
# 100,000 or, by EARLIER, 1,000; the first run's time is taken off the second's. What is printed is the processor time of a
# change, from the median of three runs, and the ratios: compare ratios alone.
. "$(dirname "$0")/common.sh"
[ $# -le 1 ] || usage
need_bench bench_parts
set -- "$program" "$@"
for program in "$@"; do need_program "$program"; done

python3 - "$@" <<'P'
import sys
from measure import in_turn, medians
programs = sys.argv[1:3]
RUNS = 3


def median(program, *words):
    """What the program prints, and the median of its processor times."""
    answers, spent = in_turn({"it": [program, "works", *words]}, RUNS)
    return answers["it"], medians(spent)["it"]


times = []
for program, singles in zip(programs, (100_000, 1_000)):
    _, many = median(program, "300", "0")
    answer, both = median(program, "300", str(singles))
    times.append((many / 300 * 1e6, (both - many) / singles * 1e6))
    print(f"{program}: {answer}; {times[-1][0]:,.0f} us for a change of 256 keys, {times[-1][1]:,.2f} us for one of a pair")
if len(times) == 2:
    print("earlier to now:", " and ".join(f"{before / now:,.1f}" for now, before in zip(*times)))
P
