#!/bin/sh
# What a viewer answers while libraries load, and what it costs the load.
#
# usage: bench/follow.sh [RECORDS [LIBRARIES]]
#
# The files of LIBRARIES libraries (8 if not given) have RECORDS records in all (100,000). The program of the crate bench_desks loads them
# as `follow` does, seven times alone and seven times, in turn, with a viewer beside that asks for the counts without a pause; the median
# load of each kind is told: its time in seconds and its memory in megabytes, as GNU time tells it; with the viewer also its answers a
# second, and the slowest answer of the median load and of all loads in milliseconds, which takes in the turns that were published since
# the one before it. Then the memory of `follow` is told beside that of `watch` by one worker, both with one question (PROGRAM is the built
# program, if the environment names one). All is one run: compare ratios alone.
. "$(dirname "$0")/common.sh"
[ $# -le 2 ] || usage
records=${1:-100000}
libraries=${2:-8}
need_union
union=$program
PROGRAM='' need_bench bench_desks
make_libraries "$libraries" "$records"

# The median of the loads in the file: microseconds, turns, answers, microseconds of its slowest answer, kilobytes of memory, and the
# microseconds of the slowest answer of all.
median() {
    sort -k 2n "$1" | awk 'BEGIN { slowest = 0 } { if ($8 > slowest) slowest = $8; load[NR] = $2 " " $4 " " $6 " " $8 " " $9 }
        END { print load[(NR + 1) / 2], slowest }'
}

for round in 1 2 3 4 5 6 7; do
    for kind in alone beside; do
        memory=$(spent "$program" follow "$kind" $words | awk '{ print $4 }')
        echo "$(cat "$work/out") $memory" >>"$work/$kind"
    done
done
echo "$(median "$work/alone") $(median "$work/beside")" | awk '{
    printf "%d turns alone: %.2f s, %d MB\n", $2, $1 / 1e6, $5 / 1024
    printf "beside a viewer: %.2f s, %.2f times as long, %d MB; %.0f answers a second, the slowest %.1f ms, %.1f ms in all loads\n", \
        $7 / 1e6, $7 / $1, $11 / 1024, $9 / ($7 / 1e6), $10 / 1e3, $12 / 1e3
}'
echo count >"$work/asks"
for command in "follow --ask=$work/asks" "watch --ask=$work/asks --workers=1"; do
    spent "$union" $command $words | awk -v name="${command%% *}" '{ printf "%s: %.2f s, %d MB\n", name, $1, $4 / 1024 }'
done
