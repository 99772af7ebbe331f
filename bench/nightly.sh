#!/bin/sh
# What the deliveries of a night cost a catalogue that has all libraries' records, beside loading everything again.
#
# usage: bench/nightly.sh [SIZE..]
#
# For each SIZE (10,000, 20,000, 40,000 and 80,000 if none is given) eight libraries have that many records in all files: for
# each library its first load, and a later delivery of corrections and withdrawals. Two scripts run: one loads the first loads
# alone, the other then loads the later deliveries too, which is what a catalogue costs that is made from nothing each night; the
# difference is what a catalogue costs that follows. What is printed is how many records the deliveries have, the processor time
# in seconds of either, and its largest memory in megabytes, as GNU time tells them, with the answer to `count`. All is one run:
# compare ratios alone.
. "$(dirname "$0")/common.sh"
need_union
[ $# -ge 1 ] || set -- 10000 20000 40000 80000

for size in "$@"; do
    make_night "$size"
    { cat "$work/loads"; echo count; } >"$work/first"
    { cat "$work/loads" "$work/later"; echo count; } >"$work/all"
    first=$(spent "$program" script "$work/first")
    all=$(spent "$program" script "$work/all")
    echo "$(cat "$work"/libraries/*.upd.mrc | records) $(cat "$work"/libraries/*.mrc | records) $first $all $(tail -n 1 "$work/out")" | awk '{
        first = $4 + $5; all = $8 + $9; night = all - first
        printf "%d later records of %d: %.2f s for them, %.2f s for everything, %d MB; ", $1, $2, night, all, $10 / 1024
        printf "everything again is %.1f times the night; %s %s %s %s %s %s\n", all / (night > 0.01 ? night : 0.01), $11, $12, $13, $14, $15, $16
    }'
done
