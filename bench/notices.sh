#!/bin/sh
# What it costs to tell a night's deliveries: the corrections and withdrawals of bench/nightly.sh with notices, beside the same without.
#
# usage: bench/notices.sh [SIZE..]
#
# For each SIZE (10,000, 20,000, 40,000 and 80,000 if none is given) eight libraries have that many records in all files, as in
# bench/nightly.sh. Three scripts run: the first loads alone; these and the later deliveries; and the same with the line `notices`
# between the two. The times of the first are taken off, so that what is compared is the processor time of the later deliveries with
# notices and without, each the least of RUNS runs (an environment variable; 5), since a difference of two times is as uncertain as
# both. All is one run: compare ratios alone.
. "$(dirname "$0")/common.sh"
need_union
[ $# -ge 1 ] || set -- 10000 20000 40000 80000

# The least processor time of the script's runs, in seconds.
least() {
    run=0
    while [ "$run" -lt "${RUNS:-5}" ]; do
        spent "$program" script "$1"
        run=$((run + 1))
    done | awk '{ time = $2 + $3; if (NR == 1 || time < best) best = time } END { print best }'
}

for size in "$@"; do
    make_night "$size"
    cat "$work/loads" "$work/later" >"$work/all"
    { cat "$work/loads"; echo notices; cat "$work/later"; } >"$work/told"
    first=$(least "$work/loads")
    all=$(least "$work/all")
    told=$(least "$work/told")
    lines=$(grep -c '^closed \|^opened \|^ ' "$work/out")
    echo "$(cat "$work"/libraries/*.upd.mrc | records) $lines $first $all $told" | awk '{
        plain = $4 - $3; told = $5 - $3
        if (plain < 0.05) {
            printf "%d later records: %.2f s without notices, %.2f s with (%d lines): too short to compare\n", $1, plain, told, $2
        } else {
            printf "%d later records: %.2f s without notices, %.2f s with (%d lines), %.2f times as long\n", \
                $1, plain, told, $2, told / plain
        }
    }'
done
