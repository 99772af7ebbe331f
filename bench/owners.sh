#!/bin/sh
# What it costs to tell whose each local field is: `export --owners` of a consortium, beside `export` of the same files.
#
# usage: bench/owners.sh [RECORDS [LIBRARIES]]
#
# The files have RECORDS records in all (100,000 if not given), and are those of LIBRARIES libraries (8). The two run in turn, by one worker,
# RUNS times (an environment variable; 5). What is printed is the least processor time of each in seconds, the largest memory in megabytes,
# the bytes of each export, and the ratio of the times. All is one run: compare ratios alone.
. "$(dirname "$0")/common.sh"
[ $# -le 2 ] || usage
need_union
make_libraries "${2:-8}" "${1:-100000}"

run=0
while [ "$run" -lt "${RUNS:-5}" ]; do
    for option in "" --owners; do
        # shellcheck disable=SC2086
        echo "${option:-plain} $(spent "$program" export --workers=1 $option $words) $(wc -c <"$work/out")"
    done
    run=$((run + 1))
done | awk '
    { time = $3 + $4; if (!($1 in best) || time < best[$1]) best[$1] = time
      if ($5 > most[$1]) most[$1] = $5; bytes[$1] = $6 }
    END {
        printf "export: %.2f s, %d MB, %d bytes\n", best["plain"], most["plain"] / 1024, bytes["plain"]
        printf "export --owners: %.2f s, %d MB, %d bytes, %.2f times the time\n", best["--owners"], most["--owners"] / 1024, \
            bytes["--owners"], best["--owners"] / best["plain"]
    }'
