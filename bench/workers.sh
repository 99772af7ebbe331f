#!/bin/sh
# What several workers gain: a trial, and the merged export of a consortium, by 1, 2 and 4 of them.
#
# usage: bench/workers.sh [RECORDS [LIBRARIES]]
#
# The trial and the files have RECORDS records in all (200,000 if not given), the files of LIBRARIES libraries (8). What is
# printed is the elapsed time in seconds, the processor time, and the largest memory in megabytes, as GNU time tells them, and how
# many times as fast it was as one worker. Each number of workers must write the same bytes. All is one run: compare ratios
# alone.
. "$(dirname "$0")/common.sh"
[ $# -le 2 ] || usage
need_union
records=${1:-200000}
libraries=${2:-8}

# A line on what a command spent: its name, the number of workers, and the elapsed time of one worker.
tell() {
    echo "$3" | awk -v name="$1" -v workers="$2" -v one="$4" '{
        printf "%s by %d: %.2f s, %.2f s of processor time, %d MB, %.2f times as fast as by one\n", name, workers, $1, $2 + $3, $4 / 1024, one / $1
    }'
}

# Runs the command with `$1` workers in place of each @, three times, and tells of the fastest.
by_workers() {
    name=$1
    shift
    one=
    for workers in 1 2 4; do
        best=
        for round in 1 2 3; do
            now=$(spent $(echo "$*" | sed "s/@/$workers/g"))
            cksum <"$work/out" >"$work/sum"
            [ -z "$one$best" ] || cmp -s "$work/sum" "$work/first" || { echo "$name: $workers workers write other bytes" >&2; exit 1; }
            cp "$work/sum" "$work/first"
            best=$(printf '%s\n%s\n' "$best" "$now" | sed '/^$/d' | sort -n | head -n 1)
        done
        [ -n "$one" ] || one=${best%% *}
        tell "$name" "$workers" "$best" "$one"
    done
}

by_workers "trial of $records" "$program" trial 1 "$records" @
make_libraries "$libraries" "$records"
# shellcheck disable=SC2086
by_workers "export of $libraries libraries" "$program" export --workers=@ $words
