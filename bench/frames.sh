#!/bin/sh
# How fast a file of records is cut into frames, beside two plain scans of the same file in the same run.
#
# usage: bench/frames.sh [FILE]
#
# The program is `bench_parts frames`, which `rt run` builds. FILE is a file of MARC 21 records (ISO 2709); without one,
# made-up frames are used. The file is repeated until it has 300 MB at least. Each of
# - 'scan', a count of the record terminators by the C library's memchr (a small C program; left out where there is no cc),
# - 'tr', the same count by tr and wc,
# - 'cut', the program,
# reads the file three times from the page cache. What is printed is the best time of each, its bytes per second, and its
# ratio to the first. Compare ratios of one run only: the times mean nothing on another machine or under another load.
. "$(dirname "$0")/common.sh"
[ $# -le 1 ] || usage
need_bench bench_parts

if [ $# -eq 1 ]; then
    cp "$1" "$work/part"
else
    # frames of 200 to 3,200 bytes: letters, and then a terminator
    awk 'BEGIN {
        for (n = 0; n < 1000; n++) {
            size = 200 + (n * 7919) % 3001
            text = ""
            for (i = 0; i < size; i += 20) text = text "abcdefghij klmnopqrs"
            printf "%s\035", text
        }
    }' >"$work/part"
fi
[ -s "$work/part" ] || { echo "the file is empty" >&2; exit 2; }

size=$(wc -c <"$work/part")
: >"$work/file"
times=$((300000000 / size + 1))
if [ "$times" -gt 1000 ]; then
    n=0
    while [ $n -lt 1000 ]; do cat "$work/part"; n=$((n + 1)); done >"$work/thousand"
    mv "$work/thousand" "$work/part"
    size=$((size * 1000))
    times=$((300000000 / size + 1))
fi
n=0
while [ $n -lt "$times" ]; do cat "$work/part"; n=$((n + 1)); done >"$work/file"
bytes=$(wc -c <"$work/file")

# seconds of the best of three runs, in thousandths
best() {
    least=
    for _ in 1 2 3; do
        before=$(date +%s%N)
        "$@" <"$work/file" >"$work/answer"
        after=$(date +%s%N)
        spent=$(((after - before) / 1000000))
        [ -z "$least" ] || [ "$spent" -lt "$least" ] || continue
        least=$spent
    done
    [ "$least" -gt 0 ] || least=1
}

tell() {
    [ -n "${base:-}" ] || base=$least
    awk -v name="$1" -v t="$least" -v base="$base" -v bytes="$bytes" -v answer="$(tr '\n' ' ' <"$work/answer")" 'BEGIN {
        printf "%-5s %6.3f s  %7.0f MB/s  ratio %5.2f   %s\n", name, t / 1000, bytes / t / 1000, t / base, answer
    }'
}

echo "$bytes bytes"
cat "$work/file" >/dev/null
if command -v cc >/dev/null; then
    cat >"$work/scan.c" <<'C'
#include <stdio.h>
#include <string.h>
#include <unistd.h>

static char piece[65536];

int main(void) {
    long count = 0;
    ssize_t size;
    while ((size = read(0, piece, sizeof piece)) > 0)
        for (char *at = piece; (at = memchr(at, 0x1d, piece + size - at)); at++) count++;
    printf("%ld\n", count);
    return size < 0;
}
C
    cc -O2 -o "$work/scan" "$work/scan.c"
    best "$work/scan"
    tell scan
fi
best sh -c "tr -cd '\\035' | wc -c"
tell tr
best "$program" frames
tell cut
