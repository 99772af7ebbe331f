#!/bin/sh
# How fast a file of authority records is read into a table of names, and how much memory it takes for each see-from heading.
#
# usage: bench/names.sh [COUNT]
#
# The program is the one that ./union builds. COUNT made-up records, 1,000,000 without it, by bench/authorities.py, are its file of names,
# beside one library of one record. Printed are the records and bytes of the file, what the program told of it, its least processor time
# of three runs and that of `yaz-marcdump -n` on the same file (Debian's package yaz; left out where it is not there), their ratio, and
# the memory that the program took at most, for each see-from heading. Where `rt run` has built crates/bench_parts, the same of the table
# alone, which that program reads. Compare ratios of one run only.
. "$(dirname "$0")/common.sh"
[ $# -le 1 ] || usage
need_union

python3 "$here/authorities.py" "${1:-1000000}" >"$work/names"
echo "$(records <"$work/names") records, $(wc -c <"$work/names") bytes"

# The least processor time of three runs with the file as standard input, and the memory: `seconds kilobytes`.
best() {
    for _ in 1 2 3; do spent sh -c 'exec "$@" <"$0"' "$work/names" "$@"; done |
        awk '{ print $2 + $3, $4 }' | sort -n | head -n 1
}

yaz=
if command -v yaz-marcdump >/dev/null; then
    yaz=$(best yaz-marcdump -n /dev/stdin)
    echo "$yaz" | awk '{ printf "yaz-marcdump -n %.2f s\n", $1 }'
fi

# A row of this name and these numbers. The last is the number of see-from headings.
row() {
    echo "$2 $yaz" | awk -v name="$1" -v pairs="$3" '{
        printf "%s %.2f s, %d kB, %.0f bytes a see-from heading", name, $1, $2, $2 * 1024 / (pairs < 1 ? 1 : pairs)
        if (NF > 2) printf "; %s / yaz %.2f", name, $1 / $3
        print ""
    }'
}

ours=$(best "$program" works --workers=1 "--names=$work/names" "LIBA=$top/samples/one.mrc")
grep '^names frames' "$work/notes"
row program "$ours" "$(sed -n 's/^names frames .* pairs \([0-9]*\) .*/\1/p' "$work/notes")"
table=$top/crates/bench_parts/out/bench_parts
if [ -x "$table" ]; then
    ours=$(best "$table" names)
    row table "$ours" "$(sed 's/.* pairs //' "$work/out")"
fi
