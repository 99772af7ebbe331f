#!/bin/sh
# How fast records are written as lines of JSON and lines are read as records, beside yaz-marcdump and beside the export in the same run.
#
# usage: bench/json.sh [COUNT]
#
# The program is the one that ./union builds. A library's file of COUNT records, 100,000 if it is not given, is
# - written as MARC in JSON by yaz-marcdump (left out where there is none) and by `tojson`,
# - read again from these lines by `fromjson`,
# - exported by `export`, and by `export --json`.
# Each is run three times, its output to a file. What is printed is the least processor time of each, the bytes that it read a second,
# its largest memory, and its ratio to the row that is named. Compare ratios of one run only.
. "$(dirname "$0")/common.sh"
[ $# -le 1 ] || usage
need_union
count=${1:-100000}

python3 "$maker" 1 1 "$count" "$work/files" --no-updates >/dev/null
file=$work/files/lib01.mrc
lines=$work/lines
"$program" tojson "LIBA=$file" >"$lines" 2>"$work/notes"

# The least processor time in hundredths of a second, and the largest memory in kilobytes, of three runs.
best() {
    for _ in 1 2 3; do spent "$@"; done | awk '{
        t = int(($2 + $3) * 100 + 0.5)
        if (NR == 1 || t < least) least = t
        if ($4 > most) most = $4
    } END { print (least < 1 ? 1 : least), most }'
}

# tell NAME BYTES TIME MEMORY OTHER TIME-OF-OTHER
tell() {
    awk -v name="$1" -v bytes="$2" -v t="$3" -v memory="$4" -v other="$5" -v base="$6" 'BEGIN {
        printf "%-14s %6.2f s  %6.0f MB/s  %8.1f MB", name, t / 100, bytes / t / 10000, memory / 1024
        if (other != "") printf "  %5.2f of %s", t / base, other
        print ""
    }'
}

bytes=$(wc -c <"$file")
text=$(wc -c <"$lines")
echo "$(records <"$file") records, $bytes bytes, $text bytes of lines"
cat "$file" "$lines" >/dev/null

set -- $(best "$program" tojson "LIBA=$file")
if command -v yaz-marcdump >/dev/null; then
    own="$1 $2"
    set -- $(best yaz-marcdump -i marc -o json "$file")
    peer=$1
    tell yaz-marcdump "$bytes" "$1" "$2" "" 1
    set -- $own
    tell tojson "$bytes" "$1" "$2" yaz-marcdump "$peer"
else
    tell tojson "$bytes" "$1" "$2" "" 1
fi
set -- $(best "$program" fromjson "LIBA=$lines")
tell fromjson "$text" "$1" "$2" "" 1
set -- $(best "$program" export "LIBA=$file")
whole=$1
tell export "$bytes" "$1" "$2" "" 1
set -- $(best "$program" export --json "LIBA=$file")
tell "export --json" "$bytes" "$1" "$2" export "$whole"
