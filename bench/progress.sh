#!/bin/sh
# What it costs to tell progress: the instructions of the `check` of a library with UNION_PROGRESS=1, beside those with 0.
#
# usage: bench/progress.sh [RECORDS]
#
# The library has RECORDS records (40,000 if not given, 26 MB). Instructions are counted by callgrind (Debian's package valgrind): the
# times of two runs vary by more than the difference.
. "$(dirname "$0")/common.sh"
[ $# -le 1 ] || usage
need_union
need_program "$(command -v valgrind || echo valgrind)"
make_libraries 1 "${1:-40000}"

# The instructions of the check where the environment says this of progress.
instructions() {
    # shellcheck disable=SC2086
    UNION_PROGRESS=$1 valgrind --tool=callgrind --callgrind-out-file="$work/counts" "$program" check $words 2>&1 >/dev/null |
        sed -n 's/^.*Collected : //p'
}

echo "$(instructions 0) $(instructions 1)" |
    awk '{ printf "check: %d instructions; with progress: %d, %.4f times as many\n", $1, $2, $2 / $1 }'
