# What the scripts bench/*.sh share; each reads it in as its first command.
#
# It names the folders `here` (bench/) and `top`, makes a folder `work` that is removed at the end, and lets the scripts' Python find
# bench/measure.py. MAKER is the script that makes a consortium's files: bench/make_consortium.py, if the environment names no other.
set -eu
here=$(cd "$(dirname "$0")" && pwd)
top=$(dirname "$here")
maker=${MAKER:-$here/make_consortium.py}
work=$(mktemp -d)
trap 'rm -rf "$work"' EXIT INT TERM
export PYTHONPATH=$here PYTHONDONTWRITEBYTECODE=1

# Prints how the script is used, and ends.
usage() {
    sed -n 's/^# usage: /usage: /p' "$0" >&2
    exit 2
}

# Ends unless this is a program.
need_program() {
    [ -x "$1" ] || { echo "not a program: $1" >&2; exit 2; }
}

# The built program, which ./union leaves here: `program`, if the environment names no other as PROGRAM.
need_union() {
    program=${PROGRAM:-$top/crates/union_main/out/union_main}
    need_program "$program"
    need_program /usr/bin/time
}

# A program for measuring, which `rt run` builds in its crate: `program`, if the environment names no other as PROGRAM.
need_bench() {
    program=${PROGRAM:-$top/crates/$1/out/$1}
    [ -x "$program" ] || { echo "not a program: $program; 'rt run' in crates/$1 builds it" >&2; exit 2; }
}

# The number of records of the input.
records() { tr -cd '\035' | wc -c; }

# The time and memory of a command, whose output goes to the file out: `elapsed user system kilobytes`.
spent() {
    status=0
    /usr/bin/time -q -f '%e %U %S %M' -o "$work/spent" "$@" >"$work/out" 2>"$work/notes" || status=$?
    [ "$status" -le 1 ] || { cat "$work/notes" >&2; exit 1; }
    cat "$work/spent"
}

# Eight libraries of that many records in all, in the folder libraries, and the lines of a script that load them (the file loads) and
# their later corrections and withdrawals (the file later).
make_night() {
    rm -rf "$work/libraries"
    python3 "$maker" 1 8 "$1" "$work/libraries" >"$work/notes"
    : >"$work/loads"
    : >"$work/later"
    number=0
    for file in "$work"/libraries/*.upd.mrc; do
        number=$((number + 1))
        echo "load L$number ${file%.upd.mrc}.mrc" >>"$work/loads"
        echo "load L$number $file" >>"$work/later"
    done
}

# The files of that many libraries, with that many records in all and no updates, in the folder libraries; and the words that load them,
# L1=FILE L2=FILE .., as `words`.
make_libraries() {
    python3 "$maker" 1 "$1" "$2" "$work/libraries" --no-updates >"$work/notes"
    words=
    number=0
    for file in "$work"/libraries/*.mrc; do
        number=$((number + 1))
        words="$words L$number=$file"
    done
}
