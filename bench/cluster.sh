#!/bin/sh
# A catalogue in parts on this machine: the time of `union export`, and of cluster/union-cluster with 4, 2 and 1 workers, over the files
# of one consortium, the memory of the largest process of each, and what the driver tells of steps, rounds and bytes.
# `union export` has as many workers as the cluster.
#
# usage: bench/cluster.sh [RECORDS [LIBRARIES]]
#
# The files have RECORDS records in all (20,000 if not given), of LIBRARIES libraries (4). KEYS names another program union-keys. Each run
# must write the same bytes. All is one run: compare ratios alone.
. "$(dirname "$0")/common.sh"
[ $# -le 2 ] || usage
need_union
keys=${KEYS:-$top/crates/union_keys_main/out/union_keys_main}
need_program "$keys"
records=${1:-20000}
libraries=${2:-4}
"$maker" 7 "$libraries" "$records" "$work" --no-updates
words=
for file in "$work"/lib*.mrc; do
    name=$(basename "$file" .mrc | tr a-z A-Z)
    words="$words $name=$file"
done
for workers in 4 2 1; do
    # shellcheck disable=SC2086
    /usr/bin/time -f "%e s, %M KB" "$program" export --workers=$workers $words >"$work/one.out" 2>"$work/one.notes"
    echo "union export, $workers workers: $(tail -n 1 "$work/one.notes"), load $(cut -d ' ' -f 1 /proc/loadavg)"
    # shellcheck disable=SC2086
    /usr/bin/time -f "%e s, the largest process %M KB" "$top/cluster/union-cluster" --workers=$workers --union="$program" --keys="$keys" --scratch="$work" \
        --progress $words >"$work/many.out" 2>"$work/many.notes"
    cmp "$work/one.out" "$work/many.out"
    echo "union-cluster, $workers workers: $(tail -n 1 "$work/many.notes"), load $(cut -d ' ' -f 1 /proc/loadavg)"
    grep '^union-cluster:' "$work/many.notes"
done
