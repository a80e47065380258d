#!/usr/bin/env bash
# Times turns in a hall that do nothing, beside a pthread mutex, for one thread and for several, and puts and takes of the
# ring of jobs.
# usage: bench/hall.sh [TURNS]     (TURNS in all; crates/soc_bench must be built: `cd crates/soc_bench && rt run`)
set -eu
cd "$(dirname "$0")/.."

turns=${1:-1000000}
program=crates/soc_bench/out/soc_bench
[ -x "$program" ] || { echo "build $program first: cd crates/soc_bench && rt run" >&2; exit 1; }

mutex=$(mktemp)
trap 'rm -f "$mutex"' EXIT
"${CC:-cc}" -O2 -pthread -o "$mutex" bench/mutex.c

for threads in 1 2 4 8; do
    "$program" hall "$threads" $((turns / threads))
    "$mutex" "$threads" $((turns / threads))
done
"$program" ring "$turns"
