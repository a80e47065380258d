#!/usr/bin/env bash
# Times the reading of a body with one large dump: by the reader whose parts own their contents, fed in pieces of 32 KiB and
# fed the whole body at once, and by the one whose parts point into the body. Beside them a C program that finds the same
# delimiters by memmem, and copies what is between them or not. bench/peak.py measures the memory that a body takes.
# usage: bench/multipart.sh [MEGABYTES]     (crates/soc_bench must be built: `cd crates/soc_bench && rt run`)
set -eu
cd "$(dirname "$0")/.."

megabytes=${1:-16}
program=crates/soc_bench/out/soc_bench
[ -x "$program" ] || { echo "build $program first: cd crates/soc_bench && rt run" >&2; exit 1; }

folder=$(mktemp -d)
trap 'rm -rf "$folder"' EXIT
gcc -O2 -Wall -Wextra -o "$folder/memmem" bench/memmem.c

"$program" bodies "$megabytes"
for dump in plain near; do
    "$folder/memmem" "$megabytes" "$dump"
    "$folder/memmem" "$megabytes" "$dump" copy
done
