#!/usr/bin/env bash
# Times the reading of a symbol text and a million look-ups, beside a Python reader with sorted lists over a text of the
# same form, and beside grep, which only counts its functions. If OLD, a soc_bench of an earlier commit, is given, both
# run in turns, and the last line has the ratios of their fastest runs. It needs a quiet machine.
# usage: bench/symbols.sh [MEGABYTES [OLD]]     (crates/soc_bench must be built: `cd crates/soc_bench && rt run`)
set -eu
cd "$(dirname "$0")/.."

megabytes=${1:-16}
old=${2:-}
program=crates/soc_bench/out/soc_bench
[ -x "$program" ] || { echo "build $program first: cd crates/soc_bench && rt run" >&2; exit 1; }

text=$(mktemp)
times=$(mktemp)
trap ': > "$text"; : > "$times"' EXIT

if [ -n "$old" ]; then
    for _ in 1 2 3 4 5 6 7; do
        "$old" symbols "$megabytes" 2>&1 >/dev/null | sed 's/^/old /' >> "$times"
        "$program" symbols "$megabytes" 2>&1 >/dev/null | sed 's/^/new /' >> "$times"
    done
    awk '/symbols read/ && $6 > read[$1] { read[$1] = $6 } /look-ups/ && $5 > found[$1] { found[$1] = $5 } END {
        printf "symbols: %d and %d bytes/s read, old and new; %d and %d look-ups/s\n", read["old"], read["new"], found["old"], found["new"]
        printf "symbols: read %.2f times as fast, looked up %.2f times\n", read["new"] / read["old"], found["new"] / found["old"]
    }' "$times" >&2
fi
"$program" symbols "$megabytes"
python3 bench/symbols.py write "$megabytes" > "$text"
python3 bench/symbols.py read "$megabytes" "$text"

start=$(date +%s%N)
functions=$(LC_ALL=C grep -c '^FUNC ' "$text")
end=$(date +%s%N)
echo "grep: $functions functions"
echo "grep: $(($(stat -c %s "$text") * 1000 / (end - start))) MB/s" >&2
