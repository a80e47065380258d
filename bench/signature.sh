#!/usr/bin/env bash
# Times signatures of a stack of 1,000 frames under 1,300 patterns, a quarter of them not literal or without a literal front, beside Python's `re`
# with the patterns of each list joined into one. Both figures are processor time; it needs a quiet machine.
# usage: bench/signature.sh [SIGNATURES]     (crates/soc_bench must be built: `cd crates/soc_bench && rt run`)
set -eu
cd "$(dirname "$0")/.."

signatures=${1:-20}
program=crates/soc_bench/out/soc_bench
[ -x "$program" ] || { echo "build $program first: cd crates/soc_bench && rt run" >&2; exit 1; }

"$program" signature
python3 bench/signature.py "$signatures"
