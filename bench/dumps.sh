#!/usr/bin/env bash
# Times dumps that a stranger could send, each of 16 MiB (a million regions; as many modules as fit, which share a build id
# that has symbols and the longest path that counts, or the longest code view record that counts; one module with such a
# path): how each is read, how its stack of 1,024 frames is walked, and how its report is made, with the peak of the memory.
# The lists have 2,000 patterns, of which 20 have no literal front, and for a second report 500. If a DUMP is given, it
# times the walk and the report of that dump instead, with the SYMBOLS files. All figures are processor time; it needs a
# quiet machine.
# usage: bench/dumps.sh [DUMP SYMBOLS..]     (crates/soc_bench must be built: `cd crates/soc_bench && rt run`)
# Symbol files are copied into a folder that mktemp makes, and emptied there at the end.
set -eu
top=$(cd "$(dirname "$0")/.." && pwd)

program=$top/crates/soc_bench/out/soc_bench
[ -x "$program" ] || { echo "build $program first: cd crates/soc_bench && rt run" >&2; exit 1; }

# with_peak COMMAND..: runs the command and prints the peak of its memory.
with_peak() {
    python3 - "$@" <<'PYTHON'
import resource
import subprocess
import sys

status = subprocess.run(sys.argv[1:]).returncode
print(f"peak: {resource.getrusage(resource.RUSAGE_CHILDREN).ru_maxrss} kB", file=sys.stderr)
sys.exit(status)
PYTHON
}

if [ "$#" -gt 0 ]; then
    dump=$(realpath "$1")
    shift
    folder=$(mktemp -d)
    paths=()
    empty_all() { for path in "${paths[@]}"; do : > "$folder/symbols/$path"; done; }
    trap empty_all EXIT
    for file in "$@"; do
        read -r _ _ _ id name < "$file"
        path="$name/$id/${name%.pdb}.sym"
        mkdir -p "$folder/symbols/$name/$id"
        cat "$file" > "$folder/symbols/$path"
        paths+=("$path")
    done
    cd "$folder"
    "$program" walk "$dump" "${paths[@]}"
    with_peak "$program" report "$dump" "${paths[@]}"
    exit
fi
for kind in regions names views name; do
    "$program" dump "$kind"
    "$program" walk "$kind"
    with_peak "$program" report "$kind"
    with_peak "$program" report "$kind" 500
done
"$program" report
