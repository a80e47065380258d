#!/usr/bin/env bash
# Times `socorro replay` over a journal on a real file: submissions with a dump of 1 KB, 100 KB and 1 MB, each acknowledged
# once it is on the disk, beside a C program that makes two writes and two syncs an entry of that size (two_syncs.c); and
# small requests of which nothing is kept, since a rule rejects them.
# Each line is the fastest of several runs: elapsed seconds, requests a second, and the share of the C program's rate. The
# machine and its disk should be quiet. Deleted files slow a disk down, so the files in FOLDER are emptied and stay.
# usage: bench/replay.sh [FOLDER [RUNS]]     (socorro must be built: `cd crates/socorro && rt run`)
set -eu
export LC_ALL=C
cd "$(dirname "$0")/.."

program=$PWD/crates/socorro/out/socorro
[ -x "$program" ] || { echo "build $program first: cd crates/socorro && rt run" >&2; exit 1; }
folder=${1:-${TMPDIR:-/tmp}/socorro_bench}
runs=${2:-3}
mkdir -p "$folder/kept" "$folder/rejected"
input=$folder/input output=$folder/output limit=$folder/two_syncs
journal=$folder/kept/journal.soc
empty_all() { : >"$input"; : >"$output"; : >"$journal"; : >"$folder/rejected/journal.soc"; }
trap empty_all EXIT
cc -O2 -o "$limit" bench/two_syncs.c
cat >"$folder/rejected/settings.toml" <<'TOML'
[[rule]]
name = 'none'
form = 'always'
result = 'reject'
TOML

# made COUNT SIZE: that many submissions, each with a product and, where SIZE isn't 0, a dump of SIZE bytes and an id by
# which it is deferred, so that no report is to be made.
made() {
    python3 - "$1" "$2" <<'PYTHON'
import random
import sys

count, size = int(sys.argv[1]), int(sys.argv[2])
chance = random.Random(1)


def part(head, value):
    return b"--b\r\nContent-Disposition: form-data; " + head + b"\r\n\r\n" + value + b"\r\n"


dump = part(b'name="upload_file_minidump"; filename="d"', chance.randbytes(size))
for number in range(count):
    body = part(b'name="ProductName"', b"Firefox")
    if size:
        body += part(b'name="uuid"', b"%08x-cbbf-4589-a673-34f801160918" % number) + dump
    body += b"--b--\r\n"
    head = b"POST /submit HTTP/1.1\r\nHost: h\r\nContent-Type: multipart/form-data; boundary=b\r\nContent-Length: %d\r\n\r\n"
    sys.stdout.buffer.write(head % len(body) + body)
PYTHON
}

# fastest COMMAND..: the least number of seconds that the command prints in some runs.
fastest() {
    for ((run = 0; run < runs; run++)); do "$@"; done | sort -n | head -n 1
}

# replayed NAME: the seconds of a run in the folder NAME, whose journal is empty.
replayed() {
    local TIMEFORMAT=%3R
    : >"$folder/$1/journal.soc"
    { time (cd "$folder/$1" && "$program" replay) <"$input" >"$output"; } 2>&1
}

# line NAME COUNT SECONDS [OTHER SECONDS]
line() {
    awk -v name="$1" -v count="$2" -v passed="$3" -v other="${4:-0}" 'BEGIN {
        printf "%-10s %6d requests %8.3f s %9.0f requests/s", name, count, passed, count / passed
        if (other > 0) printf "   two_syncs %8.3f s, share %.2f", other, other / passed
        print ""
    }'
}

for kind in "1KB 1024 2000" "100KB 102400 500" "1MB 1048576 100"; do
    set -- $kind
    made "$3" "$2" >"$input"
    passed=$(fastest replayed kept)
    answered=$(grep -ac '^CrashID=bp-' "$output" || true)
    [ "$answered" = "$3" ] || { echo "$answered of $3 were kept" >&2; exit 1; }
    entry=$(($(stat -c %s "$journal") / $3))
    line "$1" "$3" "$passed" "$(fastest "$limit" "$folder/limit" "$3" "$entry")"
done
made 200000 0 >"$input"
passed=$(fastest replayed rejected)
answered=$(grep -ac '^Discarded=rule_none' "$output" || true)
[ "$answered" = 200000 ] || { echo "$answered of 200000 were rejected" >&2; exit 1; }
line rejected 200000 "$passed"
