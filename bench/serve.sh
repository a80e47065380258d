#!/usr/bin/env bash
# Measures `socorro serve` over the loopback: crashes that are kept without being processed, and crashes that are processed
# in the meantime; requests that a rule rejects and malformed ones; reads of reports during submissions; and the memory over
# many submissions. For comparison, on the same processors in the same run: what the disk allows of two writes and two syncs
# an entry (two_syncs.c), a collector like Antenna (antenna.py), and nginx, which only reads bodies. The loader is load.c.
# A line has the rate a second, the p50 and the p99 in milliseconds; a share is a rate divided by the one beside it.
# The machine and its disk should be quiet. Deleted files slow a disk down, so the files in FOLDER are emptied and stay.
# usage: bench/serve.sh [FOLDER [PERCENT [PART..]]]     (PERCENT of all counts, 100; socorro must be built: `cd crates/socorro && rt run`)
# PART is kept, antenna, dropped, reads or memory; without any PART all of them run.
# PROCESSORS names the processors for everything that is measured, as `taskset -c` takes them; SOCORRO another program.
set -eu
export LC_ALL=C
cd "$(dirname "$0")/.."

program=${SOCORRO:-$PWD/crates/socorro/out/socorro}
[ -x "$program" ] || { echo "build $program first: cd crates/socorro && rt run" >&2; exit 1; }
folder=${1:-${TMPDIR:-/tmp}/socorro_serve_bench}
percent=${2:-100}
processors=${PROCESSORS:-0-$(($(nproc) - 1))}
bench=$PWD/bench load=$folder/load
mkdir -p "$folder"
cc -O2 -pthread -o "$load" bench/load.c
cc -O2 -o "$folder/two_syncs" bench/two_syncs.c

server=
# stopped: ends what serves, and empties what it wrote.
stopped() {
    if [ -n "$server" ]; then
        kill "$server" 2>/dev/null || true
        wait "$server" 2>/dev/null || true
        server=
    fi
    for file in "$folder"/*/journal.soc; do [ ! -f "$file" ] || : >"$file"; done
    [ ! -d "$folder/antenna" ] || find "$folder/antenna" -type f -exec truncate -s 0 {} +
}
trap stopped EXIT

# free_port: a port that nobody listens at.
free_port() {
    python3 -c 'import socket; s = socket.socket(); s.bind(("127.0.0.1", 0)); print(s.getsockname()[1])'
}

# on COMMAND..: runs it on the processors.
on() { taskset -c "$processors" "$@"; }

# awaited: waits until something listens at the port.
awaited() {
    for ((try = 0; try < 300; try++)); do
        if (exec 3<>"/dev/tcp/127.0.0.1/$port") 2>/dev/null; then return; fi
        sleep 0.1
    done
    echo "nothing listens at port $port" >&2
    exit 1
}

# serving COLLECTORS RESULT: starts the service over an empty journal, with a rule that gives every crash this result.
serving() {
    stopped
    mkdir -p "$folder/$2"
    printf '[[rule]]\nname = "all"\nform = "always"\nresult = "%s"\n' "$2" >"$folder/$2/settings.toml"
    port=$(free_port)
    (cd "$folder/$2" && exec taskset -c "$processors" "$program" serve --listen "127.0.0.1:$port" --collectors "$1" --processors 2) \
        >"$folder/output" &
    server=$!
    awaited
}

# antenna SYNC: starts the Antenna-like collector, which syncs nothing, files, or files and folders.
antenna() {
    stopped
    mkdir -p "$folder/antenna"
    port=$(free_port)
    ANTENNA_ROOT=$folder/antenna ANTENNA_SYNC=$1 PYTHONDONTWRITEBYTECODE=1 taskset -c "$processors" \
        gunicorn --log-level error -k gevent -w "$(nproc)" -b "127.0.0.1:$port" --chdir "$bench" antenna:app &
    server=$!
    awaited
}

# nginx_reading: starts nginx, which reads bodies into memory and answers.
nginx_reading() {
    stopped
    mkdir -p "$folder/nginx/bodies"
    port=$(free_port)
    sed -e "s|@MODULES@|/usr/lib/nginx/modules|; s|@WORKERS@|1|; s|@PORT@|$port|" bench/nginx.conf.in >"$folder/nginx/nginx.conf"
    taskset -c "$processors" "$nginx" -p "$folder/nginx" -c nginx.conf -e stderr >"$folder/output" &
    server=$!
    awaited
}

# part of a count, at least 100.
part() { echo $((($1 * percent / 100) > 100 ? $1 * percent / 100 : 100)); }

# loaded COUNT CONNECTIONS WORDS..: rate, p50 and p99 of so many requests.
loaded() {
    local count=$1 connections=$2
    shift 2
    on "$load" -p "$port" -n "$count" -c "$connections" -d 120 "$@"
}

# line NAME FIGURES [OTHER-NAME OTHER-FIGURES]
line() {
    awk -v name="$1" -v own="$2" -v other="${3:-}" -v figures="${4:-}" 'BEGIN {
        split(own, a, " ")
        printf "%-34s %9.0f/s %8.3f %8.3f ms", name, a[1], a[2], a[3]
        if (other != "" && split(figures, b, " ") == 3)
            printf "   %-9s %9.0f/s %8.3f %8.3f ms   share %.2f", other, b[1], b[2], b[3], a[1] / b[1]
        print ""
    }'
}

# made NAME SIZE: a request of NAME with a body of SIZE bytes; of more than 2,000 bytes most are a dump's.
made() {
    python3 - "$folder/$1.http" "$2" <<'PYTHON'
import random
import sys

out, size = sys.argv[1], int(sys.argv[2])
pairs = [("ProductName", "Firefox"), ("Version", "153.7.0"), ("BuildID", "20261103151912"), ("ReleaseChannel", "esr")]


def part(head, value):
    return b"--b\r\nContent-Disposition: form-data; " + head.encode() + b"\r\n\r\n" + value + b"\r\n"


def body(padding):
    form = b"".join(part('name="%s"' % name, value.encode()) for name, value in pairs)
    if size > 2000:
        return form + part('name="upload_file_minidump"; filename="d"', random.Random(1).randbytes(padding)) + b"--b--\r\n"
    return form + part('name="Padding"', b"x" * padding) + b"--b--\r\n"


text = body(size - len(body(0)))
assert len(text) == size
with open(out, "wb") as file:
    file.write(b"POST /submit HTTP/1.1\r\nContent-Type: multipart/form-data; boundary=b\r\nContent-Length: %d\r\n\r\n" % size + text)
PYTHON
}

# of_disk COUNT REQUESTS RESULT: the disk's figures for entries as large as those that REQUESTS left in the journal of RESULT.
of_disk() {
    local size=$(($(stat -c %s "$folder/$3/journal.soc") / $2))
    on "$folder/two_syncs" "$folder/limit" "$1" "$size" all
}

# held: the memory that the service holds now, in KB.
held() { awk '/^VmRSS/ { print $2 }' "/proc/$server/status"; }

made 1KB 1024
made 100KB 102400
made 1MB 1048576
printf 'POST /submit HTTP/1.1\r\nContent-Type: text/plain\r\nContent-Length: 3\r\n\r\nabc' >"$folder/malformed.http"

nginx=$(PATH=$PATH:/usr/sbin command -v nginx || true)
[ -e /usr/lib/nginx/modules/ngx_http_echo_module.so ] || nginx=
has_antenna=
if command -v gunicorn >/dev/null && /usr/bin/python3 -c 'import falcon, gevent' 2>/dev/null; then has_antenna=yes; fi
# Crashes that are kept for later, and crashes that are processed beside.
kept() {
    local result kind count figures
    for result in defer accept; do
        for kind in "1KB 1 8 4000" "1KB 8 8 16000" "100KB 4 4 2000" "1MB 4 4 400"; do
            set -- $kind
            count=$(part "$4")
            serving "$3" "$result"
            figures=$(loaded "$count" "$2" "$folder/$1.http")
            line "$result $1, connections $2" "$figures" two_syncs "$(of_disk "$count" "$count" "$result")"
        done
    done
}

of_antenna() {
    local sync kind
    [ -n "$has_antenna" ] || { echo "no gunicorn, falcon and gevent here, not measured"; return; }
    for sync in file dir; do
        for kind in "1KB 8 4000" "100KB 4 1000" "1MB 4 200"; do
            set -- $kind
            antenna "$sync"
            line "antenna.py ($sync) $1, connections $2" "$(loaded "$(part "$3")" "$2" "$folder/$1.http")"
        done
    done
}

# Requests of which nothing is kept, beside nginx, which reads the same bodies.
dropped() {
    local kind count figures other
    [ -n "$nginx" ] || echo "no nginx with its echo module here, not measured"
    count=$(part 200000)
    for kind in "rejected 1KB 200 Discarded=rule_all" "malformed malformed 400 Discarded=malformed_"; do
        set -- $kind
        serving 8 reject
        figures=$(loaded "$count" 8 -s "$3" -e "$4" "$folder/$2.http")
        other=
        if [ -n "$nginx" ]; then
            nginx_reading
            other=$(loaded "$count" 8 -P /memory "$folder/$2.http")
        fi
        line "$1, connections 8" "$figures" nginx "$other"
    done
}

# Reads of one report, alone and beside submissions.
reads() {
    local id count beside
    serving 8 accept
    id=$(curl -sS -F ProductName=Firefox "http://127.0.0.1:$port/submit" | sed 's/^CrashID=bp-//')
    printf 'GET /api/ProcessedCrash/?crash_id=%s HTTP/1.1\r\n\r\n' "$id" >"$folder/report.http"
    curl -sS -f --retry 20 --retry-all-errors --retry-delay 1 -o "$folder/output" "http://127.0.0.1:$port/api/ProcessedCrash/?crash_id=$id"
    count=$(part 20000)
    line "reports alone, connections 2" "$(loaded "$count" 2 -e '{' "$folder/report.http")"
    loaded "$count" 6 "$folder/1KB.http" >"$folder/beside" &
    beside=$!
    line "reports beside, connections 2" "$(loaded "$count" 2 -e '{' "$folder/report.http")"
    wait "$beside"
    line "accept 1KB beside, connections 6" "$(cat "$folder/beside")"
}

# Memory, of which the index of crashes is a part.
memory() {
    local before after third count
    serving 8 defer
    before=$(held)
    for third in 1 2 3; do
        count=$(part 20000)
        loaded "$count" 8 "$folder/1KB.http" >"$folder/output"
        after=$(held)
        echo "memory after $((third * count)) submissions: $after KB, $(((after - before) * 1024 / count)) bytes a crash more"
        before=$after
    done
}

[ $# -gt 2 ] || set -- "$folder" "$percent" kept antenna dropped reads memory
shift 2
for part in "$@"; do
    case $part in
        kept | dropped | reads | memory) "$part" ;;
        antenna) of_antenna ;;
        *) echo "no part is named $part" >&2; exit 2 ;;
    esac
done
