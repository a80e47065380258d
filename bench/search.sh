#!/usr/bin/env bash
# Times puts and searches over made rows of 36 fields, beside SQLite and, if a server can be started, PostgreSQL, over the
# same rows with an index on each field that is searched. The program's figures are processor time, the others' elapsed
# time. It needs a quiet machine.
# usage: bench/search.sh [ROWS]     (crates/soc_bench must be built: `cd crates/soc_bench && rt run`)
set -eu
cd "$(dirname "$0")/.."

rows=${1:-65536}
program=crates/soc_bench/out/soc_bench
[ -x "$program" ] || { echo "build $program first: cd crates/soc_bench && rt run" >&2; exit 1; }

"$program" search "$rows"
/usr/bin/python3 bench/search.py sqlite "$rows"

server=$(ls -d /usr/lib/postgresql/*/bin 2>/dev/null | sort -V | tail -1 || true)
if [ -z "$server" ] || ! /usr/bin/python3 -c 'import psycopg2' 2>/dev/null; then
    echo "search: no PostgreSQL with psycopg2 here, so it is left out" >&2
    exit 0
fi
data=$(mktemp -d)
# A server refuses to run as root.
as_owner() {
    if [ "$(id -u)" -eq 0 ]; then setpriv --reuid=nobody --clear-groups "$@"; else "$@"; fi
}
stop() { as_owner "$server/pg_ctl" -D "$data/db" -m immediate stop >/dev/null 2>&1 || true; }
trap stop EXIT
[ "$(id -u)" -ne 0 ] || chown nobody "$data"
cd "$data"
as_owner "$server/initdb" -D "$data/db" -A trust -U bench >/dev/null
as_owner "$server/pg_ctl" -D "$data/db" -l "$data/log" -w -o "-k $data -c listen_addresses= -c shared_buffers=256MB -c fsync=off" start >/dev/null
cd "$OLDPWD"
/usr/bin/python3 bench/search.py postgresql "$rows" "$data"
