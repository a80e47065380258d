"""Makes the rows of `soc_bench search`, and times the same searches over them in SQLite or PostgreSQL.

usage: search.py sqlite ROWS | search.py postgresql ROWS SOCKET_FOLDER
Each figure is the fastest of some runs, in time that passed: a server works in processes of its own. It wants a quiet machine.
"""
import sqlite3
import sys
import time

TEXTS = """abort_message adapter_device_id adapter_vendor_id addons address async_shutdown_timeout cpu_arch date email
ipc_channel_error moz_crash_reason notes platform platform_version process_type product proto_signature reason
release_channel signature throttle_rule url user_comments uuid version""".split()
NUMBERS = """available_page_file build_id cpu_count crashing_thread frame_count install_age module_count
oom_allocation_size uptime""".split()
FLAGS = ["startup_crash", "success"]
SEARCHED = ["date", "product", "signature", "uuid", "version"]
PRODUCTS = ["Firefox"] * 5 + ["Fenix", "Thunderbird", "Focus"]
RUNS = 31


def text(field, number):
    mixed = (number * 0x9E3779B97F4A7C15 % 2**64) >> 20
    if field == "uuid":
        return f"{number * 2654435761 % 2**32:08x}-0000-4000-8000-000000160918"
    if field == "product":
        return PRODUCTS[mixed % 8]
    if field == "date":
        return f"2026-11-{mixed % 28 + 1:02}T{mixed // 28 % 24:02}:{mixed // 672 % 60:02}:{mixed // 40320 % 60:02}Z"
    if field == "signature":
        return f"mozilla::Thing{mixed % 20000}::Run"
    return f"{field} {mixed % 300}"


def row(number):
    return (
        [text(field, number) for field in TEXTS]
        + [number * 2654435761 % 2**64 % 50000] * len(NUMBERS)
        + [number % 3 == 0] * len(FLAGS)
    )


SHOWN = "date, product, signature, uuid, version"
SEARCHES = [
    ("facet on signature", "select signature, count(*) from reports group by 1 order by 2 desc, 1 limit 50"),
    (
        "facet on signature, product=Firefox",
        "select signature, count(*) from reports where product = 'Firefox' group by 1 order by 2 desc, 1 limit 50",
    ),
    ("uuid=", f"select {SHOWN} from reports where uuid = '538453d7-0000-4000-8000-000000160918'"),
    (
        "product=!Firefox, newest 100",
        f"select {SHOWN} from reports where product <> 'Firefox' order by date desc, uuid limit 100",
    ),
    ("product=!Firefox, counted", "select count(*) from reports where product <> 'Firefox'"),
    ("signature=~77, first 100", f"select {SHOWN} from reports where signature like '%77%' order by uuid limit 100"),
    ("signature=~77, counted", "select count(*) from reports where signature like '%77%'"),
]


def main():
    kind, rows = sys.argv[1], int(sys.argv[2])
    if kind == "sqlite":
        base, mark, flag = sqlite3.connect(":memory:"), "?", "integer"
    else:
        import psycopg2

        base, mark, flag = psycopg2.connect(host=sys.argv[3], user="bench", dbname="postgres"), "%s", "boolean"
    cursor = base.cursor()
    columns = [f"{c} text" for c in TEXTS] + [f"{c} bigint" for c in NUMBERS] + [f"{c} {flag}" for c in FLAGS]
    cursor.execute(f"create table reports ({', '.join(columns)})")
    for column in SEARCHED:
        cursor.execute(f"create index by_{column} on reports ({column})")
    put = f"insert into reports values ({', '.join([mark] * len(columns))})"
    made = [row(number) for number in range(rows)]
    start = time.perf_counter()
    cursor.executemany(put, made)
    base.commit()
    print(f"{kind}: put {(time.perf_counter() - start) / max(rows, 1) * 1e9:.0f} ns", file=sys.stderr)
    cursor.execute("analyze")
    for name, words in SEARCHES:
        best, found = float("inf"), 0
        for _ in range(RUNS):
            start = time.perf_counter()
            cursor.execute(words)
            found = len(cursor.fetchall())
            best = min(best, time.perf_counter() - start)
        print(f"{kind}: {name}: {found} lines")
        print(f"{kind}: {name}: {best * 1e9:.0f} ns", file=sys.stderr)


main()
