#!/usr/bin/env python3
"""bench/warehouse.py N: loads N instances of 65,536 made reports into a PostgreSQL of its own by examples/warehouse, each
instance on a day of its own, and prints how long that took, how large the table is, and how long some questions take."""
import importlib.machinery
import importlib.util
import os
import subprocess
import sys
import tempfile
import time

sys.dont_write_bytecode = True
TOP = os.path.realpath(os.path.join(os.path.dirname(os.path.abspath(__file__)), ".."))
LOADER = importlib.machinery.SourceFileLoader("warehouse", os.path.join(TOP, "tests", "warehouse", "run"))
warehouse = importlib.util.module_from_spec(importlib.util.spec_from_loader("warehouse", LOADER))
LOADER.exec_module(warehouse)

QUESTIONS = {
    "nothing": "select 1",
    "signatures of a product's version on one day":
        "select signature, count(*) from crash where product = 'Firefox' and version = '133.0'"
        " and date >= '2026-11-02' and date < '2026-11-03' group by 1 order by 2 desc limit 50",
    "signatures of a product's version":
        "select signature, count(*) from crash where product = 'Firefox' and version = '133.0' group by 1 order by 2 desc limit 50",
    "signatures of all": "select signature, count(*) from crash group by 1 order by 2 desc limit 50",
    "crashes a day": "select product, version, day, count from crashes_a_day",
    "a crash by its id": "select signature from crash where uuid = '%s'",
    "the newest 100 of a signature": "select uuid from crash where signature = 'IPCError-content | frame_77 | caller' order by date desc limit 100",
}


def main(instances):
    with tempfile.TemporaryDirectory() as folder:
        database = warehouse.Database(folder)
        try:
            schema = os.path.join(TOP, "examples", "warehouse", "postgresql.sql")
            subprocess.run(["psql", "-q", "-f", schema], check=True, env=database.environment)
            reports = [crash.report() for crash in warehouse.made_crashes(65536)]
            for instance in range(instances):
                for report in reports:
                    report["uuid"] = "%04x%s" % (instance, report["uuid"][4:])
                    report["date"] = "2026-11-%02dT%s" % (1 + instance, report["date"][11:])
                loaded, seconds = database.load("instance %d" % instance, warehouse.lines_of(reports))
                print("instance %d: %s, %.1f s" % (instance, "loaded" if loaded else "not loaded", seconds), flush=True)
            print("table and indexes: %d bytes" % database.rows("select pg_total_relation_size('crash')")[0][0])
            subprocess.run(["psql", "-q", "-c", "vacuum analyze crash"], check=True, env=database.environment)
            for name, question in QUESTIONS.items():
                times = []
                for _ in range(3):
                    begun = time.monotonic()
                    database.rows(question.replace("%s", reports[0]["uuid"]))
                    times.append(time.monotonic() - begun)
                print("%s: %.0f ms" % (name, min(times) * 1000))
        finally:
            database.stop()


main(int(sys.argv[1]))
