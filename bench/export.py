#!/usr/bin/env python3
"""bench/export.py N: how long `socorro export` takes over a journal of N crashes without a dump, as tests/warehouse makes them,
and what it holds at its peak: while their reports are missing, and once they are stored. Beside it, `socorro check`.
`SOCORRO` names another program than the one that `rt ci` builds."""
import importlib.machinery
import importlib.util
import os
import subprocess
import sys
import tempfile
import time

sys.dont_write_bytecode = True
TOP = os.path.realpath(os.path.join(os.path.dirname(os.path.abspath(__file__)), ".."))
LOADER = importlib.machinery.SourceFileLoader("warehouse", os.path.join(TOP, "tests", "warehouse", "run"))
warehouse = importlib.util.module_from_spec(importlib.util.spec_from_loader("warehouse", LOADER))
LOADER.exec_module(warehouse)


def measure(name, words, given, folder):
    """Runs the program, and prints its elapsed seconds, those of a processor, its peak, and the rate of its lines."""
    lines = os.path.join(folder, "lines")
    with open(given) as source, open(lines, "wb") as sink:
        begun = time.monotonic()
        run = subprocess.Popen([warehouse.PROGRAM, *words], cwd=folder, stdin=source, stdout=sink, stderr=subprocess.DEVNULL)
        _, status, used = os.wait4(run.pid, 0)
        elapsed = time.monotonic() - begun
    if status:
        sys.exit("%s: status %d" % (name, status))
    with open(lines, "rb") as file:
        count = sum(1 for _ in file)
    print("%s: %.2f s, %.2f s of a processor, %d KB at its peak, %d bytes in %d lines, %.0f lines/s" % (
        name, elapsed, used.ru_utime + used.ru_stime, used.ru_maxrss, os.path.getsize(lines), count, count / elapsed), flush=True)


def make(count, folder):
    """Writes the files in a process of its own: a process that this one begins counts what this one held then as its own."""
    files = {
        "tokens.toml": warehouse.TOKENS.encode(),
        "key": b"all\n",
        "drain": b"POST /control/drain HTTP/1.1\r\nHost: h\r\nAuth-Token: all\r\nContent-Length: 0\r\n\r\n",
    }
    maker = os.fork()
    if not maker:
        files["journal.soc"] = warehouse.journal_of(warehouse.made_crashes(count))
        for name, content in files.items():
            with open(os.path.join(folder, name), "wb") as file:
                file.write(content)
        os._exit(0)
    os.waitpid(maker, 0)


def main(count):
    with tempfile.TemporaryDirectory() as folder:
        make(count, folder)
        key, drain = os.path.join(folder, "key"), os.path.join(folder, "drain")
        for when in ["no reports stored", "reports stored"]:
            measure("check, " + when, ["check", "--journal", "journal.soc"], os.devnull, folder)
            for _ in range(3):
                measure("export, " + when, ["export", "--tree", ".", "--journal", "journal.soc"], key, folder)
            if when == "no reports stored":
                measure("drain", ["replay", "--tree", ".", "--journal", "journal.soc"], drain, folder)


main(int(sys.argv[1]))
