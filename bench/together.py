#!/usr/bin/env python3
"""Times submissions of 1 KB that a desk over a file is asked at once, 1, 8 or 64 of them, beside a C program that makes two
writes and two syncs for each (two_syncs.c). Of each the least of three runs counts.
usage: bench/together.py [FOLDER [COUNT]]     (the program must be built: `cd crates/soc_bench && rt run`)
Syncs cost nothing in a FOLDER in memory, as /dev/shm. Deleted files slow a disk down, so the files in FOLDER are emptied."""
import os
import re
import subprocess
import sys
import tempfile

TOP = os.path.dirname(os.path.dirname(os.path.abspath(__file__)))
PROGRAM = os.path.join(TOP, "crates", "soc_bench", "out", "soc_bench")
# The head and the record of a crash.
ENTRY = 6 + 1024


def emptied(place):
    with open(place, "wb"):
        return place


def together(folder, count, batch):
    """The microseconds that a submission took."""
    words = [PROGRAM, "together", emptied(os.path.join(folder, "journal")), str(count), str(batch)]
    done = subprocess.run(words, capture_output=True, text=True, check=True)
    if done.stdout != "together: %d stored, %d at once\n" % (count, batch):
        sys.exit("the program wrote %r" % done.stdout)
    return int(re.search(r"together: (\d+) ns", done.stderr)[1]) / 1000


def two_syncs(program, folder, count):
    words = [program, emptied(os.path.join(folder, "limit")), str(count), str(ENTRY)]
    return float(subprocess.run(words, capture_output=True, text=True, check=True).stdout) * 1_000_000 / count


def main():
    if not os.access(PROGRAM, os.X_OK):
        sys.exit("build %s first: cd crates/soc_bench && rt run" % PROGRAM)
    folder = sys.argv[1] if len(sys.argv) > 1 else os.path.join(tempfile.gettempdir(), "socorro_together_bench")
    count = int(sys.argv[2]) if len(sys.argv) > 2 else 4096
    os.makedirs(folder, exist_ok=True)
    limit = os.path.join(folder, "two_syncs")
    subprocess.run(["cc", "-O2", "-o", limit, os.path.join(TOP, "bench", "two_syncs.c")], check=True)
    for batch in [1, 8, 64]:
        print("%d at once: %.1f us each" % (batch, min(together(folder, count, batch) for _ in range(3))))
    print("two writes and two syncs: %.1f us each" % min(two_syncs(limit, folder, count) for _ in range(3)))


main()
