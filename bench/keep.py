#!/usr/bin/env python3
"""Times how `socorro replay` keeps its reports at its end: made crashes, 65,536 by default, are submitted, and a second run
processes them by one drain and ends. Prints the seconds from the drain's answer to the end, the syncs of that time where
strace is there, and the seconds of a C program that makes two writes and two syncs for each report (two_syncs.c).
usage: bench/keep.py [FOLDER [COUNT]]     (the program must be built: `cd crates/socorro && rt run`)
Deleted files slow a disk down, so the files in FOLDER are emptied and stay. SOCORRO names another program."""
import os
import shutil
import subprocess
import sys
import tempfile
import time

TOP = os.path.dirname(os.path.dirname(os.path.abspath(__file__)))
PROGRAM = os.environ.get("SOCORRO", os.path.join(TOP, "crates", "socorro", "out", "socorro"))
TOKENS = "[[token]]\nkey = 'o'\nproducts = 'all'\npermissions = ['operate']\n"
DRAIN = b"POST /control/drain HTTP/1.1\r\nHost: h\r\nAuth-Token: o\r\nContent-Length: 0\r\n\r\n"


def place_of(folder, name, text=b""):
    """A file of the folder with this text alone."""
    place = os.path.join(folder, name)
    with open(place, "wb") as file:
        file.write(text)
    return place


def submit(folder, count):
    made = subprocess.Popen([PROGRAM, "make", "--count", str(count)], stdout=subprocess.PIPE)
    done = subprocess.run([PROGRAM, "replay"], cwd=folder, stdin=made.stdout, stdout=subprocess.PIPE, stderr=subprocess.DEVNULL)
    made.wait()
    kept = done.stdout.count(b"CrashID=")
    if kept != count:
        sys.exit("%d of %d crashes were kept, status %d" % (kept, count, done.returncode))


def keep(folder, count):
    """The seconds and the syncs from the answer of a drain to the end of its run."""
    calls = place_of(folder, "calls")
    words = ["strace", "-f", "--seccomp-bpf", "-qq", "-o", calls, "-e", "trace=fdatasync"] if shutil.which("strace") else []
    run = subprocess.Popen([*words, PROGRAM, "replay"], cwd=folder, stdin=subprocess.PIPE, stdout=subprocess.PIPE, stderr=subprocess.DEVNULL)
    run.stdin.write(DRAIN)
    run.stdin.flush()
    wanted, answer = b'{"processed":%d}' % count, b""
    while not answer.endswith(b"}"):
        more = run.stdout.read1()
        if not more:
            sys.exit("the run ended with %r" % answer)
        answer += more
    begun, before = time.monotonic(), lines_of(calls)
    run.stdin.close()
    if run.wait() != 0 or not answer.endswith(wanted):
        sys.exit("the run ended with status %d and %r" % (run.returncode, answer))
    return time.monotonic() - begun, lines_of(calls) - before


def lines_of(place):
    with open(place) as file:
        return sum(1 for _ in file)


def main():
    if not os.access(PROGRAM, os.X_OK):
        sys.exit("build %s first: cd crates/socorro && rt run" % PROGRAM)
    folder = sys.argv[1] if len(sys.argv) > 1 else os.path.join(tempfile.gettempdir(), "socorro_keep_bench")
    count = int(sys.argv[2]) if len(sys.argv) > 2 else 65536
    os.makedirs(folder, exist_ok=True)
    place_of(folder, "tokens.toml", TOKENS.encode())
    limit, journal = os.path.join(folder, "two_syncs"), place_of(folder, "journal.soc")
    subprocess.run(["cc", "-O2", "-o", limit, os.path.join(TOP, "bench", "two_syncs.c")], check=True)
    submit(folder, count)
    size = os.path.getsize(journal)
    passed, syncs = keep(folder, count)
    entry = (os.path.getsize(journal) - size) // count
    print("keeping %d reports of %d bytes: %.2f s, %s syncs" % (count, entry, passed, syncs or "?"))
    alone = subprocess.run([limit, os.path.join(folder, "limit"), str(count), str(entry)], capture_output=True, text=True, check=True)
    print("two writes and two syncs for each: %.2f s, %d syncs" % (float(alone.stdout), 2 * count))
    place_of(folder, "journal.soc")


main()
