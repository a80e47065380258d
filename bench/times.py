#!/usr/bin/env python3
"""Runs a command that proves from nothing, and prints what it took as CONTRIBUTING.md's table has it, and then for each crate.
usage: bench/times.py rt ci     (at the top of a clean clone, on a quiet machine with nothing kept)
rt prints no times, so the processes below it are looked at again and again, and each counts for the crate that it names. What
one takes after the last look counts for the whole alone. The rows on the program and on changes add up what the run took for
the crates concerned; how long that lasts is reckoned, from the longest chain of crates and the number of processors."""
import collections
import os
import re
import resource
import subprocess
import sys
import time

TOP = os.path.dirname(os.path.dirname(os.path.realpath(__file__)))
PAUSE = 0.25
TICKS = os.sysconf("SC_CLK_TCK")
CRATE = re.compile(r"\0--crate-name\0(\w+)\0")


def uses():
    """The crates of the repository that each crate uses."""
    with open(f"{TOP}/crates.txt") as file:
        lines = re.findall(r"^(\w+)(?: \w+=\S+)*:(.*)$", file.read(), re.M)
    ours = {name for name, _ in lines}
    return {name: ours.intersection(used.split()) for name, used in lines}


def read(pid, name):
    with open(f"/proc/{pid}/{name}", errors="replace") as file:
        return file.read()


def look():
    """Of each process: its parent, when it began, and the seconds of processors that it has taken."""
    seen = {}
    for pid in filter(str.isdigit, os.listdir("/proc")):
        try:
            said = read(pid, "stat").rpartition(")")[2].split()
        except OSError:
            continue
        seen[pid] = said[1], said[19], (int(said[11]) + int(said[12])) / TICKS
    return seen


def is_below(pid, root, seen):
    while pid in seen and pid != root:
        pid = seen[pid][0]
    return pid == root


def work_of(pid):
    """The crate that a process names, and whether it proves it, proves its tests or tries an edit."""
    try:
        words, place = read(pid, "cmdline"), os.readlink(f"/proc/{pid}/cwd")
    except OSError:
        return None
    crate = CRATE.search(words)
    kind = "edits" if "/rt-edit" in place else "tests" if "\0--test\0" in words else "proof"
    return crate and (crate[1], kind)


class Run:
    """A command, and what it took: in all, and for each crate and kind of work."""

    def __init__(self, command):
        self.processes, self.spans = {}, {}
        begun = time.monotonic()
        process = subprocess.Popen(command)
        while process.poll() is None:
            self.note(str(process.pid))
            time.sleep(PAUSE)
        self.status, self.elapsed = process.returncode, time.monotonic() - begun
        used = resource.getrusage(resource.RUSAGE_CHILDREN)
        self.seconds = used.ru_utime + used.ru_stime
        self.of = collections.Counter()
        for work, seconds in self.processes.values():
            self.of[work] += seconds

    def note(self, root):
        now, seen = time.monotonic(), look()
        for pid, (_, began, seconds) in seen.items():
            work = is_below(pid, root, seen) and work_of(pid)
            if work:
                self.processes[pid, began] = work, seconds
                self.spans[work] = self.spans.get(work, (now, now))[0], now

    def lasted(self, crate, kind):
        begin, end = self.spans.get((crate, kind), (0, 0))
        return end - begin

    def chain(self, crate, among, used):
        """How long it lasts until a crate is proved, where only these are proved."""
        below = [self.chain(name, among, used) for name in used[crate] & among]
        return self.lasted(crate, "proof") + max(below, default=0)

    def row(self, name, among, used, kinds, more):
        """A line of the table: what these kinds of work on these crates took, with so many seconds more."""
        seconds = more + sum(self.of[crate, kind] for crate in among for kind in kinds)
        lasts = max(self.chain(crate, among, used) + ("tests" in kinds) * self.lasted(crate, "tests") for crate in among)
        return f"| {name} | {seconds:,.0f} | {max(lasts, seconds / os.cpu_count()) / 60:.0f} min, reckoned |"


def all_below(crate, used):
    return {crate}.union(*(all_below(name, used) for name in used[crate]))


def main():
    if not sys.argv[1:]:
        sys.exit(__doc__)
    used, run = uses(), Run(sys.argv[1:])
    proved = {crate for crate, kind in run.of if kind == "proof"}
    kinds, runs = ["proof", "tests", "edits"], max(0, run.seconds - sum(run.of.values()))
    print(f"\n{len(proved)} of {len(used)} crates were proved in this run, on {os.cpu_count()} processors.\n")
    print("| What | Processor seconds | Lasts |\n|---|---|---|")
    print(f"| the gate, from nothing | {run.seconds:,.0f} | {run.elapsed / 60:.0f} min |")
    if "socorro" in used:
        print(run.row("the program, from nothing", all_below("socorro", used), used, ["proof"], 0))
    for name, crate in [("a change in `main`", "socorro"), ("a change in the desk", "soc_desk")]:
        above = {it for it in used if crate in all_below(it, used)}
        if above:
            print(run.row(name, above, used, kinds, runs))
    print("\n| Crate | Proof | Tests | Edits |\n|---|---|---|---|")
    for crate in sorted(used, key=lambda it: -sum(run.of[it, kind] for kind in kinds)):
        print(f"| {crate} | " + " | ".join(f"{run.of[crate, kind]:,.0f}" for kind in kinds) + " |")
    print(f"\nRuns of tests and programs, linking, and what no look saw: {runs:,.0f} seconds.")
    return run.status


sys.exit(main())
