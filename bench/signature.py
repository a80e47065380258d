"""Asks two joined patterns of each frame of a stack, as Socorro does, and says how many frames a second.

usage: signature.py SIGNATURES
"""
import re
import sys
import time

FRAMES, IRRELEVANT, PREFIX = 1000, 400, 900


def begun(number, kind):
    return f"ns{number * 40503 % 65536:04x}_{kind}"


def pattern(number, kind):
    if number % 8 == 0:
        return begun(number, kind) + "(_[a-z]+)?::.*"
    if number % 8 == 4:
        return "(?:ns|mozilla)[a-z]?" + begun(number, kind)[2:] + "::"
    return begun(number, kind) + "::"


def patterns(kind, count):
    return [pattern(n, kind) for n in range(count)]


irrelevant = re.compile("|".join(patterns("irrelevant", IRRELEVANT)))
prefix = re.compile("|".join(patterns("prefix", PREFIX)))
frames = [begun(n % PREFIX, "prefix") + f"::function_{n}" for n in range(FRAMES)]

count = int(sys.argv[1])
start = time.process_time()
for _ in range(count):
    kept = []
    for frame in frames:
        if irrelevant.match(frame):
            continue
        kept.append(frame)
        if not prefix.match(frame):
            break
    text = " | ".join(kept)[:255]
elapsed = time.process_time() - start
print(f"python: {count} signatures of {FRAMES} frames, {len(text)} bytes")
print(f"python: {count * FRAMES / elapsed:.0f} frames/s", file=sys.stderr)
