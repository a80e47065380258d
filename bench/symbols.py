"""Writes a symbol text as `soc_bench symbols` makes it, or reads it into sorted lists and looks up a million offsets.

usage: symbols.py write MEGABYTES
       symbols.py read MEGABYTES FILE
"""
import bisect
import sys
import time

FIRST = 0x10000000
STRIDE = 0x80
FUNCTIONS_A_MEGABYTE = 5400
FILES = 16
LOOK_UPS = 1_000_000


def write(functions):
    out = sys.stdout
    out.write("MODULE Linux x86_64 D74496D66958873E0000000000000000A made.so\n")
    for file in range(FILES):
        out.write(f"FILE {file} source/file_{file}.cc\n")
    for n in range(functions):
        at = FIRST + n * STRIDE
        file = n % FILES
        out.write(
            f"FUNC {at:x} 40 0 name_{n}\n"
            f"{at:x} 10 101 {file}\n{at + 0x10:x} 10 102 {file}\n{at + 0x20:x} 20 103 {file}\n"
            f"STACK CFI INIT {at:x} 40 .cfa: $rsp 8 + .ra: .cfa -8 + ^\n"
            f"STACK CFI {at + 1:x} .cfa: $rsp 16 +\n"
        )
        if n % 8 == 0:
            out.write(f"PUBLIC {at + 0x48:x} 0 public_{n}\n")


class Symbols:
    def __init__(self, lines):
        self.files = {}
        functions, publics, inits = [], [], []
        for line in lines:
            words = line.rstrip("\n").split(" ")
            if words[0] == "FUNC":
                parts = []
                functions.append((int(words[1], 16), int(words[2], 16), " ".join(words[4:]), parts))
            elif words[0] == "PUBLIC":
                publics.append((int(words[1], 16), " ".join(words[3:])))
            elif words[0] == "FILE":
                self.files[int(words[1])] = " ".join(words[2:])
            elif words[:3] == ["STACK", "CFI", "INIT"]:
                deltas = []
                inits.append((int(words[3], 16), int(words[4], 16), " ".join(words[5:]), deltas))
            elif words[:2] == ["STACK", "CFI"]:
                deltas.append((int(words[2], 16), " ".join(words[3:])))
            elif words[0] != "MODULE":
                parts.append((int(words[0], 16), int(words[1], 16), int(words[2]), int(words[3])))
        self.functions = sorted(functions, key=lambda f: f[0])
        self.publics = sorted(publics)
        self.inits = sorted(inits, key=lambda i: i[0])
        self.function_keys = [f[0] for f in self.functions]
        self.public_keys = [p[0] for p in self.publics]

    def find(self, offset):
        at = bisect.bisect_right(self.function_keys, offset) - 1
        below = None
        if at >= 0:
            below, size, name, parts = self.functions[at]
            if offset < below + size:
                for address, count, line, file in parts:
                    if address <= offset < address + count:
                        return name, self.files.get(file), line
                return name, None, None
        at = bisect.bisect_right(self.public_keys, offset) - 1
        if at >= 0 and (below is None or self.public_keys[at] >= below):
            return self.publics[at][1], None, None
        return None, None, None


def read(functions, name):
    with open(name) as file:
        text = file.read()
    start = time.monotonic()
    symbols = Symbols(text.splitlines())
    taken = time.monotonic() - start
    state, offsets = 1, []
    for _ in range(LOOK_UPS):
        state = (state * 6364136223846793005 + 1442695040888963407) % 2**64
        offsets.append(FIRST + (state >> 32) % (functions * STRIDE))
    start = time.monotonic()
    found = sum(1 for offset in offsets if symbols.find(offset)[0] is not None)
    looked = time.monotonic() - start
    print(f"python: {text.count(chr(10))} lines, {LOOK_UPS} look-ups, {found} found")
    print(f"python: {len(text) / taken / 1e6:.0f} MB/s read, {LOOK_UPS / looked:.0f} look-ups/s", file=sys.stderr)


megabytes = int(sys.argv[2])
if sys.argv[1] == "write":
    write(megabytes * FUNCTIONS_A_MEGABYTE)
else:
    read(megabytes * FUNCTIONS_A_MEGABYTE, sys.argv[3])
