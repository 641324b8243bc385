#!/usr/bin/env python3
"""Times `generate` for bench/generate.sh: generate_times.py DRIVER FOLDER. DRIVER is `wasm_bench`, also as tools/unproved makes it; seeds are written to FOLDER."""
import random
import subprocess
import sys
import time

driver, folder = sys.argv[1:]
# The bytes of all seeds of a kind.
SIZE = 64 << 20
# The types of a module with garbage collection, as many as there may be, and how many such modules are made.
TYPES, TIMES = 10_000, 300


def shortest(kind, seeds, length):
    """Returns the shortest time of making modules of these seeds, and what the program prints."""
    with open(f"{folder}/seeds", "wb") as file:
        file.write(seeds)
    times = []
    for _ in range(5):
        begin = time.perf_counter()
        out = subprocess.run([driver, kind, f"{folder}/seeds", str(length)], capture_output=True, text=True, check=True).stdout
        times.append(time.perf_counter() - begin)
    return min(times), out.strip()


def width(number):
    """Returns how many bytes a number takes."""
    return (number.bit_length() + 7) // 8


def group_seed(left, is_first, size):
    """Spells a group of so many final structures without fields, where there may be `left` types more."""
    is_no_clone = b"" if is_first else b"\0"
    return b"\1" + is_no_clone + (size - 1).to_bytes(width(left - 1), "big") + b"\0\1\0" * size


def groups_seed(size):
    """Spells as many types as there may be, in groups of one size. After them there is no room, and nothing is drawn."""
    return b"".join(group_seed(TYPES - made, made == 0, size) for made in range(0, TYPES, size))


def leb(number):
    """Returns a number in LEB128."""
    return bytes([number]) if number < 128 else bytes([number % 128 + 128]) + leb(number // 128)


def module_length(size):
    """Returns how many bytes the module of these groups has: a header and the section of types."""
    group = 2 * size + (len(b"\x4e" + leb(size)) if size > 1 else 0)
    groups = TYPES // size
    entries = len(leb(groups)) + groups * group
    return 8 + 1 + len(leb(entries)) + entries


is_slow = False
any_bytes = random.Random(7).randbytes(SIZE)
for name, seeds in [("odd", bytes(byte | 1 for byte in any_bytes)), ("random", any_bytes)]:
    for length in (1000, 10000):
        taken, out = shortest("generate", seeds, length)
        modules = (SIZE + length - 1) // length
        print(f"seeds of {length} {name} bytes: {modules / taken:.0f} modules/s, {SIZE / taken / 1e6:.1f} MB/s of seed, {out}")
        is_slow |= (name, length) == ("random", 1000) and modules / taken < 50_000
each = []
for size in (1, 100, TYPES):
    seed = groups_seed(size)
    taken, out = shortest("generate-gc", seed * TIMES, len(seed))
    if out != f"{TIMES} modules of {TIMES * module_length(size)} bytes":
        sys.exit(f"groups of {size} types: {out}")
    each.append(taken / TIMES / TYPES)
    print(f"{TYPES} types in groups of {size}: {each[-1] * 1e9:.1f} ns a type")
is_slow |= max(each) > 5 * min(each)
sys.exit(is_slow)
