"""Writes the modules of bench/sections.sh into a folder: item_modules.py FOLDER."""
import random
import sys

from check_modules import HEADER, number, section


def items(id, count, contents):
    """A section of so many items."""
    return section(id, number(count) + contents)


TYPES = items(1, 1, b"\x60\0\0")
FUNCTION = items(3, 1, b"\0")
BODY = items(10, 1, b"\2\0\x0b")
TABLE = items(4, 1, b"\x70\0\1")
MEMORY = items(5, 1, b"\0\1")
STRUCTURE = items(1, 1, b"\x5f" + number(1_000) + b"\x7f\0" * 1_000)

# The kit's fast hasher multiplies by a number, and here by a part of the name that makes it nearly a power of two, whatever it begins with, so that a flipped
# bit comes out where two others of the next 16 bytes do.
FACTOR = (0x9E3779B97F4A7C15 ^ 1 << 39 ^ 1 << 63).to_bytes(8, "little")
FLIPPED = [bit for bit in range(24) if 1 <= bit % 8 <= 6]


def place_of(bit):
    return 1 << (bit - 25 if bit >= 25 else bit + 39)


def alike(count):
    """Yields names that the kit's fast hasher takes for few."""
    for index in range(count):
        first = third = int.from_bytes(b"A" * 8, "little")
        for bit in (it for at, it in enumerate(FLIPPED) if index >> at & 1):
            first ^= 1 << bit
            third ^= place_of(bit) ^ place_of(bit + 24)
        yield first.to_bytes(8, "little") + FACTOR + third.to_bytes(8, "little") + b"a" * 8


def shuffled(count):
    found = list(range(count))
    random.Random(1).shuffle(found)
    return found


def exports(names):
    """Exports of a memory by these names, each with its length."""
    return MEMORY + items(7, len(names), b"".join(name + b"\2\0" for name in names))


def globals_of_globals(count):
    return items(6, count, b"\x7f\0\x41\0\x0b" + b"".join(b"\x7f\0\x23" + number(i) + b"\x0b" for i in range(count - 1)))


def segment(count, start, item):
    """An element segment of so many items in a table."""
    return TYPES + FUNCTION + TABLE + items(9, 1, start + b"\x41\0\x0b" + number(count) + item * count) + BODY


def modules(n):
    """Yields what a module has, how many items it has, and its sections."""
    few, most = min(n, 100_000), n - 2
    yield "imports of globals", most, items(2, most, b"\0\0\3\x7f\0" * most)
    yield "imports of globals by different names", most, items(2, most, b"".join(b"\1m\6%06d\3\x7f\0" % i for i in range(most)))
    yield "exports of a memory", most, exports([b"\6%06d" % i for i in range(most)])
    yield "exports of a memory, shuffled", most, exports([b"\6%06d" % i for i in shuffled(most)])
    yield "exports of a memory, in runs of twelve", most, exports([b"\6%06d" % (i * 7919 % most) for i in range(most)])
    yield "exports whose names a fast hash takes for few", few, exports([b"\x20" + name for name in alike(few)])
    yield "imports from modules of such names", few, items(2, few, b"".join(b"\x20" + name + b"\0\3\x7f\0" for name in alike(few)))
    yield "globals of i32", n, items(6, n, b"\x7f\0\x41\0\x0b" * n)
    yield "globals, each of the one before", n, globals_of_globals(n)
    yield "functions in an element segment", n, segment(n, b"\0", b"\0")
    yield "expressions in an element segment", n, segment(n, b"\4", b"\xd2\0\x0b")
    yield "element segments", few, items(9, few, b"\1\0\0" * few)
    yield "data segments", few, MEMORY + items(11, few, b"\0\x41\0\x0b\0" * few)
    yield "operands of structures", n, STRUCTURE + items(6, n // 1_000, (b"\x64\0\0" + b"\x41\0" * 1_000 + b"\xfb\0\0\x0b") * (n // 1_000))


def write(folder):
    for size, most in [("large", 1_000_000), ("small", 100_000)]:
        with open(f"{folder}/{size}", "w") as names:
            for at, (name, count, content) in enumerate(modules(most)):
                with open(f"{folder}/{size}{at}.wasm", "wb") as file:
                    file.write(HEADER + content)
                print(count, name, file=names)
    with open(f"{folder}/empty.wasm", "wb") as file:
        file.write(HEADER)


if __name__ == "__main__":
    write(sys.argv[1])
