"""Writes the modules of bench/types.sh into a folder: type_modules.py FOLDER."""
import sys

from check_modules import HEADER, number
from item_modules import items


def signed(n):
    """A number in LEB128 as a signed one."""
    out = bytearray()
    while n > 63:
        out.append(n & 127 | 128)
        n >>= 7
    return bytes([*out, n])


VALUES = [bytes([code]) for code in (0x7f, 0x7e, 0x7d, 0x7c, 0x7b)] + [bytes([code, index]) for index in range(48) for code in (0x63, 0x64)]


def functions(count, front, results=0):
    """Different function types of three parameters after so many equal ones, drawn from five number types and references to the first 48 types."""
    begin = b"\x60" + number(front + 3) + b"\x7f" * front
    end = number(results) + b"\x7f" * results

    def value(n):
        return VALUES[n % len(VALUES)]

    return items(1, count, b"".join(begin + value(i) + value(i // len(VALUES)) + value(i // len(VALUES) ** 2) + end for i in range(count)))


def groups(count):
    """A group of structures, each of which refers to the next one, and the same group again."""

    def group(first):
        last = first + count - 1
        return b"\x4e" + number(count) + b"".join(b"\x5f\1\x63" + signed(min(i + 1, last)) + b"\0" for i in range(first, last + 1))

    return items(1, 2, group(0) + group(count))


def assignments(source, count):
    """Assignments from a type of a chain of 64 to the first of them."""
    chain = b"\x50\0\x5f\0" + b"".join(b"\x50\1" + number(i) + b"\x5f\0" for i in range(63))
    body = b"\2\1\x63" + signed(source) + b"\1\x63\0" + b"\x20\0\x21\1" * count + b"\x0b"
    return items(1, 65, chain + b"\x60\0\0") + items(3, 1, b"\x40") + items(10, 1, number(len(body)) + body)


def write(folder):
    modules = {"functions": functions(1_000_000, 0), "fronts": functions(100_000, 256), "groups": groups(100_000),
               "far": assignments(63, 1_000_000), "near": assignments(0, 1_000_000)}
    for name, sections in modules.items():
        with open(f"{folder}/{name}.wasm", "wb") as file:
            file.write(HEADER + sections)


if __name__ == "__main__":
    write(sys.argv[1])
