"""Draws valid modules with bodies of many operators, for hostile.py. Types are letters: i, l, f and d are the numbers, r is funcref."""
import random

from section_modules import PREAMBLE, framed, listed, number, signed

TYPES = {"i": b"\x7f", "l": b"\x7e", "f": b"\x7d", "d": b"\x7c", "r": b"\x70"}
UNARY = {"i": [0x67, 0x68, 0x69, 0xC0, 0xC1], "l": [0x79, 0x7A, 0x7B, 0xC2, 0xC3, 0xC4], "f": range(0x8B, 0x92), "d": range(0x99, 0xA0)}
BINARY = {"i": range(0x6A, 0x79), "l": range(0x7C, 0x8B), "f": range(0x92, 0x99), "d": range(0xA0, 0xA7)}
COMPARISONS = {"i": range(0x46, 0x50), "l": range(0x51, 0x5B), "f": range(0x5B, 0x61), "d": range(0x61, 0x67)}
CONVERSIONS = dict(zip(range(0xA7, 0xC0), ["li", "fi", "fi", "di", "di", "il", "il", "fl", "fl", "dl", "dl", "if", "if", "lf", "lf", "df", "id", "id", "ld", "ld", "fd",
                                           "fi", "dl", "if", "ld"], strict=True))
SATURATING = ["fi", "fi", "di", "di", "fl", "fl", "dl", "dl"]
LOADS = {"i": [0x28, 0x2C, 0x2D, 0x2E, 0x2F], "l": [0x29, 0x30, 0x31, 0x32, 0x33, 0x34, 0x35], "f": [0x2A], "d": [0x2B]}
STORES = {"i": [0x36, 0x3A, 0x3B], "l": [0x37, 0x3C, 0x3D, 0x3E], "f": [0x38], "d": [0x39]}
# Each function has these parameters and locals. Its type is that of its number: 0 has no result, and the others one of each type.
LOCALS = "ilfd" + "rilfd"
RESULTS = ["", *TYPES]
GLOBALS = "ilfdr"


def of_type(space, type):
    return number(random.choice([i for i, it in enumerate(space) if it == type]))


def address():
    return value("i", 1) + b"", b"\0" + number(random.choice([0, 1, 100, 2**32 - 1]))


def loaded(type):
    place, argument = address()
    return place + bytes([random.choice(LOADS[type])]) + argument


def constant(type):
    if type in "il":
        return (b"\x41" + signed(random.choice([0, 1, -1, 2**31 - 1]))) if type == "i" else b"\x42" + signed(random.choice([0, 1, -1, 2**63 - 1]), 10)
    if type == "r":
        return random.choice([b"\xd0\x70", b"\xd2" + number(random.randrange(len(RESULTS)))])
    return b"\x43" + random.randbytes(4) if type == "f" else b"\x44" + random.randbytes(8)


def converted(type, depth):
    if random.random() < 0.3 and type in "il":
        code = random.choice([i for i, it in enumerate(SATURATING) if it[1] == type])
        return value(SATURATING[code][0], depth) + b"\xfc" + number(code)
    code = random.choice([code for code, it in CONVERSIONS.items() if it[1] == type])
    return value(CONVERSIONS[code][0], depth) + bytes([code])


def called(type, depth):
    arguments, function = b"".join(value(it, depth) for it in "ilfd"), number(RESULTS.index(type))
    return arguments + random.choice([b"\x10" + function, value("i", depth) + b"\x11" + function + b"\0"])


def value(type, depth):
    """Operators that give a value of this type."""
    if depth <= 0:
        return random.choice([constant, lambda it: b"\x20" + of_type(LOCALS, it), lambda it: b"\x23" + of_type(GLOBALS, it)])(type)
    down = depth - 1
    ways = [lambda: value(type, 0), lambda: called(type, down - 1), lambda: value(type, down) + b"\x22" + of_type(LOCALS, type),
            lambda: value(type, down) * 2 + value("i", down) + (b"\x1c\1" + TYPES[type] if type == "r" or random.random() < 0.3 else b"\x1b"),
            lambda: b"\2" + TYPES[type] + statements(down) + value(type, down) + b"\x0b",
            lambda: value("i", down) + b"\4" + TYPES[type] + value(type, down) + b"\5" + statements(down) + value(type, down) + b"\x0b",
            lambda: b"\2" + TYPES[type] + value(type, down) + value("i", down) + random.choice([b"\x0d\0", b"\x0e\1\0\0"]) + b"\x0b"]
    if type != "r":
        ways += [lambda: value(type, down) + bytes([random.choice(UNARY[type])]), lambda: value(type, down) + value(type, down) + bytes([random.choice(BINARY[type])]),
                 lambda: converted(type, down), lambda: loaded(type)]
    if type == "i":
        ways += [lambda: comparison(down), lambda: value("r", down) + b"\xd1", lambda: b"\x3f\0", lambda: value("i", down) + b"\x40\0", lambda: b"\xfc\x10\0",
                 lambda: value("r", down) + value("i", down) + b"\xfc\x0f\0"]
    if type == "r":
        ways += [lambda: value("i", down) + b"\x25\0"]
    return random.choice(ways)()


def comparison(depth):
    type = random.choice("ilfd")
    if type in "il" and random.random() < 0.2:
        return value(type, depth) + (b"\x45" if type == "i" else b"\x50")
    return value(type, depth) * 2 + bytes([random.choice(COMPARISONS[type])])


def stored():
    type = random.choice("ilfd")
    place, argument = address()
    return place + value(type, 1) + bytes([random.choice(STORES[type])]) + argument


def in_bulk(depth):
    three = value("i", depth) + value("i", depth) + value("i", depth)
    return random.choice([three + b"\xfc\x08\0\0", b"\xfc\x09\0", three + b"\xfc\x0a\0\0", three + b"\xfc\x0b\0", three + b"\xfc\x0c\0\0", b"\xfc\x0d\0",
                          three + b"\xfc\x0e\0\0", value("i", depth) + value("r", depth) + value("i", depth) + b"\xfc\x11\0"])


def statement(depth):
    type = random.choice(list(TYPES))
    down = depth - 1
    ways = [lambda: b"\1", lambda: value(type, down) + b"\x1a", lambda: value(type, down) + b"\x21" + of_type(LOCALS, type),
            lambda: value(type, down) + b"\x24" + of_type(GLOBALS, type), stored, lambda: in_bulk(0), lambda: value("i", down) + value("r", down) + b"\x26\0",
            lambda: called("", 0) if depth > 0 else b"\1"]
    if depth > 0:
        ways += [lambda: random.choice([b"\2\x40", b"\3\x40"]) + statements(down) + b"\x0b", lambda: value("i", down) + b"\4\x40" + statements(down) + b"\x0b",
                 lambda: b"\2\x40" + value("i", down) + random.choice([b"\x0d\0", b"\x0e\2\0\0\0", b"\x1a\x0c\0"]) + statements(down) + b"\x0b",
                 lambda: b"\2\x40\0" + statements(down) + b"\x0b"]
    return random.choice(ways)()


def statements(depth):
    return b"".join(statement(depth) for _ in range(random.choice([0, 1, 1, 2])))


def body(type):
    runs = listed([b"\1" + TYPES[it] for it in LOCALS[4:]])
    result = value(type, 3) + random.choice([b"", b"", b"\x0f"]) if type else b""
    return runs + statements(3) + statements(2) + result + b"\x0b"


def module():
    types = listed([b"\x60\4\x7f\x7e\x7d\x7c" + listed([TYPES[it] for it in result]) for result in RESULTS])
    functions = bytes(range(len(RESULTS)))
    globals = listed([TYPES[it] + b"\1" + (b"\xd0\x70" if it == "r" else constant(it)) + b"\x0b" for it in GLOBALS])
    code = listed([number(len(it)) + it for it in map(body, RESULTS)])
    return PREAMBLE + b"".join([
        framed(1, types), framed(3, listed([bytes([it]) for it in functions])), framed(4, b"\1\x70\0\1"), framed(5, b"\1\0\1"), framed(6, globals),
        framed(9, b"\1\1\0" + listed([bytes([it]) for it in functions])), framed(12, b"\1"), framed(10, code), framed(11, b"\1\1\2ab")])
