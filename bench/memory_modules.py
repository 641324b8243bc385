"""Writes a module of bench/memory.sh: memory_modules.py NAME FILE. Without words it prints the name of each, and how many definitions it has."""
import sys

from check_modules import HEADER, functions, least_bodies, number, section
from item_modules import items, modules
import type_modules

# The most bytes of an input, and of a body.
INPUT, BODY = 1 << 28, 7_654_321
MILLION = 1_000_000


def custom(content):
    return HEADER + section(0, b"\0" + content)


def small_custom_sections():
    each = section(0, b"\0" + bytes(8))
    return HEADER + each * ((INPUT - len(HEADER)) // len(each))


def function_type(params, results):
    return b"\x60" + number(params) + b"\x7f" * params + number(results) + b"\x7f" * results


def one_body(operators, *types, runs=b"\0", before=b""):
    """A function of the first type, and one of the second if there is one, with these operators for a body."""
    types = types or (function_type(0, 0),)
    functions = [0] if len(types) == 1 else [0, 1]
    other = b"\3\0\0\x0b" if len(types) > 1 else b""
    code = number(len(runs + operators) + 1) + runs + operators + b"\x0b" + other
    return HEADER + items(1, len(types), b"".join(types)) + items(3, len(functions), bytes(functions)) + before + items(10, len(functions), code)


def filled(each, end=b"", size=BODY, runs=b"\0"):
    """As many of these operators as a body of this size has, and then others."""
    return each * ((size - len(runs) - 1 - len(end)) // len(each)) + end


def nested(open, close, size=BODY, front=b"", back=b"", runs=b"\0"):
    depth = (size - len(runs + front + back) - 1) // len(open + close)
    return front + open * depth + close * depth + back


def calls(size):
    """Calls of a function with a thousand results, in a body of this size."""
    return one_body(filled(b"\x10\1", b"\0", size), function_type(0, 0), function_type(0, 1_000))


def blocks_of_a_thousand(size):
    """Blocks in each other that take and give a thousand operands."""
    operators = nested(b"\2\1", b"\x0b", size, front=b"\x41\0" * 1_000, back=b"\0")
    return one_body(operators, function_type(0, 0), function_type(1_000, 1_000))


def blocks_of_results(size):
    """Blocks one after the other that give a thousand operands."""
    return one_body(filled(b"\2\1\0\x0b", b"\0", size), function_type(0, 0), function_type(0, 1_000))


def tables_of_results(size):
    """A `br_table` of two labels in turn, each of a thousand results."""
    front = b"\2\1\2\1" + b"\x41\0" * 1_001 + b"\x0e"
    back = b"\0\x0b\0\x0b\0"
    count = (size - len(front + back) - 6) & ~1
    return one_body(front + number(count) + b"\0\1" * (count // 2) + back, function_type(0, 0), function_type(0, 1_000))


def many_locals(size):
    runs = number(50_000) + b"\1\x7f\1\x7e" * 25_000
    return one_body(nested(b"\2\x40", b"\x0b", size, runs=runs), runs=runs)


def assigned_locals(size):
    """Fifty thousand locals of a reference that isn't null, assigned outside of blocks in each other, and in each of the blocks again."""
    runs = b"\1" + number(50_000) + b"\x64\x70"
    declared = items(9, 1, b"\3\0\1\0")
    front = b"".join(b"\xd2\0\x21" + number(i) for i in range(0, 50_000, 2))
    operators = nested(b"\2\x40\xd2\0\x21\1", b"\x0b", size, front=front, runs=runs)
    return one_body(operators, runs=runs, before=declared)


def assigned_in_blocks():
    """As many locals, each assigned in a block of its own in those before."""
    runs = b"\1" + number(50_000) + b"\x64\x70"
    operators = b"".join(b"\2\x40\xd2\0\x21" + number(i) for i in range(50_000)) + b"\x0b" * 50_000
    return one_body(operators, runs=runs, before=items(9, 1, b"\3\0\1\0"))


def deep_constant(count):
    """A global whose constant has so many operands at once."""
    return HEADER + items(6, 1, b"\x7f\0" + b"\x41\0" * count + b"\x6a" * (count - 1) + b"\x0b")


def imports_of_modules(count, length=0):
    """Imports of globals by a name of this length from modules of different names."""
    end = number(length) + b"x" * length + b"\3\x7f\0"
    return HEADER + items(2, count, b"".join(b"\5%05x" % i + end for i in range(count)))


def compact_imports(count):
    return HEADER + items(2, 1, b"\0\0\x7e\3\x7f\0" + number(count) + bytes(count))


def long_names(count, length, id, front, end):
    """Imports or exports by different names of this length."""
    names = (number(length) + b"%08d" % i + b"x" * (length - 8) for i in range(count))
    memory = items(5, 1, b"\0\1") if id == 7 else b""
    return HEADER + memory + items(id, count, b"".join(front + name + end for name in names))


def structures(count, fields):
    """Different structures of so many fields, by the last three."""
    each = b"\x5f" + number(fields) + b"\x7f\0" * (fields - 20)
    return HEADER + items(1, count, b"".join(each + b"".join(b"\x7e\0" if i >> bit & 1 else b"\x7d\0" for bit in range(20)) for i in range(count)))


def chained_types(count, depth=63):
    """A group of structures, each below as many others as there may be but for the first ones."""
    front = b"\x50\0\x5f\0" + b"".join(b"\x50\1" + number(i) + b"\x5f\0" for i in range(depth - 1))
    return HEADER + items(1, 1, b"\x4e" + number(count) + front + (b"\x50\1" + number(depth - 1) + b"\x5f\0") * (count - depth))


def item_module(name):
    return next(HEADER + content for what, _, content in modules(MILLION) if what == name)


def typed(sections):
    return HEADER + items(1, 1, function_type(0, 0)) + sections


# What a module has: how many definitions, and how it is made.
MODULES = {
    "an empty module": (0, lambda: HEADER),
    "a custom section of 256 MiB": (0, lambda: custom(bytes(INPUT - 15))),
    "custom sections of 11 bytes, 256 MiB": (0, small_custom_sections),
    "types, equal": (MILLION, lambda: HEADER + items(1, MILLION, function_type(0, 0) * MILLION)),
    "types, different": (MILLION, lambda: HEADER + type_modules.functions(MILLION, 0)),
    "types in one group": (MILLION, lambda: HEADER + items(1, 1, b"\x4e" + number(MILLION) + b"\x5f\0" * MILLION)),
    "types in one group, below 63 others": (MILLION, lambda: chained_types(MILLION)),
    "types in two equal groups": (MILLION, lambda: HEADER + type_modules.groups(MILLION // 2)),
    "empty groups": (MILLION, lambda: HEADER + items(1, MILLION, b"\x4e\0" * MILLION)),
    "20,000 types of 1,000 parameters and 1,000 results": (20_000, lambda: HEADER + type_modules.functions(20_000, 997, 1_000)),
    "20,000 equal types of 1,000 parameters and 1,000 results": (20_000, lambda: HEADER + items(1, 20_000, function_type(1_000, 1_000) * 20_000)),
    "2,000 structures of 10,000 fields": (2_000, lambda: structures(2_000, 10_000)),
    "types and functions, bodies of 64 MiB": (2 * MILLION, functions),
    "functions of one type": (MILLION, lambda: least_bodies(0)),
    "functions of 1,000 parameters": (MILLION, lambda: least_bodies(1_000)),
    "imports by equal names": (MILLION - 2, lambda: item_module("imports of globals")),
    "imports by different names": (MILLION - 2, lambda: item_module("imports of globals by different names")),
    "imports by names of 200 bytes": (MILLION - 2, lambda: long_names(MILLION - 2, 200, 2, b"\0", b"\3\x7f\0")),
    "imports by 2,600 names of 100,000 bytes": (2_600, lambda: long_names(2_600, 100_000, 2, b"\0", b"\3\x7f\0")),
    "imports from modules of different names": (MILLION - 2, lambda: imports_of_modules(MILLION - 2)),
    "imports by names of 17 bytes from modules of different names": (MILLION - 2, lambda: imports_of_modules(MILLION - 2, 17)),
    "imports of one type from one module, compact": (MILLION - 2, lambda: compact_imports(MILLION - 2)),
    "exports by names in order": (MILLION - 2, lambda: item_module("exports of a memory")),
    "exports by names in no order": (MILLION - 2, lambda: item_module("exports of a memory, shuffled")),
    "exports by names of 200 bytes": (MILLION - 2, lambda: long_names(MILLION - 2, 200, 7, b"", b"\2\0")),
    "globals": (MILLION, lambda: item_module("globals of i32")),
    "globals, each of the one before": (MILLION, lambda: item_module("globals, each of the one before")),
    "tags": (MILLION, lambda: typed(items(13, MILLION, bytes(2 * MILLION)))),
    "functions in an element segment": (MILLION, lambda: item_module("functions in an element segment")),
    "expressions in an element segment": (MILLION, lambda: item_module("expressions in an element segment")),
    "100,000 element segments": (100_000, lambda: item_module("element segments")),
    "100,000 data segments": (100_000, lambda: item_module("data segments")),
    "data segments of 0 bytes, a million, refused": (MILLION, lambda: HEADER + items(11, MILLION, b"\1\0" * MILLION)),
    "a constant of 10,000,000 operands": (1, lambda: deep_constant(10_000_000)),
    "a body of nops": (1, lambda: one_body(filled(b"\1"))),
    "a body of constants that are dropped": (1, lambda: one_body(filled(b"\x41\0\x1a"))),
    "a body of constants that stay": (1, lambda: one_body(filled(b"\x41\0", b"\0"))),
    "a body of blocks in each other": (1, lambda: one_body(nested(b"\2\x40", b"\x0b"))),
    "a body of blocks that stay open, refused": (1, lambda: one_body(filled(b"\2\x40"))),
    "a body of `if` and `else` in each other": (1, lambda: one_body(nested(b"\x41\0\4\x40", b"\5\x0b"))),
    "a body of `if` and `else` one after the other": (1, lambda: one_body(filled(b"\x41\0\4\x40\5\x0b"))),
    "a body of 50,000 locals and blocks": (1, lambda: many_locals(BODY)),
    "a body of 50,000 assigned locals and blocks": (1, lambda: assigned_locals(BODY)),
    "a body of 50,000 blocks that assign a local": (1, assigned_in_blocks),
    "10 KB of blocks in each other of 1,000 operands": (2, lambda: blocks_of_a_thousand(10_000)),
    "100 KB of blocks in each other of 1,000 operands": (2, lambda: blocks_of_a_thousand(100_000)),
    "1 KB of calls with 1,000 results": (2, lambda: calls(1_000)),
    "10 KB of calls with 1,000 results": (2, lambda: calls(10_000)),
    "100 KB of calls with 1,000 results": (2, lambda: calls(100_000)),
    "200 KB of calls with 1,000 results": (2, lambda: calls(200_000)),
    "7.6 MB of calls with 1,000 results": (2, lambda: calls(BODY)),
    "10 KB of blocks with 1,000 results": (2, lambda: blocks_of_results(10_000)),
    "100 KB of a table of labels of 1,000 results": (2, lambda: tables_of_results(100_000)),
    "200 KB of a table of labels of 1,000 results": (2, lambda: tables_of_results(200_000)),
}


# Those of which a report is made too.
REPORTED = ["an empty module", "types, equal", "types, different", "types in one group", "types in one group, below 63 others", "functions of one type",
            "20,000 types of 1,000 parameters and 1,000 results", "imports by equal names", "imports by different names", "imports by names of 200 bytes",
            "imports from modules of different names", "exports by names in order", "exports by names in no order", "exports by names of 200 bytes",
            "globals", "tags", "100,000 element segments", "a body of nops"]
# What a call may have besides the input, in bytes, where that isn't 100 for a definition and as much as the input: by what an operand (12), an open block (40), a
# parameter or a result (12), a field (20) and a type takes, or an import from a module of its own, and in a report what the view and the text of each take.
KNOWN = {
    "check": {
        "types, different": 320 * MILLION,
        "types in one group": 250 * MILLION,
        "types in one group, below 63 others": 570 * MILLION,
        "types in two equal groups": 225 * MILLION,
        "20,000 types of 1,000 parameters and 1,000 results": 13 * 40 * MILLION,
        "2,000 structures of 10,000 fields": 21 * 20 * MILLION,
        "imports from modules of different names": 160 * MILLION,
        "imports by names of 17 bytes from modules of different names": 190 * MILLION,
        "a constant of 10,000,000 operands": 9 * 10 * MILLION,
        "a body of constants that stay": 13 * BODY // 2,
        "a body of blocks in each other": 42 * BODY // 3,
        "a body of blocks that stay open, refused": 42 * BODY // 2,
        "a body of `if` and `else` in each other": 42 * BODY // 6,
        "a body of 50,000 locals and blocks": 42 * BODY // 3,
        "a body of 50,000 assigned locals and blocks": 42 * BODY // 7,
        "a body of 50,000 blocks that assign a local": 60 * 50_000,
        "10 KB of blocks in each other of 1,000 operands": 42 * 10_000 // 3,
        "100 KB of blocks in each other of 1,000 operands": 42 * 100_000 // 3,
        "1 KB of calls with 1,000 results": 13 * 500_000,
        "10 KB of calls with 1,000 results": 13 * 5 * MILLION,
        "100 KB of calls with 1,000 results": 13 * 50 * MILLION,
        "200 KB of calls with 1,000 results": 13 * 100 * MILLION,
        "7.6 MB of calls with 1,000 results": 8 << 30,
        "10 KB of blocks with 1,000 results": 13 * 2_500_000,
    },
    "report": {
        "types, different": 1_180 * MILLION,
        "types in one group": 350 * MILLION,
        "types in one group, below 63 others": 680 * MILLION,
        "20,000 types of 1,000 parameters and 1,000 results": 68 * 40 * MILLION,
        "imports by equal names": 150 * MILLION,
        "imports by different names": 155 * MILLION,
        "imports by names of 200 bytes": 370 * MILLION,
        "imports from modules of different names": 250 * MILLION,
        "exports by names in order": 215 * MILLION,
        "exports by names in no order": 240 * MILLION,
        "exports by names of 200 bytes": 800 * MILLION,
    },
}


def main(words):
    if not words:
        for name, (definitions, _) in MODULES.items():
            print(definitions, name)
        return
    name, path = words
    with open(path, "wb") as file:
        file.write(MODULES[name][1]())


if __name__ == "__main__":
    main(sys.argv[1:])
