"""Writes modules of all kinds of sections for bench/compare.sh: section_modules.py FIRST COUNT. Most are valid or nearly so; some have sections moved or left
out, are cut, or have a changed byte, and the names of these last end in -changed. The few whose names end in -limit pass a limit that node lacks, and nothing
else is wrong with them. Where node 20 has other codes, the module for node stands beside the other, in a file that ends in .node."""
import random
import sys

random.seed(7)
# The codes here, and those of node 20 for the same.
SAME = {"i32": 0x7F, "i64": 0x7E, "f32": 0x7D, "f64": 0x7C, "v128": 0x7B, "func": 0x70, "extern": 0x6F, "any": 0x6E, "eq": 0x6D}
CODES = {
    **{name: (code, code) for name, code in SAME.items()},
    "i31": (0x6C, 0x6A), "struct": (0x6B, 0x67), "array": (0x6A, 0x66), "none": (0x71, 0x65), "nofunc": (0x73, 0x68), "noextern": (0x72, 0x69),
    "ref null": (0x63, 0x6C), "ref": (0x64, 0x6B), "i8": (0x78, 0x7A), "i16": (0x77, 0x79), "group": (0x4E, 0x4F), "final": (0x4F, 0x4E),
    "struct.new": (0x00, 0x07), "struct.new_default": (0x01, 0x08), "array.new": (0x06, 0x1B), "array.new_default": (0x07, 0x1C),
    "array.new_fixed": (0x08, 0x1A), "ref.i31": (0x1C, 0x20), "any.convert_extern": (0x1A, 0x70), "extern.convert_any": (0x1B, 0x71),
}
HERE, NODE = 0, 1
# No change makes one of these, which begin a form that node reads under another code, or not at all.
OTHER_FORMS = {0x40, 0x4E, 0x4F, 0x63, 0x64, *range(0x65, 0x6D), *range(0x71, 0x76), 0x77, 0x78, 0x79, 0x7A}
NUMBERS = ["i32", "i64", "f32", "f64", "v128"]
ABSTRACT = ["func", "extern", "any", "eq", "i31", "struct", "array", "none", "nofunc", "noextern"]
BELOW = {"func": ["nofunc"], "extern": ["noextern"], "any": ["eq", "i31", "struct", "array", "none"], "eq": ["i31", "struct", "array", "none"],
         "i31": ["none"], "struct": ["none"], "array": ["none"], "none": [], "nofunc": [], "noextern": []}
FUNCREF = (True, "func")
NAMES = [b"", b"a", b"b", b"run", b"memory", "é€😀".encode(), "\U0010ffff".encode(), b"x" * 127, b"x" * 200]
BAD_NAMES = [b"\xff", b"\xc0\x80", b"\xed\xa0\x80", b"\xf4\x90\x80\x80", b"\xe2\x82", b"\x80"]
CUSTOM_NAMES = [*NAMES, b"name", b"producers", b"sourceMappingURL", b"external_debug_info", b"metadata.code.branch_hint", b"compilationHints", b"dylink.0"]
PREAMBLE = b"\0asm\1\0\0\0"


def rarely(chance=0.004):
    return random.random() < chance


def number(n, padding=0):
    out = bytearray()
    while n > 127:
        out.append(n & 127 | 128)
        n >>= 7
    return bytes([*out, n]) if not padding else bytes([*out, n | 128, *[128] * (padding - 1), 0])


def wide(n, most=5):
    """The number in at most so many bytes, sometimes padded."""
    return number(n, random.randrange(most - len(number(n)) + 1) if rarely(0.02) else 0)


def signed(n, most=5):
    out = bytearray()
    while not -64 <= n < 64:
        out.append(n & 127 | 128)
        n >>= 7
    while len(out) + 1 < most and rarely(0.02):
        out.append(n & 127 | 128)
        n >>= 7
    return bytes([*out, n & 127])


def listed(items):
    """The items with their count, seldom padded past five bytes."""
    count = number(len(items), 6 - len(number(len(items)))) if rarely(0.0003) else wide(len(items))
    return count + b"".join(items)


def named(name):
    return wide(len(name)) + name


def framed(id, content):
    return bytes([id]) + wide(len(content)) + content


def some(most):
    return random.choice([0, 1, 1, 2, random.randrange(most)])


def a_name():
    return random.choice(BAD_NAMES if rarely(0.008) else NAMES)


def custom():
    content = named(random.choice(BAD_NAMES if rarely(0.02) else CUSTOM_NAMES)) + random.randbytes(some(20))
    return framed(0, content[: random.randrange(len(content))] if rarely(0.01) else content)


def bounds(flags, most, bytes_of_bound=5):
    """A minimum, and where the flags ask for it a maximum."""
    low = most + 1 if rarely() else random.choice([0, 0, 1, 1, 2, 100, random.randrange(most + 1), most])
    high = random.choice([low, low + 1, most, random.randrange(low, most + 1) if low <= most else low])
    high = random.randrange(low) if low and rarely(0.02) else most + 1 if rarely() else min(high, max(low, most))
    return bytes([flags]) + wide(low, bytes_of_bound) + (wide(high, bytes_of_bound) if flags & 1 else b"")


def is_reference(type):
    return isinstance(type, tuple)


def has_default(type):
    return not is_reference(type) or type[0]


class SubType:
    """The items of a function type are its parameters and results, those of other types fields: a type and whether it can be set."""

    def __init__(self, kind, items, is_open, above):
        self.kind, self.items, self.is_open, self.above = kind, items, is_open, above


class Module:
    """The index spaces of a module that is being made, and its sections. References are pairs: whether null is one, and a name or the index of a type."""

    def __init__(self, column):
        self.column = column
        self.types, self.functions, self.tables, self.memories, self.globals, self.own, self.parts = [], [], [], [], [], [], []
        self.tags = 0

    def section(self, id, content):
        self.parts.append(framed(id, content))

    def add(self, id, items, chance=0.1):
        """A section of these items; where there are none, seldom an empty one."""
        if items or rarely(chance):
            self.section(id, listed(items))

    def index(self, count):
        """An index into a space of this size: seldom one past it."""
        return random.randrange(count) if count and not rarely() else count + random.choice([0, 0, 1, 2**31, 2**32 - 1 - count])

    def of_kind(self, *kinds):
        return [i for i, it in enumerate(self.types) if it.kind in kinds]

    def code(self, name):
        return bytes([CODES[name][self.column]])

    # Types as they are written.

    def heap(self, heap):
        return self.code(heap) if isinstance(heap, str) else signed(heap)

    def type(self, type):
        if not is_reference(type):
            return self.code(type)
        is_short = type[0] and isinstance(type[1], str) and not rarely(0.1)
        return self.code(type[1]) if is_short else self.code("ref null" if type[0] else "ref") + self.heap(type[1])

    def field(self, field):
        return self.type(field[0]) + bytes([random.randrange(2, 256) if rarely(0.001) else int(field[1])])

    def composite(self, kind, items):
        if kind == "func":
            return b"\x60" + b"".join(listed([self.type(it) for it in part]) for part in items)
        return b"\x5f" + listed([self.field(it) for it in items]) if kind == "struct" else b"\x5e" + self.field(items[0])

    # Types as they are drawn.

    def reference(self, end):
        heap = random.choice(ABSTRACT) if not end or rarely(0.5) else min(self.index(end), 2**32 - 1)
        if isinstance(heap, int) and heap >= 1_000_000:
            heap = end
        return (not rarely(0.25), heap)

    def value(self, end):
        return random.choice(NUMBERS) if rarely(0.6) else self.reference(end)

    def values(self, end, most):
        return [self.value(end) for _ in range(some(most))]

    def drawn_field(self, end):
        return (random.choice(["i8", "i16"]) if rarely(0.2) else self.value(end), rarely(0.4))

    def drawn_composite(self, end):
        kind = random.choice(["func", "func", "struct", "array"])
        if kind == "func":
            return kind, [self.values(end, 5), self.values(end, 3)]
        return kind, [self.drawn_field(end) for _ in range(some(5) if kind == "struct" else 1)]

    def heaps_below(self, heap):
        if isinstance(heap, int):
            bottom = ["nofunc" if self.types[heap].kind == "func" else "none"] if heap < len(self.types) else []
            return [i for i, it in enumerate(self.types) if it.above == heap] + bottom
        kinds = {"func": ["func"], "struct": ["struct"], "array": ["array"], "any": ["struct", "array"], "eq": ["struct", "array"]}
        return BELOW[heap] + self.of_kind(*kinds.get(heap, []))

    def narrower(self, type):
        """A type below this one, or seldom another."""
        if not is_reference(type) or rarely(0.06):
            return type if not rarely(0.06) else self.value(len(self.types))
        return (type[0] and rarely(0.6), random.choice([type[1], type[1], *self.heaps_below(type[1])]))

    def items_below(self, kind, items):
        if kind == "func":
            return [[*items[0]], [self.narrower(it) for it in items[1]]]
        fields = [(type, can_be_set) if can_be_set and not rarely(0.03) else (self.narrower(type), can_be_set != rarely(0.04)) for type, can_be_set in items]
        if kind == "struct":
            fields = fields[: len(fields) - int(rarely(0.03))] + [self.drawn_field(len(self.types)) for _ in range(some(3))]
        return fields

    def sub_type(self, end):
        open_ones = [i for i, it in enumerate(self.types) if it.is_open or rarely(0.01)]
        above = random.choice(open_ones) if open_ones and rarely(0.6) else len(self.types) + random.choice([0, 1]) if rarely() else None
        if above is None or above >= len(self.types) or rarely(0.01):
            kind, items = self.drawn_composite(end)
        else:
            kind = self.types[above].kind
            items = self.items_below(kind, self.types[above].items)
        is_open = rarely(0.6)
        text = self.composite(kind, items)
        if is_open or above is not None or rarely(0.2):
            supertypes = [] if above is None else [above] * (2 if rarely() else 1)
            text = (b"\x50" if is_open else self.code("final")) + listed([wide(it) for it in supertypes]) + text
        self.types.append(SubType(kind, items, is_open, above))
        return text

    def group(self):
        if not rarely(0.4):
            return self.sub_type(len(self.types) + 1)
        count = random.choice([0, 1, 2, 2, 3, 4])
        return self.code("group") + listed([self.sub_type(end) for end in [len(self.types) + count] * count])

    def plain_function_type(self):
        self.types.append(SubType("func", [self.values(0, 4), random.choice([[], [], self.values(0, 3)])], False, None))
        return self.composite("func", self.types[-1].items)

    def add_types(self):
        groups = [self.group() for _ in range(random.choice([1, 2, 3, 8]))] if rarely(0.7) else []
        self.add(1, groups + [self.plain_function_type() for _ in range(some(4))])

    # The sections.

    def function_types(self, may_give):
        return [i for i in self.of_kind("func") if may_give or not self.types[i].items[1]]

    def function_type(self, may_give=True):
        fits = self.function_types(may_give)
        return random.choice(fits) if fits and not rarely() else self.index(len(self.types))

    def held_reference(self):
        """A type of which there mostly is a value."""
        may_be_null, heap = self.reference(len(self.types))
        return (may_be_null or not self.ways(heap, 0) and not rarely(0.03), heap)

    def held(self):
        return random.choice(NUMBERS) if rarely(0.5) else self.held_reference()

    def table_limits(self):
        return bounds(random.choice([2, 3, 8, 128]) if rarely(0.003) else random.choice([0, 1]), 2**32 - 1)

    def memory(self):
        flags = random.choice([8, 2, 6, 16]) if rarely(0.01) else random.choice([0, 0, 0, 1, 1, 3, 4, 5, 7])
        self.memories.append("i64" if flags & 4 else "i32")
        # Node has 262,144 pages at most in a memory of 64 bits.
        return bounds(flags, 262_143, 10) if flags & 4 else bounds(flags, 65_536)

    def import_one(self):
        kinds = [1, 3, 3] + [2] * (not self.memories) + [0, 0] * bool(self.of_kind("func")) + [4] * bool(self.function_types(False) or rarely(0.02))
        kind = random.choice(kinds)
        if kind == 0:
            self.functions.append(self.function_type())
            what = wide(self.functions[-1])
        elif kind == 1:
            self.tables.append(FUNCREF if rarely(0.4) else self.reference(len(self.types)))
            what = self.type(self.tables[-1]) + self.table_limits()
        elif kind == 2:
            what = self.memory()
        elif kind == 3:
            self.globals.append((self.value(len(self.types)), rarely(0.3)))
            what = self.type(self.globals[-1][0]) + bytes([int(self.globals[-1][1]) if not rarely() else 2])
        else:
            self.tags += 1
            what = bytes([int(rarely())]) + wide(self.function_type(False))
        return named(a_name()) + named(a_name()) + bytes([kind if not rarely(0.002) else 5]) + what

    def add_imports(self):
        self.add(2, [self.import_one() for _ in range(some(8))])

    def add_functions(self):
        self.own = [self.function_type() for _ in range(some(6))] if self.of_kind("func") else []
        self.functions += self.own
        self.add(3, [wide(it) for it in self.own])

    def own_table(self):
        type = FUNCREF if rarely(0.4) else self.held_reference()
        if type[0] and not rarely(0.25) or rarely(0.01):
            text = self.type(type) + self.table_limits()
        else:
            # Node 20 has no 0 there.
            text = b"\x40" + b"\0" * (self.column == HERE) + self.type(type) + self.table_limits() + self.expression(type)
        self.tables.append(type)
        return text

    def add_tables(self):
        self.add(4, [self.own_table() for _ in range(some(4))])

    def add_memories(self):
        self.add(5, [self.memory()] if not self.memories and rarely(0.5) else [])

    def add_tags(self):
        count = some(3) if self.function_types(False) or rarely(0.02) else 0
        self.tags += count
        self.add(13, [bytes([int(rarely())]) + wide(self.function_type(False)) for _ in range(count)])

    def own_global(self):
        type, can_be_set = self.held(), rarely(0.4)
        text = self.type(type) + bytes([int(can_be_set) if not rarely() else 2]) + self.expression(type)
        self.globals.append((type, can_be_set))
        return text

    def add_globals(self):
        self.add(6, [self.own_global() for _ in range(some(6))])

    def add_exports(self):
        spaces, names, items = [len(self.functions), len(self.tables), len(self.memories), len(self.globals), self.tags], set(), []
        for _ in range(some(10)):
            kind = random.choice([it for it in range(5) if spaces[it] or rarely()] or [0])
            name = a_name()
            if name in names and not rarely(0.02):
                name = b"n%d" % len(items)
            names.add(name)
            items.append(named(name) + bytes([kind if not rarely(0.001) else 5]) + wide(self.index(spaces[kind])))
        self.add(7, items)

    def add_start(self):
        fits = [i for i, it in enumerate(self.functions) if it < len(self.types) and self.types[it].kind == "func" and self.types[it].items == [[], []]]
        if fits and rarely(0.4) or self.functions and rarely(0.02):
            self.section(8, wide(random.choice(fits) if fits and not rarely(0.05) else self.index(len(self.functions))))

    def add_elements(self):
        self.add(9, [self.element_segment() for _ in range(some(4))])

    def element_segment(self):
        flags = random.randrange(8) if not rarely(0.003) else 8
        # Node takes functions also for a table of some of them alone.
        tables = [i for i, it in enumerate(self.tables) if flags & 4 or isinstance(it[1], str) and it[1] != "nofunc"]
        fits = [i for i in tables if flags & 3 and (flags & 4 or self.tables[i][1] == "func") or self.tables[i] == FUNCREF and (i == 0 or flags & 3)]
        table = random.choice(fits) if fits and not rarely(0.03) else random.choice(tables) if tables and rarely(0.1) else None
        if table is None and not flags & 1:
            flags |= 1
        if not flags & 3:
            table = 0
            if not self.tables or not flags & 4 and 0 not in tables:
                flags |= 1
        type = self.held_reference() if flags & 1 or table is None or rarely(0.06) else self.narrower(self.tables[table])
        if not flags & 3:
            type = FUNCREF
        out = wide(flags)
        if not flags & 1:
            out += wide(table if not rarely(0.002) else len(self.tables)) if flags & 2 else b""
            out += self.expression("i32" if not rarely(0.01) else "i64")
        if flags & 4:
            return out + (self.type(type) if flags & 3 else b"") + listed([self.expression(type) for _ in range(some(5))])
        out += bytes([0 if not rarely() else random.choice([1, 0x70])]) if flags & 3 else b""
        return out + listed([wide(self.index(len(self.functions))) for _ in range(some(5) if self.functions or rarely() else 0)])

    def data_segment(self):
        flags = (random.choice([0, 0, 1, 2]) if self.memories or rarely(0.01) else 1) if not rarely(0.003) else 3
        out = wide(flags) + (wide(self.index(len(self.memories))) if flags == 2 else b"")
        if flags != 1:
            type = self.memories[0] if self.memories else "i32"
            out += self.expression(type if not rarely(0.01) else random.choice(["i32", "i64", "f32"]))
        return out + named(random.randbytes(some(20)))

    def add_bodies_and_data(self):
        segments = [self.data_segment() for _ in range(some(4))]
        if rarely(0.4):
            self.section(12, wide(len(segments) if not rarely(0.02) else random.choice([0, len(segments) + 1, 2**32 - 1])))
        self.add(10, [b"\3\0\0\x0b"] * (len(self.own) if not rarely() else some(3)))
        self.add(11, segments)

    # Constant expressions.

    def operator(self, name):
        return b"\xfb" + wide(CODES[name][self.column])

    def integer(self, type):
        if type == "i32":
            return b"\x41" + signed(random.choice([0, 1, -1, 5, 100, 2**31 - 1, -(2**31)]))
        return b"\x42" + signed(random.choice([0, 1, -1, 100, 2**63 - 1, -(2**63)]), 10)

    def constant(self, type):
        if type in ("i32", "i64"):
            return self.integer(type)
        if type in ("f32", "f64"):
            return b"\x43" + random.randbytes(4) if type == "f32" else b"\x44" + random.randbytes(8)
        return b"\xfd" + wide(12) + random.randbytes(16)

    def operand(self, type, depth=0):
        """Operators that give a value of this type, or of one below."""
        fits = [i for i, it in enumerate(self.globals) if not it[1] and (it[0] == type or is_reference(type) and it[0] == (False, type[1]))]
        if fits and rarely(0.4) or self.globals and rarely(0.003):
            return b"\x23" + wide(random.choice(fits) if fits and not rarely(0.02) else self.index(len(self.globals)))
        if type in ("i8", "i16"):
            type = "i32"
        if is_reference(type):
            return self.reference_operand(*type, depth)
        code = self.constant(type)
        while type in ("i32", "i64") and rarely(0.1):
            code += self.integer(type) + bytes([random.choice([0x6A, 0x6B, 0x6C] if type == "i32" else [0x7C, 0x7D, 0x7E])])
        return code

    def reference_operand(self, may_be_null, heap, depth):
        below = random.choice(self.heaps_below(heap) or [heap]) if rarely(0.3) else heap
        heap = below if may_be_null or self.ways(below, depth) else heap
        ways = self.ways(heap, depth) if not may_be_null or depth < 3 and rarely(0.7) else []
        return random.choice(ways)() if ways else b"\xd0" + self.heap(heap)

    def ways(self, heap, depth):
        """How a value that isn't null can be made."""
        if depth > 5:
            return []
        kind = self.types[heap].kind if isinstance(heap, int) and heap < len(self.types) else heap
        ways = []
        if kind == "func":
            fits = [i for i, it in enumerate(self.functions) if heap in ("func", it)]
            ways += [lambda: b"\xd2" + wide(random.choice(fits) if not rarely() else self.index(len(self.functions)))] if fits else []
        if kind in ("struct", "array"):
            ways += [lambda: self.made(random.choice([heap] if isinstance(heap, int) else self.of_kind(kind)), depth)] if self.of_kind(kind) else []
        if kind in ("any", "eq"):
            ways += [lambda: self.made(random.choice(self.of_kind("struct", "array")), depth)] if self.of_kind("struct", "array") else []
        if kind in ("any", "eq", "i31"):
            ways += [lambda: self.operand("i32", depth + 1) + self.operator("ref.i31")]
        if kind == "extern":
            ways += [lambda: self.reference_operand(False, "any", depth + 1) + self.operator("extern.convert_any")]
        if kind == "any" and depth < 3:
            ways += [lambda: self.reference_operand(False, "extern", depth + 1) + self.operator("any.convert_extern")]
        return ways

    def made(self, index, depth):
        """A structure or an array of this type."""
        fields = [it for it, _ in self.types[index].items]
        has_defaults = all(has_default(it) for it in fields)
        is_default = has_defaults and (depth > 2 or rarely(0.4)) or rarely()
        if self.types[index].kind == "struct":
            values = b"" if is_default else b"".join(self.operand(it, depth + 1) for it in fields)
            return values + self.operator("struct.new_default" if is_default else "struct.new") + wide(index)
        if is_default:
            return self.operand("i32", 9) + self.operator("array.new_default") + wide(index)
        if rarely(0.4):
            return self.operand(fields[0], depth + 1) + self.operand("i32", 9) + self.operator("array.new") + wide(index)
        count = random.randrange(4)
        values = b"".join(self.operand(fields[0], depth + 1) for _ in range(count))
        return values + self.operator("array.new_fixed") + wide(index) + wide(count + int(rarely()))

    def expression(self, type):
        code = self.operand(type if not rarely(0.02) else self.value(len(self.types)) if not is_reference(type) or rarely(0.5) else (not type[0], type[1]))
        if rarely(0.006):
            other = self.operand(self.value(len(self.types)))
            code = random.choice([b"", code + other, b"\x20\0", b"\x00", other, b"\x01" + code, code + b"\x1a", code + b"\x45"])
        return code + (b"\x0b" if not rarely(0.001) else b"")

    def make(self):
        for what in ("types", "imports", "functions", "tables", "memories", "tags", "globals", "exports", "start", "elements", "bodies_and_data"):
            getattr(self, f"add_{what}")()
        for _ in range(some(3)):
            self.parts.insert(random.randrange(len(self.parts) + 1), custom())
        return self.parts


# Modules at a limit of both and past it, and at one that only the program has and past it.


def function_type(parameters, results):
    return framed(1, listed([b"\x60" + listed([b"\x7f"] * parameters) + listed([b"\x7f"] * results)]))


def exported(names):
    return framed(6, listed([b"\x7f\0\x41\0\x0b"])) + framed(7, listed([named(it) + b"\3\0" for it in names]))


def imported(module, name):
    return framed(2, listed([named(module) + named(name) + b"\3\x7f\0"]))


def chain(links):
    return framed(1, listed([b"\x50\0\x5f\0"] + [b"\x50\1" + number(i) + b"\x5f\0" for i in range(links)]))


def functions(count):
    bodies = framed(10, listed([b"\3\0\0\x0b"] * count))
    return function_type(0, 0) + framed(3, listed([b"\0"] * count)) + framed(9, listed([b"\3\0" + listed([wide(i) for i in range(count)])])) + bodies


def at_a_limit():
    past = random.choice([0, 1])
    long = b"x" * (100_000 + past)
    only_here = [
        lambda: imported(long, b"a"), lambda: imported(b"a", long), lambda: exported([long]), lambda: framed(0, named(long)),
        lambda: framed(9, listed([b"\1\0\0"] * (100_000 + past))), lambda: framed(4, listed([b"\x70\0\0"] * (100 + past))),
    ]
    of_both = [
        lambda: function_type(1_000 + past, 0), lambda: function_type(0, 1_000 + past), lambda: function_type(999 + past, 1_000 + past),
        lambda: framed(1, listed([b"\x5f" + listed([b"\x7f\0"] * [2_000, 10_001][past])])), lambda: chain([31, 64][past]),
        lambda: framed(5, listed([b"\0" + wide(65_536 + past)])), lambda: framed(5, listed([b"\1\0" + wide(65_536 + past)])),
        lambda: framed(4, listed([b"\x70\0" + number(2**32 - 1 + past)])), lambda: framed(4, listed([b"\x70\1\0" + number(2**32 - 1 + past)])),
        lambda: framed(2, listed([b"\0\0\3\x7f\0"] * (100_000 - past))), lambda: exported([b"%d" % i for i in range(50_000)] + [b"7"] * past),
        lambda: framed(11, listed([b"\1\0"] * (100_000 + past))), lambda: functions(20_000 + past),
    ]
    section = random.choice(only_here + of_both)
    return section(), "limit" if past and section in only_here else "whole"


def with_moved(parts, at, places):
    """The sections with one moved, left out or doubled."""
    moved = parts.pop(at)
    for it in places:
        parts.insert(it, moved)
    return parts


def write(name):
    if rarely(0.005):
        section, kind = at_a_limit()
        save(f"{name:05d}-{kind}.wasm", PREAMBLE + section)
        return
    # Both are made from the same draws.
    state = random.getstate()
    node = Module(NODE).make()
    random.setstate(state)
    here = Module(HERE).make()
    change, kind = random.random(), "whole"
    # A size that is changed could end at the end of a section of one of them alone.
    are_as_long = len(b"".join(here)) == len(b"".join(node))
    if change < 0.05 and here:
        at = random.randrange(len(here))
        # Without its imports another table might be the one of a segment.
        count = random.choice([0, 1, 1, 2] if here[at][0] != 2 else [1, 2])
        places = [random.randrange(len(here)) for _ in range(count)]
        here, node = with_moved(here, at, places), with_moved(node, at, places)
    elif change < 0.32 and here and are_as_long:
        change_byte(here, node)
        kind = "changed"
    here, node = PREAMBLE + b"".join(here), PREAMBLE + b"".join(node)
    if 0.32 <= change < 0.35 and are_as_long:
        length = random.randrange(8, len(here) + 1)
        here, node = here[:length], node[:length]
    save(f"{name:05d}-{kind}.wasm", here)
    if node != here:
        save(f"{name:05d}-{kind}.node", node)


def header_length(section):
    return 2 + next(i for i, it in enumerate(section[1:]) if it < 128)


def change_byte(here, node):
    """Changes a byte that is the same in both, mostly near the front of a section. Where codes differ, ids and sizes of sections stay, so that no
    code is read as one of them."""
    firsts = [0 if here == node else header_length(it) for it in here]
    part = random.choice([i for i, it in enumerate(here) if firsts[i] < len(it)])
    ours, theirs = bytearray(here[part]), bytearray(node[part])
    places = [i for i in range(firsts[part], len(ours)) if ours[i] == theirs[i]]
    at = random.choice(places if rarely(0.4) else places[:20])
    old = ours[at]
    near = [it % 256 for it in (old + 1, old - 1, old ^ 1, old ^ 4, old ^ 128) if it % 256 not in OTHER_FORMS]
    new = random.choice(near if near and rarely(0.5) else [it for it in range(256) if it not in OTHER_FORMS])
    ours[at] = theirs[at] = new
    here[part], node[part] = bytes(ours), bytes(theirs)


def save(name, module):
    with open(name, "wb") as out:
        out.write(module)


if __name__ == "__main__":
    first, count = map(int, sys.argv[1:])
    for number_of_module in range(first, first + count):
        write(number_of_module)
