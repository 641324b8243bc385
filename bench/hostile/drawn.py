"""Draws inputs for hostile.py: texts of configurations, seeds, modules that ask for much, and mutants of modules."""
import random
import re

import pieces
import section_modules
from section_modules import PREAMBLE, framed, listed, number

COUNTS = [0, 1, 1, 2, 3, 7, 20, 100]
FAR = [1000, 4096, 65536, 100_000, 1_000_001, 2**31 - 1, 2**31, 2**31 + 1, 2**32 - 1, 2**32, 2**63 - 1, 2**63, 2**64, -1, -(2**63), 1.5, '""', '"1"', "[]", "{}",
       "1979-05-27", "true", "0x10", "1_0", "inf"]
TEXTS = ["", "#", "x = 1", "max_types = 1\nmax_types = 1", "max_types", "[max_types]", "max_types = ", "[[a]]", "a.b.c = 1", "max_types = 1\0", "\ufeffmax_types = 1",
         '"max_types" = 3', "'max\\u005ftypes' = 3", "max_types = 1 # \x7f", "= 1", "[" * 2000, "a=" + "[" * 2000, "a=" + "{b=" * 500, 'a="""' + "x" * 5000]
WORDS = ["Numeric", "numericint", "numeric_non_float", "Vector", "REFERENCE", "Parametric", "Variable", "Table", "MemoryInt", "Control", "Aggregate", "", " Table", "Other"]
EDGES = [0, 1, 2, 63, 64, 127, 128, 999, 1000, 1001, 2**16, 2**20 - 1, 2**20, 2**31 - 1, 2**31, 2**32 - 1]


def keys_of(path):
    """Returns the keys of data/config.toml with their defaults."""
    with open(path, encoding="utf-8") as file:
        return dict(re.findall(r"^(?:# )?([a-z0-9_]+) = (\S+)$", file.read(), re.M))


def value_of(key, default):
    if random.random() < 0.003:
        return random.choice(FAR)
    if default in ("true", "false"):
        return random.choice(["true", "false"])
    if key == "allowed_instructions":
        return '"%s"' % ",".join(random.sample(WORDS[:-3] if random.random() < 0.9 else WORDS, random.randrange(4) + 1))
    if key == "memory_offset_choices":
        return random.choice(['"0,0,1"', '"4294967295,4294967295,4294967295"', '"90,9,1"', '"1,2"', '"1, 2,3"', '"-1,2,3"'][: random.choice([3, 3, 3, 6])])
    if key.startswith("min_"):
        return random.choice([0, 0, 0, 1, 2, 5]) if random.random() < 0.98 else random.choice([50, 300, 5000])
    return random.choice(COUNTS) if random.random() < 0.97 else random.choice([1000, 5000, 2**31, 2**31 + 1, 2**32 - 1, 2**63 - 1])


def text(keys):
    """A configuration: mostly one with some keys, else a text with a fault or with anything in it."""
    way = random.random()
    if way < 0.01:
        return random.choice(TEXTS).encode("utf-8", "replace")
    chosen = random.sample(sorted(keys), random.choice([0, 1, 2, 4, 8, 16, len(keys)]))
    lines = "".join(f"{key} = {value_of(key, keys[key])}\n" for key in chosen).encode()
    return changed(lines) if way < 0.02 and lines else lines


def seed():
    length = random.choice([0, 1, random.randrange(20), random.randrange(200), random.randrange(1000), random.randrange(1000), 1000])
    length = length if random.random() < 0.995 else random.choice([5000, 20_000, 200_000])
    way = random.random()
    if way < 0.45:
        return random.randbytes(length)
    if way < 0.7:
        return (int.from_bytes(random.randbytes(length), "big") | int.from_bytes(b"\1" * length, "big")).to_bytes(length, "big")
    return bytes(random.choices(random.choice([[0, 1], [0, 1, 2, 3], [1, 255], range(16), [0, 0, 0, 255], [random.randrange(256)]]), k=length))


# Modules that ask for much with few bytes.


def with_bodies(types, functions, bodies):
    code = listed([number(len(it)) + it for it in bodies])
    return PREAMBLE + framed(1, listed(types)) + framed(3, listed([number(it) for it in functions])) + framed(10, code)


def function(parameters, results):
    return b"\x60" + listed([b"\x7f"] * parameters) + listed([b"\x7f"] * results)


def calls():
    """Calls of a function with many results, whose operands are kept, dropped or taken by a branch."""
    results, count = random.choice([1, 30, 1000]), random.choice([1, 20, 300])
    ends = random.choice([b"\0", b"\x1a" * results, b"\x0f", b"\x0c\0"])
    return with_bodies([function(0, results), function(0, 0)], [0, 1], [b"\0\0\x0b", b"\0" + b"\x10\0" * count + ends + b"\x0b"])


def passed_on():
    """Calls of a function that takes and gives many numbers, blocks of such a type, and branches out of them."""
    count, times = random.choice([1, 30, 1000]), random.choice([1, 20, 300])
    each = random.choice([b"\x10\0", b"\2\0\x0b", b"\3\0\x0b", b"\x41\0\x0d\0", b"\x41\0\4\0\5\x0b", b"\x41\0\x0e\1\0\0" * (times == 1)])
    return with_bodies([function(count, count)], [0, 0], [b"\0\0\x0b", b"\0" + b"".join(b"\x20" + number(i) for i in range(count)) + each * times + b"\x0b"])


def compared():
    """Operators of few bytes that compare a thousand references with others of wider types, or look at all fields of a structure."""
    count, times = random.choice([1, 30, 1000]), random.choice([1, 20, 300])
    results, narrower = (b"\x60\0" + listed([type] * count) for type in (b"\x63\0", b"\x63\1"))
    types = [b"\x50\0\x5f\0", b"\x4f\1\0\x5f" + listed([b"\x7f\0"] * random.choice([0, 10_000])), narrower, results, results]
    labels = number(times) + bytes(i % 2 for i in range(times)) + b"\0"
    ways = [b"\x12\0" * times, b"\x10\0" + b"\x41\0\x0d\0" * times, b"\xfb\1\1\x1a" * times + b"\0", b"\2\3\2\4\x10\0\x41\0\x0e" + labels + b"\x0b\x0b"]
    return with_bodies(types, [2, 3], [b"\0\0\x0b", b"\0" + random.choice(ways) + b"\x0b"])


def nested():
    depth = random.choice([1, 100, 5000])
    return with_bodies([function(0, 0)], [0], [b"\0" + random.choice([b"\2\x40", b"\3\x40", b"\x41\0\4\x40"]) * depth + b"\x0b" * (depth + 1)])


def labels():
    count = random.choice([1, 100, 5000])
    names = b"".join(number(random.choice([0, 1])) for _ in range(count))
    return with_bodies([function(0, 0)], [0], [b"\0\2\x40\x41\0\x0e" + number(count - 1) + names + b"\x0b\x0b"])


def locals_of():
    runs = [number(random.choice([0, 1, 50_000, 25_000, 2**32 - 1])) + random.choice([b"\x7f", b"\x70", b"\x7b", b"\x64\x70"]) for _ in range(random.choice([1, 2, 500]))]
    return with_bodies([function(random.choice([0, 1000]), 0)], [0] * 3, [b"\0\x0b", b"\0\x0b", listed(runs) + b"\x0b"])


def types_of():
    """Many types: equal ones, groups that differ little, and chains."""
    count = random.choice([1, 64, 2000])
    ways = [lambda: [function(2, 1)] * count, lambda: [b"\x4e" + listed([b"\x5f" + listed([b"\x63\0\0"] * (i % 5))] * 3) for i in range(count)],
            lambda: [b"\x50\0\x5f\0"] + [b"\x50\1" + number(i) + b"\x5f\0" for i in range(min(count, 64))], lambda: [b"\x5f" + listed([b"\x7f\1"] * count)],
            lambda: [b"\x4e" + listed([b"\x5f\1\x63" + number(i) + b"\0" for i in range(min(count, 64))])] * 3]
    return PREAMBLE + framed(1, listed(random.choice(ways)()))


def counted():
    """A count of four billion items, of which there are few or none."""
    return PREAMBLE + framed(random.choice(range(1, 14)), number(random.choice(EDGES)) + random.randbytes(random.choice([0, 1, 5])))


def asking():
    if random.random() < 0.03:
        return PREAMBLE + section_modules.at_a_limit()[0]
    return random.choice([calls, passed_on, compared, nested, labels, locals_of, types_of, counted])()


# Mutants.


def a_slice(module, most=64):
    first = random.randrange(len(module) + 1)
    return first, min(len(module), first + random.randrange(1, most))


def changed(module):
    out = bytearray(module)
    for _ in range(random.choice([1, 1, 1, 2, 4])):
        at = random.randrange(len(out))
        at = at if random.random() < 0.6 else random.randrange(min(len(out), 60))
        out[at] = random.choice([random.randrange(256), (out[at] + 1) % 256, (out[at] - 1) % 256, out[at] ^ 1 << random.randrange(8), 0, 255, 128])
    return bytes(out)


def cut(module):
    first, last = a_slice(module)
    return random.choice([module[:first], module[:first] + module[last:]])


def doubled(module):
    first, last = a_slice(module)
    return module[:first] + module[first:last] * random.choice([2, 2, 3, 50]) + module[last:]


def sections_of(module):
    """Returns the sections as far as their sizes say where they end, and the rest."""
    it, found = pieces.Reader(module, 8, len(module)), []
    try:
        while it.at < it.end:
            first = it.at
            it.take()
            it.take(it.number())
            found.append(module[first : it.at])
    except pieces.Unread:
        found.append(module[first:])
    return found


def moved(module, other):
    """The module with sections swapped, left out, repeated, or taken from another."""
    parts = sections_of(module) or [b"\0\1\0"]
    at, to = random.randrange(len(parts)), random.randrange(len(parts))
    way = random.randrange(4)
    if way == 0:
        parts[at], parts[to] = parts[to], parts[at]
    elif way == 1:
        del parts[at]
    elif way == 2:
        parts.insert(to, parts[at])
    else:
        same = [it for it in sections_of(other) if it[:1] == parts[at][:1]]
        parts[at] = random.choice(same or [parts[at]])
    return module[:8] + b"".join(parts)


def renumbered(parts):
    """One or two numbers become others, and sizes fit."""
    numbers = [it for it in pieces.numbers_in(parts)]
    chosen = set(map(id, random.sample(numbers, min(len(numbers), random.choice([1, 1, 2])))))

    def other(it):
        if id(it) not in chosen:
            return it.raw
        near = max(0, it.value() + random.choice([-1, 1, 2]))
        return number(near if random.random() < 0.6 else random.choice(EDGES))
    return pieces.together(parts, other)


def lists_in(parts):
    found = [it.pieces for it in parts if isinstance(it, pieces.Sized)]
    return found + [inner for it in found for inner in lists_in(it)]


def with_entries(parts):
    """Pieces of a section or body are left out, repeated or swapped, and sizes fit."""
    inner = random.choice([it for it in lists_in(parts) if it] or [parts])
    first, last = a_slice(inner, 12)
    before = inner[first:last]
    after = random.choice([[], before * 2, before[::-1], [b"\0"]])
    inner[first:last] = after
    module = pieces.together(parts)
    inner[first : first + len(after)] = before
    return module


def mutant(module, other):
    return random.choice([changed, changed, changed, cut, doubled, lambda it: moved(it, other), lambda it: changed(moved(it, other))])(module)
