"""Prints a part of a program in C, so many functions, no two alike, for bench/code_modules.sh: `functions.py COUNT PART`. They have loops, branches, switches,
arrays in memory, numbers of four types, calls of functions before them, of libc and through a table, as it comes."""
import random
import sys

count, part = map(int, sys.argv[1:])
random.seed(part)
TYPES = {"i": "uint32_t", "l": "uint64_t", "f": "float", "d": "double"}
SIGNED = {"i": "int32_t", "l": "int64_t"}
MATHS = ["sqrt", "floor", "ceil", "fabs", "trunc", "sin", "exp"]
made = []


def constant(kind):
    if kind in "fd":
        return f"{random.uniform(-1000, 1000):.3f}" + ("f" if kind == "f" else "")
    return f"{random.choice([0, 1, 2, 7, 255, random.getrandbits(16), random.getrandbits(32 if kind == 'i' else 64)])}u" + ("" if kind == "i" else "ll")


def leaf(kind):
    way = random.random()
    if way < 0.5:
        return f"{kind}{random.randrange(4)}"
    if way < 0.7:
        return f"all_{kind}[{expression('i', 0)} & 1023]"
    if way < 0.8:
        return f"it->{kind}"
    return constant(kind)


def call(depth):
    """A call of an earlier function: its result is a number of the kind of its first parameter."""
    kind, name, params = random.choice(made)
    return kind, f"{name}({', '.join([expression(it, depth - 1) for it in params] + ['it'])})"


def whole(kind, depth):
    left, right = expression(kind, depth - 1), expression(kind, depth - 1)
    bits = 31 if kind == "i" else 63
    name = "__builtin_popcount" if kind == "i" else "__builtin_popcountll"
    return random.choice([
        f"({left} + {right})", f"({left} - {right})", f"({left} * {right})", f"({left} ^ {right})", f"({left} & {right})", f"({left} | {right})",
        f"({left} / ({right} | 1))", f"(({SIGNED[kind]}){left} % (({SIGNED[kind]}){right} | 3))", f"({left} << ({right} & {bits}))",
        f"(({SIGNED[kind]}){left} >> ({right} & {bits}))", f"{name}({left})", f"(uint8_t){left}", f"(uint32_t)(int16_t){left}",
    ])


def broken(kind, depth):
    left, right = expression(kind, depth - 1), expression(kind, depth - 1)
    return random.choice([f"({left} + {right})", f"({left} - {right})", f"({left} * {right})", f"({left} / {right})",
                          f"({TYPES[kind]}){random.choice(MATHS)}({left})", f"(-({left}))"])


def expression(kind, depth):
    if depth <= 0:
        return leaf(kind) if random.random() < 0.9 else constant(kind)
    way = random.random()
    if way < 0.1:
        return f"({test(depth - 1)} ? {expression(kind, depth - 1)} : {expression(kind, depth - 1)})"
    if way < 0.2:
        other = random.choice("ild" if kind in "fd" else "il")
        return f"({TYPES[kind]}){expression(other, depth - 1)}"
    if way < 0.25 and made:
        return f"({TYPES[kind]}){call(min(depth, 2))[1]}"
    if way < 0.28:
        return f"({TYPES[kind]})table_{part}[{expression('i', 0)} & 255]({expression('i', depth - 1)}, it)"
    return whole(kind, depth) if kind in "il" else broken(kind, depth)


def test(depth):
    kind = random.choice("iiild")
    return f"{expression(kind, depth)} {random.choice(['<', '<=', '==', '!=', '>'])} {expression(kind, depth)}"


def assignment():
    kind = random.choice("iiillfd")
    place = random.choice([f"{kind}{random.randrange(4)}"] * 3 + [f"all_{kind}[{expression('i', 1)} & 1023]", f"it->{kind}"])
    return f"{place} = {expression(kind, random.choice([1, 2, 3]))};"


def block(depth, size):
    return "{ " + " ".join(statement(depth - 1) for _ in range(random.randint(1, size))) + " }"


def statement(depth):
    if depth <= 0:
        return assignment()
    way = random.random()
    if way < 0.4:
        return assignment()
    if way < 0.6:
        return f"if ({test(2)}) {block(depth, 3)}" + (f" else {block(depth, 3)}" if random.random() < 0.5 else "")
    if way < 0.72:
        turn = f"t{depth}"
        return f"for (uint32_t {turn} = 0; {turn} < {expression('i', 1)}; {turn}++) {block(depth, 3)}"
    if way < 0.78:
        return f"while ({test(1)}) {{ {statement(depth - 1)} if ({test(1)}) break; it = it->next; }}"
    if way < 0.86:
        cases = "".join(f" case {at}: {statement(depth - 2)} {random.choice(['break;', 'break;', ''])}" for at in range(random.choice([3, 5, 12])))
        return f"switch ({expression('i', 1)} & 15) {{{cases} default: {assignment()} }}"
    if way < 0.92:
        return f"memcpy(all_{random.choice('ilfd')}, all_{random.choice('ilfd')}, {expression('i', 1)} & 1023);"
    if way < 0.96:
        return f"if ({test(1)}) return {expression('i', 1)};"
    return 'i0 += snprintf(text, sizeof text, "%u %s %f", i1, it->name, d1);'


print("""#include <math.h>
#include <stdint.h>
#include <stdio.h>
#include <string.h>
struct thing { struct thing *next; const char *name; uint32_t i; uint64_t l; float f; double d; };
typedef uint32_t (*function)(uint32_t, struct thing *);""")
print(f"extern function table_{part}[256];\nstatic char text[256];")
for kind, type in TYPES.items():
    print(f"static {type} all_{kind}[1024];")
for at in range(count):
    # Each eighth one stands in the table, which asks for its type.
    params = ["i"] if at % 8 == 0 else [random.choice("ilfd") for _ in range(random.randrange(4))]
    kind = "i" if at % 8 == 0 else random.choice("ilfd")
    name = f"function_{part}_{at}"
    given = [f"{TYPES[it]} {it}{place}" for place, it in enumerate(params)]
    locals = [f"{TYPES[it]} {it}{place} = {constant(it)};" for it in TYPES for place in range(4) if place >= len(params) or params[place] != it]
    print(f"{TYPES[kind]} {name}({', '.join([*given, 'struct thing *it'])}) {{ {' '.join(locals)}")
    for _ in range(random.randint(2, 8)):
        print("    " + statement(3).replace("return ", f"return ({TYPES[kind]})"))
    print(f"    return {kind}0 + ({TYPES[kind]})(i1 + l1 + f1 + d1);\n}}")
    made = (made + [(kind, name, params)])[-100:]
print(f"function table_{part}[256] = {{ {', '.join(f'function_{part}_{at * 8 % count // 8 * 8}' for at in range(256))} }};")
