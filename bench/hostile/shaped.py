"""Makes modules by drawn configurations with shapes, for hostile.py. The program wasm_bench makes them, since the C library takes no shapes; the words of a shape are
those that crates/wasm_smith_config_rows reads."""
import random
import subprocess

from section_modules import some

SWITCHES = ["allow_floats", "allow_invalid_funcs", "allow_start_export", "bulk_memory_enabled", "compact_imports_enabled", "custom_page_sizes_enabled",
            "disallow_traps", "exceptions_enabled", "export_everything", "extended_const_enabled", "gc_enabled", "generate_custom_sections", "memory64_enabled",
            "memory_max_size_required", "multi_value_enabled", "reference_types_enabled", "simd_enabled", "stack_switching_enabled", "table_max_size_required",
            "tail_call_enabled", "threads_enabled"]
COUNTS = ["types", "imports", "tags", "funcs", "globals", "exports", "element_segments", "elements", "data_segments", "tables", "memories"]
HEAPS = ["func", "extern", "any", "eq", "i31", "struct", "array", "none", "nofunc", "noextern", "exn"]
MODULE_NAMES = ["-", "m", "n", "long_name"]


def settings():
    words = [f"{name}={random.choice(['yes', 'no'])}" for name in random.sample(SWITCHES, some(6))]
    words += [f"max_{name}={random.choice([0, 1, 2, 5, 200])}" for name in random.sample(COUNTS, some(4))]
    words += [f"min_{name}={random.choice([0, 1, 2])}" for name in random.sample(COUNTS, random.choice([0, 0, 1, 2]))]
    words += random.choice([[], [], [f"max_type_size={random.choice([0, 1, 10, 2147483648])}"], ["max_memories=3"]])
    return " ".join(["default", *dict.fromkeys(words)])


class Types:
    """The groups of a shape as they are drawn, and which types are functions."""

    def __init__(self, is_exports):
        self.functions, self.count, self.is_exports = [], 0, is_exports
        self.text = " ".join(f"{self.group()} ;" for _ in range(some(5)))

    def reference(self):
        has_index = self.count and not self.is_exports and random.random() < 0.4
        return str(random.randrange(self.count) if has_index else random.choice(HEAPS)) + random.choice(["?", "?", "?", ""])

    def value(self):
        return random.choice(["i32", "i64", "f32", "f64", "v128"]) if random.random() < 0.6 else self.reference()

    def field(self):
        return random.choice(["", "mut:"]) + (random.choice(["i8", "i16"]) if random.random() < 0.2 else self.value())

    def sub_type(self):
        kind = random.choice(["func", "func", "struct", "array"])
        words = {"func": lambda: [*(self.value() for _ in range(some(4))), "->", *(self.value() for _ in range(some(3)))],
                 "struct": lambda: [self.field() for _ in range(some(4))], "array": lambda: [self.field()]}[kind]()
        if kind == "func":
            self.functions.append(self.count)
        self.count += 1
        return " ".join([*random.choice([[], [], ["open"]]), kind, *words])

    def group(self):
        return " , ".join(self.sub_type() for _ in range(random.choice([1, 1, 1, 2, 3])))


def bounds(most=20):
    low = random.randrange(most)
    return f"{low}.." + random.choice(["", str(low + random.randrange(most))])


def item(types):
    kind = random.choice(["func", "tag", "table", "table64", "memory", "memory64", "global", "global"])
    if kind in ("func", "tag"):
        return f"{kind} {random.choice(types.functions)}" if types.functions else "global i32"
    if kind in ("table", "table64"):
        return f"{kind} {types.reference()} {bounds()}"
    if kind in ("memory", "memory64"):
        return f"{kind} {bounds()}"
    return "global " + random.choice(["", "mut:"]) + types.value()


def entry(types):
    module, form = random.choice(MODULE_NAMES), random.choice(["one", "one", "many", "same"])
    if form == "one":
        return f"one {module} {random.choice(MODULE_NAMES)} {item(types)} ;"
    if form == "many":
        return f"many {module} : " + " , ".join(f"a{i} {item(types)}" for i in range(some(4))) + " ;"
    return f"same {module} {item(types)} : " + " ".join("abcd"[: some(4)]) + " ;"


def shape(use):
    types = Types(use == "exports")
    imports = " ".join(entry(types) for _ in range(some(5))) if use != "exports" else ""
    exports = " , ".join(f"e{i} {item(types)}" for i in range(some(5))) if use != "imports" else ""
    return f"{use} {types.text} / {imports} / {exports}"


def row():
    uses = random.choice([["module"], ["module"], ["imports"], ["exports"], ["imports", "exports"], ["module", "exports"]])
    seed = bytes(random.choices(random.choice([range(256), [0, 1], [1, 3, 255]]), k=random.choice([0, 5, 50, 300])))
    return f"{settings()} | {' & '.join(shape(it) for it in uses)} | {seed.hex()}"


def modules(program, folder, count):
    """Yields modules, with their features, whether they may have raw bodies, and their rows; or why there is none."""
    rows = [row() for _ in range(count)]
    with open(f"{folder}/rows", "w", encoding="utf-8") as file:
        file.writelines(it + "\n" for it in rows)
    lines = subprocess.run([program, "shaped", f"{folder}/rows"], stdout=subprocess.PIPE, text=True, check=True).stdout.splitlines()
    for it, line in zip(rows, lines, strict=True):
        if line.startswith("made "):
            _, features, digits = line.split()
            yield bytes.fromhex(digits), int(features), "allow_invalid_funcs=yes" in it, it.encode()
        else:
            yield line, 0, False, it.encode()
