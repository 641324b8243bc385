"""Prints the rows of bench/memory.sh: memory_rows.py PROGRAM PEAK FOLDER (check|report) [NAME..], or .. generate [NAME..]; without names all rows. PEAK is
bench/peak.c, linked with the C library. Modules are written to FOLDER by a process of their own, since one that holds a module would lend its size to those that
it starts. The status is 1 where a row is past its bound."""
import os
import random
import subprocess
import sys

from memory_modules import KNOWN, MODULES, REPORTED
from module_sizes import items_in

program, peak, folder, command, *names = sys.argv[1:]
MAKER = os.path.join(os.path.dirname(os.path.realpath(__file__)), "memory_modules.py")
MODULE, SEED, CONFIG, OUT = (f"{folder}/{name}" for name in ("module.wasm", "seed", "config.toml", "out"))
# What a process may have before memory ends, in KiB, and how many seconds.
MOST, SECONDS = 8 << 20, 300
# What may be had for a definition, and for whatever is there from the start, in bytes.
EACH, SLACK = 100, 1 << 19
# What may be had for a definition of a made module, as many of the limit on types where there is a refusal, and for each byte of the seed.
MADE, SEED_TIMES = 250, 160
# Messages that no row may end with. Those of configurations that ask for too much may end with the first.
OUT_OF_MEMORY = "wasm_gen: out of memory"
UNNAMED = [OUT_OF_MEMORY, f"no end within {SECONDS} s"]
MANY_ELEMENTS = "1,000 element segments with min_elements at the limit"
# The validator's limits on what a configuration bounds, and the greatest maximum that is allowed.
LIMITS = {"types": 1_000_000, "imports": 1_000_000, "tags": 1_000_000, "funcs": 1_000_000, "globals": 1_000_000, "exports": 1_000_000,
          "element_segments": 100_000, "elements": 10_000_000, "data_segments": 100_000, "tables": 100, "memories": 100}
GREATEST = 1 << 31
# Configurations that may run out of memory.
ASKS_FOR_TOO_MUCH = [MANY_ELEMENTS, *(f"min_{key} at 2^31" for key in LIMITS if key != "types")]
# Sizes of types of which no module passes the validator's limit, which counts a function one more.
SIZE_OF_TYPES = 499_999
past = []


def run(*words):
    """Writes what a process says to a file, and returns its first words, its most memory in bytes and its seconds. (GNU time is small, and so lends the process
    none of its own size.)"""
    limited = f'ulimit -v {MOST}; exec /usr/bin/time -q -f "%M %U %S" -o "$0" timeout {SECONDS} "$@"'
    with open(OUT, "wb") as out:
        ran = subprocess.run(["sh", "-c", limited, f"{folder}/time", *words], stdout=out, stderr=subprocess.PIPE, text=True, check=False)
    with open(f"{folder}/time") as file:
        kib, user, system = file.read().split()[-3:]
    error = f"no end within {SECONDS} s" if ran.returncode == 124 else ran.stderr.strip().replace("\n", "; ")[:60]
    return error, int(kib) * 1024, float(user) + float(system)


def first_words():
    with open(OUT, "rb") as file:
        return file.readline(200).decode(errors="replace").split()


def said_of(length):
    """Returns the verdict of `check`, or how long the report is."""
    words = first_words()[:2]
    return f"{length / 1e6:.2f} MB of text" if command == "report" else " ".join(word for word in words if "=" not in word)


def figures(beyond, size, definitions):
    """Returns memory in MiB, and in bytes for a byte of the input and for a definition."""
    each = f", {beyond / definitions:.0f} bytes a definition" if definitions > 1 else ""
    times = f", {beyond / size:.2f} times the input" if size > 1_000 else ""
    return f"{beyond / 2**20:.1f} MiB{times}{each}"


def show(what, is_within):
    print(what if is_within else f"{what}: PAST", flush=True)
    if not is_within:
        past.append(what)


def in_place(path):
    """Returns how many bytes a call of the library touches beyond the input, and has of malloc."""
    run(peak, command, path)
    words = first_words()
    return (int(words[2]), int(words[1])) if len(words) == 4 else (0, 0)


def module_row(name, own, own_in_place):
    """Prints what `check` or `report` of a module takes: a process, and a call in a process that holds the module, each less that of an empty module."""
    subprocess.run(["python3", MAKER, name, MODULE], check=True)
    size, definitions = os.path.getsize(MODULE), MODULES[name][0]
    error, most, seconds = run(program, command, MODULE)
    answer = error or said_of(os.path.getsize(OUT))
    whole = most - own
    touched, asked = in_place(MODULE)
    touched -= own_in_place
    bound = max(KNOWN[command].get(name, 0), size + EACH * definitions) + SLACK
    show(f"{command}, {name}: {size / 1e6:.2f} MB, {answer}, {seconds:.2f} s; a process: {whole / 2**20:.1f} MiB, beyond the input "
         f"{figures(whole - size, size, definitions)}; in place: {figures(touched, size, definitions)}; of malloc: {asked / 2**20:.1f} MiB",
         whole <= size + bound and touched <= bound)


def write_empty():
    subprocess.run(["python3", MAKER, "an empty module", MODULE], check=True)


def text_of(values):
    return "".join(f"{key} = {str(value).lower()}\n" for key, value in values.items())


def maximums(of):
    return {f"max_{key}": of(limit) for key, limit in LIMITS.items()}


# What lets a seed of 0 bytes meet a minimum: one function type of no parameters, or imports and exports of one kind.
PLAIN = {"min_types": 1, "gc_enabled": False}
LEADING = {"imports": {"max_funcs": 0, "max_tags": 0, "max_tables": 0, "max_memories": 0}, "tags": PLAIN, "funcs": PLAIN, "elements": {"min_element_segments": 1},
           "exports": {"min_memories": 1, "max_types": 0, "max_globals": 0, "max_tables": 0, "max_imports": 0}}


def minimum(key, limit, greatest_size):
    """Returns a minimum that is its maximum too, and a configuration with it. (The module itself counts among the sizes of imports and exports.)"""
    least = min(limit, greatest_size) if key in ("imports", "exports") else limit
    globals = {"max_globals": least} if key == "imports" else {}
    return least, text_of({**LEADING.get(key, {}), **globals, f"min_{key}": least, f"max_{key}": least, "max_type_size": greatest_size})


def configurations():
    """Yields what a configuration has, its text, and how many items of the kind that it is about a module has at least."""
    yield "maximums at the limits", text_of({**maximums(lambda limit: limit), "max_type_size": SIZE_OF_TYPES}), 0
    yield "maximums at 2^31", text_of({**maximums(lambda _: GREATEST), "max_type_size": GREATEST}), 0
    yield "maximums at 2^31 + 1", text_of({**maximums(lambda _: GREATEST + 1), "max_type_size": GREATEST}), 0
    for what, of, size in [("the limit", lambda limit: limit, 999_998), ("2^31", lambda _: GREATEST, GREATEST)]:
        for key, limit in LIMITS.items():
            least, text = minimum(key, of(limit), size)
            yield f"min_{key} at {what}", text, least
        minimums = {f"min_{key}": of(limit) for key, limit in LIMITS.items()}
        yield f"all minimums at {what}", text_of({**minimums, **maximums(of), "max_type_size": size}), 0
    few, most = 1_000, LIMITS["elements"]
    segments = {"min_element_segments": few, "max_element_segments": few, "min_elements": most, "max_elements": most}
    yield MANY_ELEMENTS, text_of(segments), few * most


def seeds(name):
    yield "0 bytes", b""
    sizes = [(1_000, "1 KB"), (100_000, "100 KB"), (10_000_000, "10 MB")]
    for size, text in sizes if name.startswith("max") else []:
        yield f"{text} of ff", b"\xff" * size
        yield f"{text} of odd bytes", bytes(byte | 1 for byte in random.Random(7).randbytes(size))


def definitions_in(path):
    """Returns the sizes of a made module's index spaces together, with exports and data segments."""
    run(program, "check", path)
    return sum(int(word.split("=")[1]) for word in first_words()[1:]) + items_in(path).get(11, 0)


def generate_row(name, text, least, what, seed, own):
    with open(CONFIG, "w") as config, open(SEED, "wb") as file:
        config.write(text)
        file.write(seed)
    error, most, seconds = run(program, "generate", "--config", CONFIG, SEED)
    os.replace(OUT, MODULE)
    length = os.path.getsize(MODULE)
    definitions = max(definitions_in(MODULE), least) if length else 0
    whole = most - own
    bound = MADE * (definitions or LIMITS["types"]) + SEED_TIMES * len(seed) + 2 * length + SLACK
    made = f"{length / 1e6:.2f} MB of {definitions} definitions" if length else error
    show(f"generate, {name}, seed of {what}: {made}, {seconds:.2f} s; a process: {figures(whole, len(seed) + length, definitions)}",
         error not in UNNAMED and whole <= bound or error == OUT_OF_MEMORY and name in ASKS_FOR_TOO_MUCH)


def generate_rows():
    write_empty()
    own = run(program, "check", MODULE)[1]
    for name, text, least in configurations():
        for what, seed in seeds(name):
            if not names or name in names:
                generate_row(name, text, least, what, seed, own)


def module_rows():
    write_empty()
    own, own_in_place = run(program, command, MODULE)[1], in_place(MODULE)[0]
    for name in names or (REPORTED if command == "report" else MODULES):
        module_row(name, own, own_in_place)


if command == "generate":
    generate_rows()
else:
    module_rows()
sys.exit(bool(past))
