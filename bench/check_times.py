"""Prints the rows of bench/check.sh, and ends with 1 where one is past its bound: `check_times.py PROGRAM DRIVER COUNTER FOLDER`. The modules are those that
bench/check_modules.py and, in FOLDER/code, bench/code_modules.sh made. DRIVER is `wasm_bench`, also as tools/unproved makes it; COUNTER is
bench/count.c, compiled."""
import os
import shutil
import subprocess
import sys
import time

from in_process import peers, times_of
from module_sizes import code_size, items_in

program, driver, counter, folder = sys.argv[1:]
ROUNDS = 5
# The factor that equal costs may differ by.
NOISE = 1.25
past = []


def show(what, is_within):
    print(what if is_within else f"{what}: PAST", flush=True)
    if not is_within:
        past.append(what)


def path_of(name):
    return f"{folder}/{name}.wasm"


def whole_run(name, command, size):
    """Prints the row of a whole process, and returns its peak of memory in MiB."""
    best = None
    for _ in range(5):
        begin = time.perf_counter()
        child = subprocess.Popen(command, stdout=subprocess.PIPE)
        out = child.stdout.read().decode().strip()
        _, status, usage = os.wait4(child.pid, 0)
        taken = time.perf_counter() - begin
        if best is None or taken < best[0]:
            best = (taken, usage.ru_maxrss / 1024, usage.ru_utime, out, status)
    taken, peak, user, out, status = best
    print(f"{name}: {size / taken / 1e6:.0f} MB/s, {taken * 1e3:.0f} ms ({user * 1e3:.0f} ms of it not in the system), "
          f"{peak:.0f} MiB at most for {size / 2**20:.0f} MiB, answers {out!r}, status {status >> 8}")
    return peak


def large_modules():
    script = "const b=require('fs').readFileSync(process.argv[1]);console.log(WebAssembly.validate(b)?'yes':'no')"
    for module, definitions in [("custom", 0), ("functions", 2_000_000)]:
        path = path_of(module)
        size = os.path.getsize(path)
        bound = (2 * size + 100 * definitions) / 2**20
        peak = whole_run(f"wasm_gen check, {module}", [program, "check", path], size)
        show(f"  within {bound:.0f} MiB", peak <= bound)
        if shutil.which("node"):
            whole_run(f"node WebAssembly.validate, {module}", ["node", "-e", script, path], size)


def times_of_modules(paths):
    return times_of(peers(driver), paths, path_of("empty"), ROUNDS)


def is_agreed(ours, node):
    """Returns whether the verdicts agree: an operator that the validator doesn't know is refused, even where node says yes."""
    return ours == "operator" or (ours == "yes" and node in ("yes", None))


def compare(name, path, best, may_differ=False):
    """Shows the row of a module: each validator's time, and ours beside it."""
    verdict, taken = best[path, "ours"]
    size = os.path.getsize(path)
    row = f"{name}: {size / 1e6:.2f} MB: {verdict}, {taken / 1e6:.2f} ms, {size / taken * 1e3:.3g} MB/s, {taken / size:,.1f} ns a byte"
    for peer, its in [("node", "node's"), ("wabt", "wasm-validate's")]:
        if (path, peer) in best:
            answer, other = best[path, peer]
            row += f"; {its}: {answer}, {other / 1e6:.2f} ms" + (f", ours is {taken / other:.2f} of it" if answer == "yes" else "")
    node = best.get((path, "node"), (None, 0))[0]
    show(row, may_differ or is_agreed(verdict, node))


def sizes_in(path):
    """Returns how many bytes of code a module has, and how many definitions: the items of all sections but custom ones, the start, the code and the data."""
    items = items_in(path)
    return code_size(path), sum(items.get(id, 0) for id in (1, 2, 3, 4, 5, 6, 7, 9, 13))


def peak_of(path):
    """Returns the most memory of `check` in bytes. (GNU time is small, and so lends the program none of its own size.)"""
    said = [subprocess.run(["/usr/bin/time", "-f", "%M", program, "check", path], capture_output=True, text=True).stderr for _ in range(3)]
    return min(int(it.split()[-1]) for it in said) * 1024


def show_memory(name, path):
    """Shows the memory of `check` beyond the file's bytes and that for an empty module; it may be 100 bytes a definition, and half a MiB."""
    code, definitions = sizes_in(path)
    more = peak_of(path) - peak_of(path_of("empty")) - os.path.getsize(path)
    bound = 100 * definitions + (1 << 19)
    show(f"{name}: {code / 1e6:.2f} MB of code, {definitions} definitions; memory beyond the input: {more / 1024:.0f} KiB, "
         f"{more / definitions:.0f} bytes a definition, of {bound / 1024:.0f} KiB", more <= bound)


def real_modules():
    with open(f"{folder}/code/names") as names:
        modules = [line.split(maxsplit=1) for line in names]
    named = [(what.strip(), f"{folder}/code/{name}.wasm") for name, what in modules]
    best = times_of_modules([path for _, path in named])
    for what, path in named:
        compare(what, path, best)
    if not os.path.exists("/usr/bin/time"):
        print("/usr/bin/time is missing: apt-get install time", file=sys.stderr)
        return
    for what, path in named:
        show_memory(what, path)


# A row, the module beside it, and how many times as long a byte may take. (Blocks nested less than some 700,000 deep take a third as long a byte in a process
# that validates many times: their stack has 32 MiB at most, which the C library keeps for the next time in place of giving it back to the system.)
LINEAR = [("one body", "small bodies", NOISE), ("twice the nested blocks", "nested blocks", NOISE), ("labels", "fewer labels", NOISE),
    ("bodies of 1,000 parameters", "bodies of 64 parameters", NOISE)]


def linear_costs():
    names = [it for large, small, _ in LINEAR for it in (large, small)] + ["labels of results"]
    best = times_of_modules([path_of(it) for it in names])
    for name in names:
        # (node has a limit of 65,520 labels; those of many results have no bound, since each label is judged by all of its results)
        compare(name, path_of(name), best, may_differ=name == "labels")
    for large, small, bound in LINEAR:
        each = [best[path_of(it), "ours"][1] / os.path.getsize(path_of(it)) for it in (large, small)]
        show(f"{large}, to {small}, time of a byte: {each[0] / each[1]:.2f}, of {bound:.2f}", each[0] <= bound * each[1])


def allocations(name):
    environment = {**os.environ, "LD_PRELOAD": counter}
    said = subprocess.run([program, "check", path_of(name)], capture_output=True, text=True, env=environment)
    if said.returncode or not said.stderr.strip().isdigit():
        sys.exit(f"{name}: {said.stdout}{said.stderr}")
    return int(said.stderr)


def show_allocations():
    """Vectors that grow with the module double a few times; nothing is allocated for each body or operator."""
    few = allocations("bodies")
    for name in ["twice the bodies", "twice the operators"]:
        many = allocations(name)
        show(f"allocations for 10,000 bodies: {few}; {name}: {many}", many - few <= 8)


large_modules()
real_modules()
linear_costs()
show_allocations()
sys.exit(bool(past))
