#!/bin/sh
# Seconds and peak memory of `wasm_gen check` on modules of a million items of a kind: imports of globals, exports (also out of order, and by names that are
# chosen to make it slow), globals, functions and expressions of element segments, segments, and operands of constant expressions; then the time of modules of
# 100,000 items in memory, beside node's WebAssembly.validate and wabt's wasm-validate where they are installed. A module may take 1.5 s and 100 bytes an item
# beyond the input; where one takes more, the status is 1. Last come many modules of one session whose types are all kept: twice as many may take 2.5 times as
# long.
set -eu
. "$(dirname "$0")/setup.sh"
. bench/driver.sh
driver=$(build wasm_bench session 0)
# (a process that holds the modules would lend its size to those that it starts)
python3 bench/item_modules.py "$folder"
PYTHONPATH=bench python3 - "$program" "$folder" "$driver" <<'PYTHON'
import os, resource, subprocess, sys, time
from in_process import peers, times_of
program, folder, driver = sys.argv[1:]

def measure(path):
    best = None
    for _ in range(3):
        begin = time.perf_counter()
        child = subprocess.Popen([program, "check", path], stdout=subprocess.PIPE)
        out = child.stdout.read().decode().strip()
        _, _, usage = os.wait4(child.pid, 0)
        taken = time.perf_counter() - begin
        if best is None or taken < best[0]:
            best = (taken, usage.ru_maxrss * 1024, out)
    return best

def modules(size):
    for at, line in enumerate(open(f"{folder}/{size}")):
        count, name = line.split(maxsplit=1)
        yield int(count), name.strip(), f"{folder}/{size}{at}.wasm"

past = False
for count, name, path in modules("large"):
    taken, peak, out = measure(path)
    size = os.path.getsize(path)
    # (16 MiB for the process, which begins as a copy of this one)
    past |= taken > 1.5 or peak > size + 100 * count + (16 << 20) or not out.startswith("yes")
    print(f"{count:,} {name}: {taken:.2f} s, {peak / 2**20:.0f} MiB at most for {size / 2**20:.0f} MiB, answers {out.split()[0]}")
small = [*modules("small")]
best = times_of(peers(driver), [path for _, _, path in small], f"{folder}/empty.wasm", 3)
print("in memory, the shortest of many times:")
for count, name, path in small:
    verdict, taken = best[path, "ours"]
    row = f"  {count:,} {name}: {verdict}, {taken / 1e6:.2f} ms"
    for peer in ["node", "wabt"]:
        if (path, peer) in best:
            answer, its = best[path, peer]
            row += f"; {peer}: {answer}, {its / 1e6:.2f} ms" + (f", ours is {taken / its:.2f} of it" if answer == "yes" else "")
    print(row)

def keep(count):
    best = None
    for _ in range(5):
        before = resource.getrusage(resource.RUSAGE_CHILDREN).ru_utime
        subprocess.run([driver, "session", str(count)], stdout=subprocess.DEVNULL, check=True)
        taken = resource.getrusage(resource.RUSAGE_CHILDREN).ru_utime - before
        best = taken if best is None else min(best, taken)
    return best

few, many = keep(20_000), keep(40_000)
past |= many > 2.5 * few + 0.05
print(f"the types of 20,000 and of 40,000 modules of one session, all kept: {few:.2f} and {many:.2f} s of processor")
sys.exit(past)
PYTHON
