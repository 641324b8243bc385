#!/bin/sh
# Makes modules of 10,000 random seeds of 0 to 5,000 bytes by `wasm_gen generate`, and judges them by `wasm_gen check`: each must be a yes. Then makes
# modules of 400 random seeds of 1,000 bytes, and counts those that are empty, those that have functions, and the others.
set -eu
. "$(dirname "$0")/setup.sh"
cd "$folder"
python3 - "$program" <<'PYTHON'
import random, subprocess, sys
program = sys.argv[1]
def made(seeds):
    """Makes a module of each seed, and returns the files' names and the verdicts."""
    names = []
    for i, seed in enumerate(seeds):
        with open("seed", "wb") as file:
            file.write(seed)
        names.append(f"{i}.wasm")
        with open(names[-1], "wb") as module:
            subprocess.run([program, "generate", "seed"], stdout=module, check=True)
    return names, subprocess.run([program, "check", *names], capture_output=True, text=True).stdout.splitlines()
def counts(verdict):
    return {name: int(count) for name, count in (word.split("=") for word in verdict.split()[1:])}
drawn = random.Random(11)
count, yes, types, functions = 10_000, 0, 0, 0
for _ in range(0, count, 500):
    seeds = (drawn.randbytes(drawn.randrange(5001)) for _ in range(500))
    for name, verdict in zip(*made(seeds), strict=True):
        if verdict.startswith("yes"):
            yes += 1
            types += counts(verdict)["types"]
            functions += counts(verdict)["functions"]
        else:
            print(name, verdict)
print(f"{count} seeds, {yes} yes, {types} types and {functions} functions in all")
drawn = random.Random(1)
empty = with_functions = 0
for name, verdict in zip(*made(drawn.randbytes(1000) for _ in range(400)), strict=True):
    with open(name, "rb") as file:
        empty += len(file.read()) == 8
    with_functions += counts(verdict)["functions"] > 0
print(f"400 seeds of 1,000 bytes: {empty} make the empty module, {with_functions} have functions, {400 - empty - with_functions} others")
sys.exit(yes != count)
PYTHON
