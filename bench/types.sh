#!/bin/sh
# Seconds and memory of validating modules of many types, the best of five; the status is 1 where one is past its bound:
# - 1,000,000 different function types of three parameters, drawn from five number types and 96 references to the first 48 types;
# - 100,000 such types, each after 256 parameters that all have, so that the map of groups compares long fronts of keys;
# - a group of 100,000 structures, each of which refers to the next one, and the same group again;
# - 1,000,000 assignments from the last to the first of a chain of 64 types, less the time of as many within one type.
set -eu
. "$(dirname "$0")/setup.sh"
. bench/driver.sh
driver=$(build wasm_bench session 0)
# (a process that holds the modules would lend its size to those that it starts)
python3 bench/type_modules.py "$folder"
python3 - "$program" "$driver" "$folder" <<'PYTHON'
import os, subprocess, sys
program, driver, folder = sys.argv[1:]
past = []
def path_of(name):
    return f"{folder}/{name}.wasm"
def seconds(name):
    verdict, taken, _ = subprocess.run([driver, "check", path_of(name), "5"], stdout=subprocess.PIPE, text=True, check=True).stdout.split()
    if verdict != "yes":
        sys.exit(f"{name}: {verdict}")
    return int(taken) / 1e9
def bytes_beyond_input(name):
    child = subprocess.Popen([program, "check", path_of(name)], stdout=subprocess.DEVNULL)
    return os.wait4(child.pid, 0)[2].ru_maxrss * 1024 - os.path.getsize(path_of(name))
def show(what, figure, bound, unit):
    print(f"{what}: {figure:.3g} {unit}, {'within' if figure <= bound else 'PAST'} {bound:g}")
    if figure > bound:
        past.append(what)
show("1,000,000 function types", seconds("functions"), 3, "s")
show("memory beyond the input for each", bytes_beyond_input("functions") / 1_000_000, 320, "bytes")
show("100,000 function types with long equal fronts", seconds("fronts"), 5, "s")
show("a group of 100,000 types, twice", seconds("groups"), 1, "s")
show("1,000,000 subtype tests", max(0, seconds("far") - seconds("near")), 0.1, "s")
sys.exit(bool(past))
PYTHON
