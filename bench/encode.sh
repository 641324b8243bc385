#!/bin/sh
# MB/s and millions of items/s of encoding a section of 1,000,000 items of each kind, and a code section of 64 MiB of raw bodies, each into bytes that grow
# once, the best of nine. Beside it the same bytes written by a loop in Rust (`rustc -O`) that appends as items are added. Each kind is to reach 300 MB/s or
# 50 million items/s, function types 150 MB/s, and bodies half of the speed of a copy; the status is 1 where one doesn't.
set -eu
cd "$(dirname "$0")/.."
folder=$(mktemp -d)
trap 'rm -rf "$folder"' EXIT
. bench/driver.sh
driver=$(build wasm_bench session 0)
rustc --edition 2024 -O bench/encode/main.rs -o "$folder/append"
python3 - "$driver" "$folder/append" <<'PYTHON'
import subprocess, sys
ours, rust = [sys.argv[1], "encode"], [sys.argv[2]]
slow = []
def told(program, kind, count):
    words = subprocess.run([*program, kind, str(count), "9"], stdout=subprocess.PIPE, text=True, check=True).stdout.split()
    return int(words[0]), int(words[2])
def rates(length, count, taken):
    return f"{length * 1000 / taken:.0f} MB/s, {count * 1000 / taken:.0f} million items/s"
copied = told(rust, "copy", 65_536)
for kind in ("types", "imports", "functions", "tables", "memories", "tags", "globals", "exports", "elements", "data", "bodies"):
    count = 65_536 if kind == "bodies" else 1_000_000
    (length, taken), (same, appended) = told(ours, kind, count), told(rust, kind, count)
    if length != same:
        sys.exit(f"{kind}: {length} bytes here and {same} in Rust")
    print(f"{kind}: {rates(length, count, taken)}; in Rust {rates(same, count, appended)}")
    if kind == "bodies":
        print(f"a copy: {copied[0] * 1000 / copied[1]:.0f} MB/s")
        is_slow = length / taken < copied[0] / copied[1] / 2
    else:
        is_slow = length * 1000 / taken < (150 if kind == "types" else 300) and count * 1000 / taken < 50
    slow += [kind] * is_slow
print("slow:", " ".join(slow) or "none")
sys.exit(bool(slow))
PYTHON
