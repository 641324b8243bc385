#!/bin/sh
# MB/s of writing and reading 65,536 numbers in LEB128, of one byte each and of any length, the best of 99; beside them the same loops in Rust
# (`rustc -O`). Each is to reach 250 MB/s; the status is 1 where one doesn't.
set -eu
cd "$(dirname "$0")/.."
folder=$(mktemp -d)
trap 'rm -rf "$folder"' EXIT
. bench/driver.sh
driver=$(build wasm_bench session 0)
rustc --edition 2024 -O bench/leb128/main.rs -o "$folder/leb128"
python3 - "$driver" "$folder/leb128" <<'PYTHON'
import subprocess, sys
ours, rust = [sys.argv[1], "numbers"], [sys.argv[2]]
is_slow = False
def rates(program, kind, form):
    words = subprocess.run([*program, kind, form, "65536", "99"], stdout=subprocess.PIPE, text=True, check=True).stdout.split()
    return int(words[0]), [int(words[0]) * 1000 / int(it) for it in (words[2], words[4])]
for kind in ("u32", "s64"):
    for form in ("short", "long"):
        (length, here), (same, there) = rates(ours, kind, form), rates(rust, kind, form)
        if length != same:
            sys.exit(f"{kind}, {form}: {length} bytes here and {same} in Rust")
        for what, speed, other in zip(("write", "read"), here, there):
            is_slow |= speed < 250
            print(f"{what} {kind}, {form}: {speed:.0f} MB/s; in Rust {other:.0f} MB/s")
sys.exit(is_slow)
PYTHON
