#!/bin/sh
# MB/s and items/s of going over all payloads of a module of 64 MiB, and over all items of its sections, for a module of each kind of section. A
# program reads the file and goes over it once, or nine times; the eighth part of the difference counts, the best of five. Each is to reach 500 MB/s, or
# 50,000,000 items/s where items are short, but for types, whose lists take memory; the status is 1 where one doesn't.
set -eu
cd "$(dirname "$0")/.."
folder=$(mktemp -d)
trap 'rm -rf "$folder"' EXIT
. bench/driver.sh
driver=$(build wasmparser_parse_bench /dev/null 0)
python3 - "$driver" "$folder" <<'PYTHON'
import subprocess, sys, time
driver, folder = sys.argv[1:]
size = 64 << 20
header = b"\0asm\1\0\0\0"
def number(n):
    out = bytearray()
    while n > 127:
        out.append(n & 127 | 128)
        n >>= 7
    out.append(n)
    return bytes(out)
def section(id, content):
    return bytes([id]) + number(len(content)) + content
def repeated(id, item):
    count = size // len(item)
    return section(id, number(count) + item * count)
def bodies(body):
    count = size // (1 + len(body))
    return section(3, number(count) + b"\0" * count) + section(10, number(count) + (number(len(body)) + body) * count)
name = b"\5names"
modules = {
    "imports": lambda: repeated(2, b"\3env" + name + b"\0\5"),
    "functions": lambda: repeated(3, b"\5"),
    "functions of two bytes": lambda: repeated(3, b"\x85\1"),
    "globals with constants": lambda: repeated(6, b"\x7f\0\x41\x2a\x0b"),
    "exports": lambda: repeated(7, name + b"\0\5"),
    "elements": lambda: repeated(9, b"\0\x41\0\x0b\x10" + b"\1" * 16),
    "data": lambda: repeated(11, b"\0\x41\0\x0b\x10" + b"\1" * 16),
    "bodies": lambda: bodies(b"\0" * 14 + b"\x0b"),
    "types": lambda: repeated(1, b"\x60\2\x7f\x7e\1\x7d"),
}
def run(path, times):
    begin = time.perf_counter()
    child = subprocess.Popen([driver, path, str(times)], stdout=subprocess.PIPE)
    answer = child.stdout.read().decode().split()
    if child.wait():
        sys.exit(f"{path}: status {child.returncode}")
    return time.perf_counter() - begin, int(answer[0])
past = False
for kind, sections in modules.items():
    path = f"{folder}/module.wasm"
    with open(path, "wb") as module:
        bytes_in_all = module.write(header + sections())
    once = min(run(path, 1)[0] for _ in range(5))
    taken, count = min(run(path, 9) for _ in range(5))
    each = (taken - once) / 8
    speed, items = bytes_in_all / each / 1e6, count / each / 1e6
    is_within = kind == "types" or speed >= 500 or items >= 50
    past = past or not is_within
    print(f"{kind}: {speed:.0f} MB/s, {items:.1f} million items/s{'' if is_within else ', PAST'}")
sys.exit(past)
PYTHON
