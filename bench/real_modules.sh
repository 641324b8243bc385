#!/bin/sh
# Compares the payloads of modules that clang, rustc and Go make with those that wasm-objdump prints: the kind, place and count of each section, and the
# names of custom ones. The places must join without a gap, those of bodies too, up to the end of the file, and `wasm_gen check` must say `yes`, or
# `no operator` of a body. Needs Debian's clang, lld, rustc, libstd-rust-dev-wasm32, golang-go and wabt, and says which is missing; the status is 1 where
# a module differs or is refused otherwise.
set -eu
for tool in clang wasm-ld /usr/bin/rustc /usr/bin/go wasm-objdump; do
    command -v "$tool" > /dev/null || { echo "$tool is missing: apt-get install clang lld rustc libstd-rust-dev-wasm32 golang-go wabt"; exit 2; }
done
. "$(dirname "$0")/setup.sh"
. bench/driver.sh
driver=$(build wasmparser_parse_bench /dev/null 0)
cat > "$folder/small.c" <<'SOURCE'
__attribute__((import_module("env"), import_name("log"))) void print(int);
static int table[64];
const char text[] = "hello, world";
static int twice(int x) { return 2 * x; }
static int half(int x) { return x / 2; }
int (*volatile choice)(int) = twice;
int fib(int n) { return n < 2 ? n : fib(n - 1) + fib(n - 2); }
__attribute__((export_name("run"))) int run(int n) {
    for (int i = 0; i < 64; i++) table[i] = fib(i % 10) + text[i % 12];
    if (n > 3) choice = half;
    print(table[n & 63]);
    return choice(table[n & 63]);
}
SOURCE
cat > "$folder/words.rs" <<'SOURCE'
use std::collections::HashMap;

fn main() {
    let mut counts: HashMap<String, usize> = HashMap::new();
    for word in std::env::args().skip(1) {
        *counts.entry(word).or_default() += 1;
    }
    println!("{counts:?}");
}
SOURCE
cat > "$folder/hello.go" <<'SOURCE'
package main

import "fmt"

func main() { fmt.Println("hello", len(fmt.Sprint(1, 2, 3))) }
SOURCE
(
    cd "$folder"
    clang --target=wasm32 -O1 -c small.c -o small.o
    wasm-ld --no-entry --export-dynamic small.o -o clang.wasm
    clang --target=wasm32 -O1 -mbulk-memory -mreference-types -g -c small.c -o debug.o
    wasm-ld --no-entry --export-dynamic --shared-memory --no-check-features debug.o -o clang-debug.wasm
    /usr/bin/rustc --target wasm32-unknown-unknown -O words.rs -o rustc.wasm
    HOME="$folder" GOOS=js GOARCH=wasm /usr/bin/go build -o go.wasm hello.go
)
python3 - "$driver" "$program" "$folder" small.o clang.wasm debug.o clang-debug.wasm rustc.wasm go.wasm <<'PYTHON'
import re, subprocess, sys

driver, program, folder, *names = sys.argv[1:]


def lines_of(*command):
    return subprocess.run(command, capture_output=True, check=True, text=True, errors="replace").stdout.splitlines()


def sections_told(path):
    """Returns the kind, the place, and the count or name of each section, as wasm-objdump prints them."""
    row = re.compile(r' *(\w+) start=(\w+) end=(\w+) \(size=\w+\) (?:count: (\d+)|start: (\d+)|"(.*)")$')
    found = [row.match(it) for it in lines_of("wasm-objdump", "-h", path)]
    return [(it[1], int(it[2], 16), int(it[3], 16), it[4] or it[5] or it[6] or "") for it in found if it]


def payloads_told(path):
    found = [it.split(" ", 3) for it in lines_of(driver, path, "show")]
    return [(kind, int(start), int(end), rest) for kind, start, end, rest in found]


def length_of_number(data, at):
    length = 1
    while data[at + length - 1] & 128:
        length += 1
    return length


def has_gap(data, payloads):
    """Returns whether the payloads' places leave a byte out: before each content stand an id and a size, before each body a size."""
    at = 0
    for kind, start, end, _ in payloads:
        before = 0 if kind in ("Version", "End") else length_of_number(data, at + (kind != "body")) + (kind != "body")
        if start != at + before:
            return True
        # (the places of bodies lie in that of their section, after their number)
        at = start + length_of_number(data, start) if kind == "Code" else end
    return at != len(data)


def verdict(path):
    return subprocess.run([program, "check", path], capture_output=True, text=True).stdout.strip()


failed = False
for name in names:
    path = f"{folder}/{name}"
    with open(path, "rb") as it:
        data = it.read()
    payloads = payloads_told(path)
    sections = [it for it in payloads if it[0] not in ("Version", "body", "End")]
    is_same = sections == sections_told(path) and not has_gap(data, payloads)
    bodies = sum(it[0] == "body" for it in payloads)
    answer = verdict(path)
    failed |= not is_same or not answer.startswith(("yes", "no operator"))
    said = "as wasm-objdump prints them" if is_same else "DIFFERENT"
    print(f"{name}: {len(data)} bytes, {len(sections)} sections, {bodies} bodies: {said}; check: {answer}")
sys.exit(failed)
PYTHON
