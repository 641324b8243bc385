#!/bin/sh
# Calls a second of the static library in one process, by the time of one processor: `check` of the header alone and of modules of 1 KB, `generate` of seeds
# of 1,000 bytes, and both in turn. Beside them the shortest time of `check` from Rust, and node's `WebAssembly.validate` in a loop, where node is installed.
# The status is 1 where a row is past its bound.
set -eu
cd "$(dirname "$0")/.."
folder=$(mktemp -d)
trap 'rm -rf "$folder"' EXIT
. bench/driver.sh
driver=$(build wasm_bench session 0)
clang -O2 -Wall -Wextra $(./wasm_gen_c --cflags) -o "$folder/harness" bench/harness.c $(./wasm_gen_c --libs)
is_slow=0
"$folder/harness" "$folder" || is_slow=1
echo "check of this module from Rust, the shortest time of a call: $("$driver" check "$folder/code.wasm" 200000 | tail -n 1)"
if command -v node > /dev/null; then
    node bench/harness.js "$folder/code.wasm"
fi
exit $is_slow
