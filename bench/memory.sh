#!/bin/sh
# Peak memory of `check`, `report` and `generate` where a module or a configuration is as large as its limits allow: that of a process, less what it takes of an
# empty module, and for modules also that of a call of the C library, whose input is in place: how much memory it touches, and how much it has of malloc. A
# process may have 8 GB. The status is 1 where a row is past its bound: for modules twice the input and 100 bytes a definition, or what bench/memory_modules.py
# says of it; for `generate` 250 bytes a definition, 160 for each byte of the seed and twice the module, where a refusal has to be another than `out of memory`,
# except for configurations that ask for 10^10 elements, or for more items of a kind other than types than its limit.
set -eu
. "$(dirname "$0")/setup.sh"
clang -O2 -Wall -Wextra $(./wasm_gen_c --cflags) -o "$folder/peak" bench/peak.c $(./wasm_gen_c --libs)
is_past=0
for command in check report generate; do
    python3 bench/memory_rows.py "$program" "$folder/peak" "$folder" $command || is_past=1
done
exit $is_past
