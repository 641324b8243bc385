#!/bin/sh
# Modules/s and MB/s of seed of `generate`, for seeds of 1,000 and 10,000 bytes, many in one process: of odd bytes, where all that is asked is a yes, so that
# as much is made as there may be or the seed has bytes for, and of random bytes, where growing ends at the first even byte. Random seeds of 1,000 bytes are to
# make 50,000 modules/s. Then, with garbage collection, the time for each of 10,000 types in groups of 1, of 100 and of 10,000: none is to take more than 5 times
# as long as another. The status is 1 where something takes longer.
set -eu
. "$(dirname "$0")/setup.sh"
. bench/driver.sh
driver=$(build wasm_bench session 0)
python3 bench/generate_times.py "$driver" "$folder"
