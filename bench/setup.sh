# Sourced first: goes to the root, proves and builds the program `wasm_gen`, and makes a folder for the run.
cd "$(dirname "$0")/.."
./wasm_gen --help > /dev/null
program=$(pwd)/crates/wasm_gen_cli/out/wasm_gen_cli
folder=$(mktemp -d)
trap 'rm -rf "$folder"' EXIT
