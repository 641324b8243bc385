#!/bin/sh
# Makes modules of several MB of code in the folder FOLDER, by Debian's compilers, optimised and stripped, and writes a line for each to FOLDER/names, its name
# and a description: bench/code_modules.sh FOLDER. They are wasi-libc linked whole, a program of 4,000 functions in C with it, std of Rust linked whole, a
# program of many generic instances in Rust, and a program in Go that uses large packages of its library. Where a compiler is missing it says so, and leaves its
# modules out. Those in C take a minute or two on four processors, and Go's as long where its library isn't compiled for `js` yet.
set -eu
parts=$(cd "$(dirname "$0")/code_modules" && pwd)
mkdir -p "$1"
cd "$1"
: > names

# has PACKAGES TOOL..: tests that these tools are installed, and names the packages where one is missing.
has() {
    packages=$1
    shift
    for tool in "$@"; do
        [ -e "$tool" ] || command -v "$tool" > /dev/null || { echo "$tool is missing: apt-get install $packages" >&2; return 1; }
    done
}

# made NAME DESCRIPTION..: adds a module to the names.
made() {
    echo "$@" >> names
}

# Each part of the program in C is compiled in a process of its own.
in_c() {
    c='clang-14 --target=wasm32-wasi -O2 -w'
    link='-Wl,--export-all -Wl,--strip-all'
    echo 'int main(void) { return 0; }' > main.c
    $c main.c -Wl,--whole-archive -lc -lm -Wl,--no-whole-archive $link -o libc.wasm
    made libc wasi-libc, linked whole
    for part in 1 2 3 4; do
        python3 "$parts/functions.py" 1000 $part > part$part.c
        $c -c part$part.c -o part$part.o &
        compilers="${compilers:-} $!"
    done
    for compiler in $compilers; do
        wait "$compiler"
    done
    $c main.c part?.o -lm $link -o c.wasm
    made c 4,000 functions in C, by clang
}

# (an archive of Rust holds a file that isn't an object, so its objects are linked one by one; of the two ways to panic there may be one)
in_rust() {
    library=$(/usr/bin/rustc --print sysroot)/lib/rustlib/wasm32-unknown-unknown/lib
    mkdir std
    (
        cd std
        for archive in "$library"/*.rlib; do
            ar x "$archive"
        done
        rm -f panic_unwind-*.o
        wasm-ld --no-entry --no-gc-sections --export-all --strip-all --allow-undefined ./*.o -o ../std.wasm
    )
    made std std of Rust, linked whole
    /usr/bin/rustc --target wasm32-unknown-unknown --edition 2021 --crate-type cdylib -O -C strip=symbols "$parts/instances.rs" -o rust.wasm
    made rust generic instances in Rust, by rustc
}

in_go() {
    HOME=$(pwd) GOOS=js GOARCH=wasm /usr/bin/go build -ldflags=-s -o go.wasm "$parts/packages.go"
    made go packages of the library, by Go
}

if has 'clang-14 wasi-libc libclang-rt-14-dev-wasm32 lld' clang-14 wasm-ld-14 /usr/lib/wasm32-wasi/libc.a \
    /usr/lib/llvm-14/lib/clang/*/lib/wasi/libclang_rt.builtins-wasm32.a; then
    in_c
fi
if has 'rustc libstd-rust-dev-wasm32 lld binutils' /usr/bin/rustc /usr/lib/rustlib/wasm32-unknown-unknown wasm-ld ar; then
    in_rust
fi
if has 'golang-go' /usr/bin/go; then
    in_go
fi
