# Sourced at the root by the scripts that time calls in one process. build PROGRAM WORDS..: proves and builds the crate PROGRAM where it isn't built for this
# source, and runs it once on these words; then prints the program's path.
PATH=$PATH:/opt/rattle/bin
build() (
    name=$1
    shift
    out=$PWD/crates/$name/out
    sum=$(tools/source_sum)
    if [ ! -x "$out/$name" ] || [ "$(cat "$out/source.sum" 2> /dev/null)" != "$sum" ]; then
        tools/prove "$name"
        cd "crates/$name"
        rt run -- "$@" > /dev/null 2> out/run.log || { tail -n 20 out/run.log >&2; exit 1; }
        echo "$sum" > out/source.sum
    fi
    echo "$out/$name"
)
