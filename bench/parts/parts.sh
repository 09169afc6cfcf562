# shellcheck shell=sh
# What the measures of parts share, to be sourced by them once `top` is the repository's top. It gives `proved`, the built
# program that times the proved parts, `pinned`, the words that keep a command to one processor, and `build_plain`.

proved=$top/crates/dtx_bench/out/dtx_bench
if [ ! -x "$proved" ]; then
    "$top/build" dtx_bench
fi

pinned=
if command -v taskset >/dev/null; then
    # the last core that this process may use
    pinned="taskset -c $(taskset -cp $$ | sed 's/.*[ ,-]//')"
fi

# The kit builds for this processor too, where it builds for x86-64.
processor=
if [ "$(uname -m)" = x86_64 ]; then
    processor='-C target-cpu=x86-64-v2'
fi

# build_plain NAME FLAG..: builds bench/parts/NAME.rs with those flags, for as long as the measure lasts; `plain` is its path.
build_plain() {
    name=$1
    shift
    folder=$(mktemp -d)
    trap 'rm -rf "$folder"' EXIT
    plain=$folder/$name
    rustc --edition 2024 -O -C codegen-units=1 "$@" -o "$plain" "$top/bench/parts/$name.rs"
}
