#!/usr/bin/env bash
# Builds the static library (tools/build.sh) and the examples in C, Python and Rust, runs them and compares what they write; installs into a folder and builds
# the example from there. Python and Rust are left out where there is no python3 or rustc. All that it makes besides the library stands in target/c.
set -euo pipefail
cd "$(dirname "$0")/.."

bash tools/build.sh flarecomb
mkdir -p target/c
compiler=${CC:-cc}
library=target/staticlib/libflarecomb.a
# the header by itself, by the oldest standard
"$compiler" -Wall -Wextra -Werror -std=c90 -pedantic -fsyntax-only -x c c/flarecomb.h
"$compiler" -Wall -Wextra -Werror -std=c99 -Ic -o target/c/example c/example.c "$library"

# the header's version is that of VERSION
version=$(cat VERSION)
told=$(printf '#include "flarecomb.h"\nFLARECOMB_VERSION\n' | "$compiler" -E -P -Ic -x c - | tail -n 1)
if [ "$told" != "\"$version\"" ]; then
    echo "FLARECOMB_VERSION is $told, and VERSION has $version" >&2
    exit 1
fi

# try STATUS EXPECTED ARGUMENTS..: the example, a command in `example`, ends with that status and writes what is in the file EXPECTED to standard output
try() {
    local status=$1 expected=$2 got=0
    shift 2
    "${example[@]}" "$@" >target/c/got 2>target/c/told || got=$?
    if [ "$got" -ne "$status" ]; then
        echo "${example[*]} $*: ended with $got, not $status" >&2
        exit 1
    fi
    cmp "$expected" target/c/got
}

length=$(wc -c <examples/example.report)
# the row of the totals begins with the sweeps
sweeps=$(grep -A1 '^sweeps,' examples/example.report | tail -n 1 | cut -d , -f 1)
: >target/c/empty.feeder

# what every example must do
try_all() {
    # the report, its sweeps, and its pass
    { cat examples/example.report; echo "sweeps $sweeps"; echo pass; } >target/c/expected
    try 0 target/c/expected examples/example.feeder
    # a buffer of just the report's length
    try 0 target/c/expected examples/example.feeder "$length"
    # one byte less, and none: 40 with the length needed
    echo "refused 40 $length" >target/c/expected
    try 1 target/c/expected examples/example.feeder "$((length - 1))"
    try 1 target/c/expected examples/example.feeder 0
    echo "the report has $length bytes" | cmp - target/c/told
    # an empty feeder: 10 at line 1
    echo "refused 10 1" >target/c/expected
    try 1 target/c/expected target/c/empty.feeder
    # a file that is not there, and a length that is none
    try 2 /dev/null target/c/missing.feeder
    try 2 /dev/null examples/example.feeder 65537
    try 2 /dev/null examples/example.feeder x
}

# standard output that takes nothing: told on standard error, with a status of its own
try_full() {
    local feeder got
    for feeder in examples/example.feeder target/c/empty.feeder; do
        got=0
        "${example[@]}" "$feeder" >/dev/full 2>target/c/told || got=$?
        if [ "$got" -ne 3 ] || ! grep -q '^standard output: ' target/c/told; then
            echo "${example[*]} $feeder to a full device: ended with $got" >&2
            exit 1
        fi
    done
}

example=(target/c/example)
try_all
try_full
echo "c example: ok"

# installed into a folder with a blank in its name
rm -rf "target/c/a prefix"
bash c/install.sh "target/c/a prefix" >target/c/told
prefix=$PWD/target/c/a\ prefix
for file in include/flarecomb.h lib/libflarecomb.a lib/pkgconfig/flarecomb.pc; do
    [ -s "$prefix/$file" ] || { echo "not installed: $file" >&2; exit 1; }
done
if command -v pkg-config >/dev/null; then
    export PKG_CONFIG_PATH=$prefix/lib/pkgconfig
    [ "$(pkg-config --modversion flarecomb)" = "$version" ] || { echo "flarecomb.pc has another version" >&2; exit 1; }
    # pkg-config writes the flags as words for a shell
    eval "flags=($(pkg-config --cflags --libs flarecomb))"
else
    echo "pkg-config: not found, flarecomb.pc is not tried"
    flags=("-I$prefix/include" "-L$prefix/lib" -lflarecomb)
fi
"$compiler" -Wall -Wextra -Werror -std=c99 -o target/c/installed c/example.c "${flags[@]}"
example=(target/c/installed)
try_all
echo "installed: ok"

# Python, over a shared library made of the whole archive
if command -v python3 >/dev/null; then
    "$compiler" -shared -o target/c/libflarecomb.so -Wl,--whole-archive "$library" -Wl,--no-whole-archive
    example=(python3 c/example.py "$PWD/target/c/libflarecomb.so")
    try_all
    echo "python example: ok"
else
    echo "python3: not found, its example is left out"
fi

# Rust
if command -v rustc >/dev/null; then
    rustc --edition 2021 -D warnings -O -L target/staticlib -l static=flarecomb -o target/c/example_rust c/example.rs
    example=(target/c/example_rust)
    try_all
    try_full
    echo "rust example: ok"
else
    echo "rustc: not found, its example is left out"
fi
