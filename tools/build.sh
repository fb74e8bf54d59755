#!/usr/bin/env bash
# Proves and builds the programs and the library for C, and puts them where the other tools look: target/bin and target/staticlib.
# usage: tools/build.sh [study] [archive_check] [flarecomb]    with no name: all three
# A program is run once on its example, and what it writes has to be what crates/NAME/stdout has.
set -euo pipefail
cd "$(dirname "$0")/.."
root=$PWD
[ "$#" -gt 0 ] || set -- study archive_check flarecomb
for name in "$@"; do
    cd "$root/crates/$name"
    mkdir -p out
    case $name in
    study) rt run <stdin 2>out/said | cmp - stdout ;;
    archive_check) rt run -- data/example.feeder data/example.report 2>out/said | cmp - stdout ;;
    flarecomb) rt lib >out/said 2>&1 ;;
    *)
        echo "tools/build.sh: no program or library is called $name" >&2
        exit 2
        ;;
    esac || {
        cat out/said >&2
        exit 1
    }
    rm -f out/said
    if [ "$name" = flarecomb ]; then
        mkdir -p "$root/target/staticlib"
        cp out/libflarecomb.a "$root/target/staticlib/"
    else
        mkdir -p "$root/target/bin"
        cp "out/$name" "$root/target/bin/"
    fi
    echo "$name is proved and built"
done
