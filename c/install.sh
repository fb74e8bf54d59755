#!/usr/bin/env bash
# install.sh PREFIX: puts the header, the static library and a file for pkg-config into the folder PREFIX, which is made where it is missing:
#   PREFIX/include/flarecomb.h, PREFIX/lib/libflarecomb.a, PREFIX/lib/pkgconfig/flarecomb.pc
# The library must stand built in target/staticlib (bash tools/build.sh flarecomb). Nothing else is touched, so that a PREFIX of one's own needs no root.
set -euo pipefail
if [ $# -ne 1 ] || [ -z "$1" ]; then
    echo "usage: install.sh PREFIX" >&2
    exit 2
fi
root=$(cd "$(dirname "$0")/.." && pwd)
library=$root/target/staticlib/libflarecomb.a
if [ ! -f "$library" ]; then
    echo "target/staticlib/libflarecomb.a is missing: run 'bash tools/build.sh flarecomb' first" >&2
    exit 1
fi
mkdir -p -- "$1"
prefix=$(cd -- "$1" && pwd)
version=$(cat "$root/VERSION")

install -d -- "$prefix/include" "$prefix/lib/pkgconfig"
install -m 644 -- "$root/c/flarecomb.h" "$prefix/include/flarecomb.h"
install -m 644 -- "$library" "$prefix/lib/libflarecomb.a"
# pkg-config takes a blank in a folder's name where a backslash stands before it
cat >"$prefix/lib/pkgconfig/flarecomb.pc" <<END
prefix=${prefix// /\\ }
includedir=\${prefix}/include
libdir=\${prefix}/lib

Name: flarecomb
Description: Feeder study and archive check
Version: $version
Cflags: -I\${includedir}
Libs: -L\${libdir} -lflarecomb
END
echo "flarecomb $version: $prefix"
