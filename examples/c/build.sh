#!/bin/sh
# Builds libtsaghnobir.a and a C program over include/tsaghnobir.h, with the kit's own clang, linker and C library.
#   examples/c/build.sh                       builds examples/c/tour.c to target/c/tour
#   examples/c/build.sh run                   builds and runs it
#   examples/c/build.sh [run] NAME FILE.c ..  the same for another program, to target/c/NAME
# With another compiler no script is needed: tools/archive.sh, then cc -Iinclude FILE.c target/staticlib/libtsaghnobir.a
set -eu
cd "$(dirname "$0")/../.."

run=no
if [ "${1-}" = run ]; then
    run=yes
    shift
fi
name=${1-tour}
if [ $# -ge 2 ]; then shift; else set -- examples/c/tour.c; fi

guide=$(rt doc)
kit=$(dirname "$guide")
archive=target/staticlib/libtsaghnobir.a
tools/archive.sh
mkdir -p target/c
objects=
for file in "$@"; do
    object=target/c/$name-$(basename "$file" .c).o
    # the kit has a C library and no headers of it: those in examples/c/libc declare what the programs here use; the processor is the one that the archive needs
    "$kit/toolchain/bin/clang" --target=x86_64-linux-gnu -march=x86-64-v2 -std=c99 -Wall -Wextra -O2 -ffp-contract=off -fPIE \
        -nostdinc -isystem examples/c/libc -Iinclude -c "$file" -o "$object"
    objects="$objects $object"
done
# shellcheck disable=SC2086
"$kit/bin/rattle-link" --target x86_64-unknown-linux-gnu --toolchain "$kit/toolchain" -o "target/c/$name" $objects "$archive" 2>target/c/link.log ||
    { cat target/c/link.log >&2; exit 1; }

if [ "$run" = yes ]; then exec "target/c/$name"; fi
