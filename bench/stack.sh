#!/bin/sh
# Prints the deepest stack of each export of libtsaghnobir.a and of clampcheck (its `main`), in bytes: frame sizes along the calls, read from the
# compiled code by stack.py. The kit's compiler disassembles under another name, so nothing is installed.
#   bench/stack.sh [all]            the exports and the program as they are now (all: every function that was compiled)
#   bench/stack.sh [all] FILE..     another archive or object file, such as that of another commit
set -eu
cd "$(dirname "$0")/.."

all=
if [ "${1-}" = all ]; then
    all=all
    shift
fi
if [ $# -eq 0 ]; then
    set -- target/staticlib/libtsaghnobir.a target/stack/clampcheck.o
    tools/archive.sh
    python3 -B tools/compile.py clampcheck "$2"
fi
exec python3 -B bench/stack.py "$(dirname "$(rt doc)")/toolchain/bin/clang" $all "$@"
