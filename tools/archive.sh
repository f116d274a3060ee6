#!/bin/sh
# Builds target/staticlib/libtsaghnobir.a, the archive for callers in C, of the crate tsaghnobir_c. One that is newer than all that it is made of is left as it is.
set -eu
cd "$(dirname "$0")/.."
exec python3 -B tools/compile.py tsaghnobir_c target/staticlib/libtsaghnobir.a
