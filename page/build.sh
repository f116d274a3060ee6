#!/bin/sh
# Builds target/page/clampcheck.html, the page with everything in it: has the library and clampcheck proved by the kit, compiles the same
# modules for WebAssembly with the kit's own compiler, and packs them with the page's sources.
#   page/build.sh         builds it
#   page/build.sh keep    and puts it in the place of page/clampcheck.html, the one that members open
set -eu
cd "$(dirname "$0")/.."
case ${1-} in '' | keep) ;; *) sed -n '4,5s/^# *//p' "$0" >&2; exit 2 ;; esac
kit=$(dirname "$(rt doc)")/toolchain/bin
made=target/page
entry='clampcheck::main+start' # where the program begins, behind what C does for it on Linux
mkdir -p "$made"

# the kit's compiler for a 64-bit memory, in which everything lies as on x86-64; behind the target the words that the kit itself gives it
wide() {
    "$kit/clang" --target=wasm64-unknown-unknown -mcpu=lime1 -mllvm -expand-div-rem-bits=64 -mllvm -expand-fp-convert-bits=64 \
        -ffunction-sections -fdata-sections -mllvm -trap-unreachable -mllvm -disable-machine-licm -mllvm -disable-postra-machine-licm \
        -mllvm -sink-common-insts=false --no-default-config -Wno-override-module "$@" 2>"$made/clang.log" || { cat "$made/clang.log" >&2; exit 1; }
}

# compiles a module in words and makes its memory one of 32 bits, which every browser has: the file, and words for the linker
compile() {
    file=$1
    shift
    wide -O3 -c -x ir "$made/$file.ll" -o "$made/$file.o"
    "$kit/ld.lld" -flavor wasm -mwasm64 --no-entry --stack-first -z stack-size=131072 --strip-all "$@" "$made/$file.o" -o "$made/$file.wide.wasm"
    python3 -B page/narrow.py "$made/$file.wide.wasm" "$made/$file.wasm"
}

tools/module.sh tsaghnobir_c
tools/module.sh clampcheck
wide -S -emit-llvm -Xclang -disable-llvm-passes -x ir target/module/tsaghnobir_c.bc -o "$made/library.ll"
wide -S -emit-llvm -Xclang -disable-llvm-passes -x ir target/module/clampcheck.bc -o "$made/program.ll"
sed "s/^define internal \(.*@\"$entry\"()\)/define \1/" "$made/program.ll" >"$made/clampcheck.ll" # so that it can be called from outside
compile library --export-dynamic --export=__heap_base
compile clampcheck "--export=$entry" --allow-undefined
python3 page/pack.py "$made/library.wasm" "$made/clampcheck.wasm" "$made/clampcheck.html"
ls -l "$made/library.wasm" "$made/clampcheck.wasm" "$made/clampcheck.html" | awk '{ print $NF ": " $5 " bytes" }'
if [ "${1-}" = keep ]; then cp "$made/clampcheck.html" page/clampcheck.html; fi
