#!/bin/sh
# Keeps the module that the kit hands to its compiler, for whoever compiles the proved code for another machine than x86-64 Linux:
#
#   tools/module.sh CRATE    proves and compiles the archive's crate or a program (tools/compile.py), and keeps its module
#
# The module is target/module/CRATE.bc; one that is newer than all that it is made of is left as it is. The kit itself is not touched: a
# folder outside this repository stands in for its toolchain, with a compiler that copies what it is given before it goes on.
set -eu
cd "$(dirname "$0")/.."
[ $# -eq 1 ] || { sed -n '2,7s/^# \{0,1\}//p' "$0" >&2; exit 2; }
crate=$1
toolchain=$(dirname "$(rt doc)")/toolchain
kept=$PWD/target/module
instead=$(mktemp -d)
trap 'rm -rf "$instead"' EXIT

mkdir -p "$kept" "$instead/bin"
ln -s "$toolchain/lib" "$instead/lib"
for part in "$toolchain/bin"/*; do [ "${part##*/}" = clang ] || ln -s "$part" "$instead/bin/"; done
cat >"$instead/bin/clang" <<END
#!/bin/sh
for word in "\$@"; do case \$word in *.bc) cp "\$word" "$kept/$crate.bc" ;; esac; done
exec "$toolchain/bin/clang" "\$@"
END
chmod +x "$instead/bin/clang"

# what is compiled here serves to tell whether the module is still new
[ -f "$kept/$crate.bc" ] || rm -f "$kept/$crate.made"
python3 -B tools/compile.py "$crate" "$kept/$crate.made" "$instead" >&2
chmod u+rw "$kept/$crate.bc"
