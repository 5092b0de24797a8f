#!/bin/sh
# Links libcozgelt.a and libcozgelt.so in a folder, of the proved static library and of the kit's calls of malloc. Only names that
# begin with cozgelt_ can be seen in them. The Makefile calls it, and so do checks, since not every machine has `make`.
#
#     bindings/c/link.sh OUT PROVED HEAP SONAME
set -e
out=$1 proved=$2 heap=$3 soname=$4
mkdir -p "$out"
${CC:-cc} -shared -o "$out/$soname" -Wl,--whole-archive "$proved" -Wl,--no-whole-archive "$heap" \
    -Wl,-soname,"$soname" -Wl,--version-script="$(dirname "$0")/cozgelt.map" -Wl,-z,defs,-z,relro,-z,now
ln -sf "$soname" "$out/libcozgelt.so"
# one object, in which all other names are local
${LD:-ld} -r -o "$out/cozgelt.o" --whole-archive "$proved" --no-whole-archive "$heap"
objcopy --wildcard --keep-global-symbol='cozgelt_*' "$out/cozgelt.o"
rm -f "$out/libcozgelt.a"
${AR:-ar} rcsD "$out/libcozgelt.a" "$out/cozgelt.o"
