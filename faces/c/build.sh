#!/bin/sh
# Makes libsozhipen.so and libsozhipen.a of the object file of the program `desk`:
#
#     faces/c/build.sh crates/desk_main/out/desk_main.o OUT_FOLDER
#
# What the program calls of the machine gets other names (names.txt), which the files of this folder have. Nothing of the program is changed.
set -e
here=$(dirname -- "$0")
program=$1 out=$2
work=$(mktemp -d)
trap 'rm -rf "$work"' EXIT
objcopy --redefine-syms="$here/names.txt" "$program" "$work/program.o"
for name in szp machine memory stack; do
    ${CC:-cc} -std=gnu11 -O2 -Wall -Wextra -Werror -fPIC -fcf-protection=none -ffile-prefix-map="$here"=. -c "$here/$name.c" -o "$work/$name.o"
    set -- "$@" "$work/$name.o"
done
shift 2
${CC:-cc} -shared -o "$out/libsozhipen.so" "$@" "$work/program.o" \
    -Wl,--gc-sections,--version-script="$here/exports.map",-soname,libsozhipen.so,-z,noexecstack,-z,defs,--build-id=none,-s
ld -r -o "$work/whole.o" "$@" "$work/program.o"
sed -n 's/;/\n/gp' "$here/exports.map" | tr -d ' ' | grep '^szp_' > "$work/names"
objcopy --keep-global-symbols="$work/names" "$work/whole.o"
rm -f "$out/libsozhipen.a"
ar rcsD "$out/libsozhipen.a" "$work/whole.o"
