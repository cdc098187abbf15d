#!/bin/sh
# Tests the library of crates/desk_c against the program of the same build, in a minute and a half:
#
#     faces/desk_c/test.sh crates/desk_c/out/libdesk_c.a crates/desk_main/out/desk_main
#
# It is linked with the kit's three functions over malloc, realloc and free, which stand beside `rt doc` in c/liblibc_c.a.
# All tests run under valgrind where that is on the machine, but for the one that refuses each call for memory, of which valgrind looks at some.
set -e
here=$(cd "$(dirname -- "$0")" && pwd)
examples=$here/../../examples
library=$1 program=$2 heap=$(dirname "$(rt doc)")/c/liblibc_c.a
work=$(mktemp -d)
trap 'rm -rf "$work"' EXIT
for rules in "$examples"/*.drl; do
    name=$(basename "$rules" .drl)
    "$program" "$rules" < "$examples/$name.jsonl" > "$work/$name.objects" || [ $? -eq 1 ]
    "$program" --text "$rules" < "$examples/$name.jsonl" > "$work/$name.text" || [ $? -eq 1 ]
done
wraps=
for name in malloc realloc free; do
    wraps="$wraps -Wl,--wrap=$name"
done
${CC:-cc} -std=gnu11 -O2 -g -Wall -Wextra -Werror -I"$here" -o "$work/test_desk_c" "$here/tests/test_desk_c.c" "$library" "$heap" -pthread -lm $wraps
${CC:-cc} -Wall -Wextra -Werror -I"$here" -o "$work/example" "$here/example.c" "$library" "$heap" -lm
"$work/example" | cmp - "$here/example.out"
looks=
if command -v valgrind > /dev/null; then
    looks="valgrind -q --error-exitcode=9 --leak-check=full --errors-for-leak-kinds=definite,indirect,possible"
else
    echo 'test.sh: valgrind is not on this machine: the tests run without it' >&2
fi
# Runs tests beside the others; with a fault it leaves a file.
run() {
    how=$1
    shift
    { $how "$work/test_desk_c" "$examples" "$work" "$@" || : > "$work/failed"; } &
}
run '' refused
run "$looks" calls pieces saves
run "$looks" some_refused threads
run "$looks" spoilt
wait
[ ! -e "$work/failed" ]
