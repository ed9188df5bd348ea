#!/bin/sh
# Links the program with the usual libraries and with those of this folder, watches both, and packs the second.
#
#     examples/lib/try.sh
#
# The built program is the one that `rt run` in crates/squeeze leaves there, or SQUEEZE where that is set. It needs the
# compiler that Makefile names.
set -eu

SQUEEZE=$(realpath "${SQUEEZE:-$(dirname "$0")/../../crates/squeeze/out/squeeze}")
cd "$(dirname "$0")"
folder=$(mktemp -d)
trap 'rm -rf "$folder"' EXIT
: > "$folder/input"
make -s

# 1,000,000 steps, with 64 KiB of RAM at 0x20010000 for the stack.
machine="1000000 536936448 65536"

echo "usual.elf, watched; the last line:"
"$SQUEEZE" watch usual.elf "$folder/input" $machine > "$folder/usual.watch" || true
tail -n 1 "$folder/usual.watch"
echo "mended.elf, watched; the last line:"
"$SQUEEZE" watch mended.elf "$folder/input" $machine > "$folder/mended.watch"
tail -n 1 "$folder/mended.watch"
echo "mended.elf, packed:"
"$SQUEEZE" pack mended.elf "$folder/packed.elf"
"$SQUEEZE" run mended.elf "$folder/input" $machine > "$folder/before.run"
"$SQUEEZE" run "$folder/packed.elf" "$folder/input" $machine > "$folder/after.run"
cmp "$folder/before.run" "$folder/after.run"
echo "run: both print the same $(wc -l < "$folder/after.run") lines"
