#!/bin/sh
# Packs the meter, runs the file before and after, watches it, and shows the sizes.
#
#     examples/meter/try.sh
#
# The built program is the one that `rt run` in crates/squeeze leaves there, or SQUEEZE where that is set. No compiler
# is needed: meter.elf is here.
set -eu

SQUEEZE=$(realpath "${SQUEEZE:-$(dirname "$0")/../../crates/squeeze/out/squeeze}")
cd "$(dirname "$0")"
folder=$(mktemp -d)
trap 'rm -rf "$folder"' EXIT
: > "$folder/input"

# 1,000,000 steps, with 64 KiB of RAM at 0x20010000 for the stack.
machine="1000000 536936448 65536"

echo "pack:"
"$SQUEEZE" pack meter.elf "$folder/packed.elf"
for file in meter.elf "$folder/packed.elf"; do
    "$SQUEEZE" run "$file" "$folder/input" $machine > "$folder/$(basename "$file").run"
done
cmp "$folder/meter.elf.run" "$folder/packed.elf.run"
echo "run: both print the same $(wc -l < "$folder/meter.elf.run") lines; the last one:"
tail -n 1 "$folder/meter.elf.run"
echo "watch of the original; the last line:"
"$SQUEEZE" watch meter.elf "$folder/input" $machine | tail -n 1
