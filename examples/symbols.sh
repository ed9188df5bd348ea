#!/bin/sh
# Gives a packed file the functions of the original as symbols, at the addresses where `names` says that they stand, and
# compares these with what nm shows.
#
#     examples/symbols.sh [FILE [SYMBOLS]]
#
# The built program is the one that `rt run` in crates/squeeze leaves there, or SQUEEZE where that is set. FILE is
# examples/meter/meter.elf where none is given. SYMBOLS becomes the packed file with symbols, for a debugger: it is not
# for flash. It needs GNU binutils for RISC-V; CROSS is what their names begin with.
set -eu

SQUEEZE=$(realpath "${SQUEEZE:-$(dirname "$0")/../crates/squeeze/out/squeeze}")
CROSS=${CROSS:-riscv64-unknown-elf-}
file=$(realpath "${1:-$(dirname "$0")/meter/meter.elf}")
folder=$(mktemp -d)
trap 'rm -rf "$folder"' EXIT
symbols=${2:-$folder/symbols.elf}

"$SQUEEZE" prove "$file" "$folder/packed.elf" "$folder/cert"
"$SQUEEZE" names "$file" "$folder/cert" > "$folder/names"

# A symbol is added by its place in the section of text, which is the first one.
start=$("${CROSS}readelf" -SW "$folder/packed.elf" | sed -n 's/^ *\[ *1\] [^ ]* *PROGBITS *\([0-9a-f]*\) .*/\1/p')
set --
while read -r address name; do
    case "$address" in
        0x*) set -- "$@" --add-symbol "$name=.text:$((address - 0x$start)),function,global" ;;
    esac
done < "$folder/names"
"${CROSS}objcopy" "$@" "$folder/packed.elf" "$symbols"

sed -n 's/^0x\([0-9a-f]*\) \(.*\)$/\1 T \2/p' "$folder/names" | sort > "$folder/wanted"
"${CROSS}nm" "$symbols" | sort > "$folder/seen"
diff "$folder/wanted" "$folder/seen"
echo "nm shows $(wc -l < "$folder/seen") functions where names says; $(grep -c '^inside ' "$folder/names" || true) inside a block, $(grep -c '^gone ' "$folder/names" || true) gone"
