#!/bin/bash
# Links SQLite for a machine without files, packs it, and runs one query before and after; both must print the same.
#
#     examples/sqlite/try.sh SQLITE       SQLITE: a folder with SQLite's amalgamation, sqlite3.c and sqlite3.h
#
# It needs riscv64-unknown-elf-gcc with picolibc's headers, and the built program, or SQUEEZE where that is set. The linked file is
# copied to OUT, where that is set.
set -e
here=$(realpath "$(dirname "$0")")
SQUEEZE=$(realpath "${SQUEEZE:-$here/../../crates/squeeze/out/squeeze}")
sqlite=$(realpath "$1")
room=$(mktemp -d)
trap 'rm -r "$room"' EXIT
cd "$room"

target="-march=rv32im -mabi=ilp32 -mcmodel=medlow"
code="$target -Os -ffunction-sections -fdata-sections -fno-jump-tables -I$sqlite -DSQLITE_OS_OTHER=1 -DSQLITE_THREADSAFE=0
    -DSQLITE_OMIT_LOAD_EXTENSION -DSQLITE_OMIT_WAL -DSQLITE_ENABLE_MEMSYS5"
riscv64-unknown-elf-gcc $code --specs=picolibc.specs -c "$sqlite/sqlite3.c" "$here/main.c"
riscv64-unknown-elf-gcc $code -fno-builtin -fno-tree-loop-distribute-patterns -c "$here/libc.c"
riscv64-unknown-elf-gcc $target -nostdlib -T "$here/sqlite.ld" -Wl,--emit-relocs,--no-relax main.o sqlite3.o libc.o -lgcc -o sqlite.elf

# 10,000,000 steps, with 1 MiB of RAM at 0x80000000 for the stack.
machine="10000000 2147483648 1048576"
: > empty
"$SQUEEZE" pack sqlite.elf packed.elf
for file in sqlite.elf packed.elf; do
    "$SQUEEZE" run $file empty $machine > $file.run
done
tail -5 sqlite.elf.run
cmp sqlite.elf.run packed.elf.run && echo "the same before and after"
"$SQUEEZE" watch sqlite.elf empty $machine | tail -1
if [ -n "$OUT" ]; then cp sqlite.elf "$OUT"; fi
