#!/bin/sh
# What compiler flags leave of programs, before and after packing:
#
#     examples/flags/measure.sh SQUEEZE [FOLDER]
#
# Builds newlib, bzip2 and Lua from Debian's sources in FOLDER, for each line of flags below, links each program twice, with
# and without relaxation, packs the second one, runs it before and after, and prints the bytes of text: by gcc, and by clang with
# gcc's library. Needs Debian's packages gcc-riscv64-unknown-elf, clang, lld, newlib-source and dpkg-dev, and a line of type
# deb-src among apt's sources. Takes some minutes a line; what is built already stays.
set -eu
squeeze=$(realpath "$1")
here=$(dirname "$(realpath "$0")")
work=${2:-/tmp/squeeze-flags}
mkdir -p "$work"
cd "$work"

target=riscv64-unknown-elf
machine='-march=rv32im -mabi=ilp32 -mcmodel=medlow -ffunction-sections -fdata-sections'
shapes='-fno-schedule-insns2 -fno-shrink-wrap -fno-tree-tail-merge -fno-tree-loop-optimize -fno-thread-jumps -fno-caller-saves -fno-move-loop-invariants'

fetch() {
    ls "$1"_*.orig.tar.gz >/dev/null 2>&1 || apt-get source --download-only "$1" >fetch.log 2>&1
    [ -d "$2" ] || tar xzf "$1"_*.orig.tar.gz
}

[ -e newlib-salsa ] || tar xf /usr/src/newlib/newlib-3.3.0.tar.xz
fetch bzip2 bzip2-1.0.8
fetch lua5.4 lua-5.4.4

# newlib by the flags of the second word, in the folder lib-NAME
library() {
    [ -f "lib-$1/libm.a" ] && return
    rm -rf "build-$1"
    mkdir "build-$1"
    (
        cd "build-$1"
        CFLAGS_FOR_TARGET="$machine $2" ../newlib-salsa/configure --target=$target --disable-multilib --disable-libgloss \
            --disable-newlib-supplied-syscalls --enable-newlib-nano-malloc --enable-newlib-io-long-long >configure.log 2>&1
        make all-target-newlib >make.log 2>&1
    )
    mkdir -p "lib-$1/include"
    cp -rL newlib-salsa/newlib/libc/include/. "lib-$1/include"
    cp -rL "build-$1/$target/newlib/targ-include/." "lib-$1/include"
    cp "build-$1/$target/newlib/libc.a" "build-$1/$target/newlib/libm.a" "lib-$1"
}

# links OUT with a library by FLAGS; what is left are sources and further flags
link() {
    out=$1 lib=$2 flags=$3
    shift 3
    # what the compiler calls itself stays out of link-time optimization; memory.c and division.c: see examples/lib
    for called in memory division; do
        $target-gcc $machine $flags -fno-lto -ffreestanding -c -o "$called.o" "$here/../lib/$called.c"
    done
    $target-gcc $machine $flags -w -isystem "lib-$lib/include" -nostdlib -static -Wl,--gc-sections -Wl,--build-id=none \
        -o "$out" "$here/start.S" "$here/calls.c" "$@" memory.o division.o \
        -Wl,--start-group "lib-$lib/libc.a" "lib-$lib/libm.a" -lgcc -Wl,--end-group
}

text() { $target-size -A "$1" | awk '$1 == ".text" { print $2 }'; }

# whether the packed link of a program runs as before: NAME INPUT, then its words
runs_as_before() {
    name=$1 input=$2
    shift 2
    for file in "$name.elf" "$name.packed.elf"; do
        "$squeeze" run "$file" "$input" 10000000 16777216 16777216 "$@" >"$file.run" || true
    done
    cmp -s "$name.elf.run" "$name.packed.elf.run" || echo "$name: the runs differ" >&2
}

# measures a program: NAME LIBRARY FLAGS, then sources and flags
measure() {
    name=$1-$2 program=$1 lib=$2 flags=$3
    shift 3
    link "$name.relaxed.elf" "$lib" "$flags" "$@"
    link "$name.elf" "$lib" "$flags" -Wl,--emit-relocs -Wl,--no-relax "$@"
    packed=$("$squeeze" pack "$name.elf" "$name.packed.elf" | sed -n 's/text [0-9]* -> \([0-9]*\),.*/\1/p')
    printf '| %s | %s | %s | %s | %s |\n' "$program" "$flags" "$(text "$name.relaxed.elf")" "$(text "$name.elf")" "$packed"
}

# clang's objects in the folder, by these flags, of the sources that are left. By way of assembler text: in one step, clang
# leaves out relocations of calls within a section
compile_by_clang() {
    folder=$1 by=$2
    shift 2
    rm -rf "$folder"
    mkdir "$folder"
    for source in "$here/calls.c" "$@"; do
        object=$folder/$(basename "$source" .c)
        clang $clang_machine $by -w -isystem lib-small/include -S -o "$object.s" "$source"
        clang $clang_machine -w -c -o "$object.o" "$object.s"
    done
    for called in "$here/start.S" "$here/../lib/memory.c" "$here/../lib/division.c"; do
        $target-gcc $machine -Os -ffreestanding -c -o "$folder/called-$(basename "$called").o" "$called"
    done
}

# measures a program by clang: NAME LINE FLAGS FURTHER, then sources; FURTHER isn't printed
measure_by_clang() {
    program=$1 name=$1-clang-$2 flags=$3 further=$4
    shift 4
    library="--start-group lib-small/libc.a lib-small/libm.a $($target-gcc $machine -print-libgcc-file-name) --end-group"
    compile_by_clang "$name" "$flags $further" "$@"
    $target-ld -m elf32lriscv --gc-sections --build-id=none -o "$name.relaxed.elf" "$name"/*.o $library
    ld.lld --gc-sections --build-id=none --emit-relocs --no-relax -o "$name.elf" "$name"/*.o $library
    packed=$("$squeeze" pack "$name.elf" "$name.packed.elf" | sed -n 's/text [0-9]* -> \([0-9]*\),.*/\1/p')
    printf '| %s | clang %s | %s | %s | %s |\n' "$program" "$flags" "$(text "$name.relaxed.elf")" "$(text "$name.elf")" "$packed"
}

bzip2='bzip2-1.0.8/blocksort.c bzip2-1.0.8/huffman.c bzip2-1.0.8/crctable.c bzip2-1.0.8/randtable.c bzip2-1.0.8/compress.c bzip2-1.0.8/decompress.c bzip2-1.0.8/bzlib.c bzip2-1.0.8/bzip2.c'
lua=$(ls lua-5.4.4/src/l*.c | grep -v '/luac\.c')

printf '| Program | Flags | Text, relaxed | Text, not relaxed | Packed |\n|---|---|---|---|---|\n'
# a row for each program: the library's name and flags, then the programs' flags
both() {
    library "$1" "$2"
    measure bzip2 "$1" "$3" -Ibzip2-1.0.8 $bzip2
    runs_as_before "bzip2-$1" "$here/calls.c" bzip2 -1 -c
    # without a seed from the bytes of code addresses, which is a break
    measure lua "$1" "$3" '-Dluai_makeseed(state)=0' -Ilua-5.4.4/src $lua
    runs_as_before "lua-$1" program.lua lua -
}
echo 'print(string.format("%5.3f", 2 / 3), #("squeeze"):rep(9), math.maxinteger // 7)' >program.lua
save='-Os -msave-restore'
both small -Os -Os
both save "$save" "$save"
both save "$save" "$save -flto"
both shapes "$save $shapes" "$save $shapes"
both shapes "$save $shapes" "$save $shapes -flto"

clang_machine='--target=riscv32-unknown-elf -march=rv32im -mabi=ilp32 -mcmodel=small -ffunction-sections -fdata-sections'
# the same by clang: the line's name and flags
both_by_clang() {
    measure_by_clang bzip2 "$1" "$2" -Ibzip2-1.0.8 $bzip2
    runs_as_before "bzip2-clang-$1" "$here/calls.c" bzip2 -1 -c
    measure_by_clang lua "$1" "$2" '-Dluai_makeseed(state)=0 -Ilua-5.4.4/src' $lua
    runs_as_before "lua-clang-$1" program.lua lua -
}
both_by_clang small -Os
both_by_clang smallest -Oz
