#!/usr/bin/env python3
"""Prints the assembler text of a program with many candidates of one row on jumps, or of all of them.

    examples/jumps.py ROW COUNT > jumps.s        # ROW: J1, J2, J3, C or all
    riscv64-unknown-elf-as -march=rv32ima -mabi=ilp32 -mno-relax jumps.s -o jumps.o
    riscv64-unknown-elf-ld -melf32lriscv --emit-relocs --no-relax -Ttext=0x10000 jumps.o -o jumps.elf

Each of the COUNT groups has one candidate (two of J2), and one of C is one call of a function behind all groups.
"""
import sys

GROUPS = {
    # a Jump to the next slot, which a Branch names too
    "J1": ["bne a1, x0, 1f", "addi a4, a4, 1", "j 1f", "1: addi a5, a5, 1"],
    # a lone Jump to which two Branches lead, and once it is gone the Jump to the next slot before it
    "J2": ["bne a0, x0, 2f", "addi a1, a1, 2", "beq a1, x0, 2f", "j 3f", "2: j 3f", "3: addi a3, a3, 1"],
    # a Branch over a lone Jump that nothing names
    "J3": ["bne a0, x0, 4f", "j 5f", "4: addi a1, a1, 1", "5: addi a2, a2, 1"],
    # a call by an upper half
    "C": ["call function"],
}


def main():
    if len(sys.argv) != 3 or sys.argv[1] not in [*GROUPS, "all"]:
        sys.exit(__doc__)
    rows = list(GROUPS) if sys.argv[1] == "all" else [sys.argv[1]]
    group = [line for row in rows for line in GROUPS[row]]
    lines = [".option norelax", ".globl _start", "_start:"]
    lines += group * int(sys.argv[2])
    lines += ["li a7, 93", "li a0, 0", "ecall", "j .", "function: addi a6, a6, 1", "ret"]
    print("\n".join(lines))


main()
