# Where a run starts: copies .data from flash to RAM, clears .bss, and calls main. sp is set by what starts us.

    .section .text.start, "ax"
    .globl _start
_start:
    la t0, data_in_flash
    la t1, data_start
    la t2, data_end
copy:
    bgeu t1, t2, clear
    lw t3, 0(t0)
    sw t3, 0(t1)
    addi t0, t0, 4
    addi t1, t1, 4
    j copy
clear:
    la t1, bss_start
    la t2, bss_end
1:
    bgeu t1, t2, run
    sw zero, 0(t1)
    addi t1, t1, 4
    j 1b
run:
    call main
    li a7, 93
    ecall
    j .
