# Starts as a simulator starts a program: sp points to the number of arguments, and behind it stand their addresses.
    .globl _start
_start:
    .option push
    .option norelax
    lui gp, %hi(__global_pointer$)
    addi gp, gp, %lo(__global_pointer$)
    .option pop
    lw a0, 0(sp)
    addi a1, sp, 4
    li a2, 0
    call main
    call exit
