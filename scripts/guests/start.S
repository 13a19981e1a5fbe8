# Sets the global pointer, which the linker uses, calls main, and halts with its value.
    .globl _start
_start:
    .option push
    .option norelax
    la gp, __global_pointer$
    .option pop
    call main
    li a7, 8
    ecall
