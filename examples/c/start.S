# What stands before `main` in a program in C: each hart begins here, with its number in a0, its input in a1 and the number of harts in a2,
# and 0 in all other registers. It gets a stack of its own, and calls main(number, input, harts); what main returns is the hart's exit
# status, a0, and beside it the input is shown, a1.

#define HARTS 32
#define STACK_BITS 10               /* 2^10 bytes of stack for each hart */

    .globl _start
_start:
    .option push
    .option norelax                 # else the linker makes this one gp-relative too, and gp is 0 here
    la gp, __global_pointer$
    .option pop
    la sp, stacks
    addi t0, a0, 1
    slli t0, t0, STACK_BITS
    add sp, sp, t0                  # the end of this hart's stack, which grows down
    mv s0, a1
    call main
    mv a1, s0
    li a7, 93
    ecall

    .bss
    .balign 16
stacks:
    .zero HARTS << STACK_BITS
