# Harts add to one counter by a plain read and write, in a function with a frame. Each keeps a byte of its own beside it, counts itself
# by LR and SC, waits for all, and exits with the counter.
#
# Inputs: how often the hart adds.

.globl _start
_start:
    la sp, stacks
    addi t0, a0, 1
    slli t0, t0, 6
    add sp, sp, t0              # the end of this hart's stack
    mv s1, a1
    mv s2, a0
    beqz s1, count
again:
    jal add
    addi s1, s1, -1
    bnez s1, again
count:
    la t0, done
once:
    lr.w t1, (t0)
    addi t1, t1, 1
    sc.w t2, t1, (t0)
    bnez t2, once
wait:
    lw t1, 0(t0)
    bne t1, a2, wait
    la t0, counter
    lw a0, 0(t0)
    li a7, 93
    ecall

add:
    addi sp, sp, -16
    sw ra, 12(sp)
    sw s0, 8(sp)
    addi s0, sp, 16
    la t0, counter
    lw t1, 0(t0)
    addi t1, t1, 1
    sw t1, 0(t0)
    la t0, bytes
    add t0, t0, s2
    lbu t1, 0(t0)
    addi t1, t1, 3
    sb t1, 0(t0)
    li t1, 1
    la t0, steps
    amoadd.w zero, t1, (t0)
    lw s0, 8(sp)
    lw ra, 12(sp)
    addi sp, sp, 16
    ret

.data
counter: .word 0
bytes: .byte 0, 0, 0, 0
steps: .word 0
done: .word 0
stacks: .zero 256
