# The queue lock of Mellor-Crummey and Scott with two stores swapped: a hart announces to the one
# before it that it comes next, and only then marks that it waits.
#
# Inputs: how often the hart takes the lock. A hart that waits though the one before it has left,
# and so for ever, stops at an EBREAK.
#
# Hart 1 has announced to hart 0 that it comes next. Hart 0 hands the lock over and leaves; then
# hart 1 marks that it waits:
#
# $ rvcons asm --out mcs_swapped.elf mcs_swapped.s
# $ cat mcs_swapped.choices
# 0*12 1*14 0*30 1*30
# $ rvcons run mcs_swapped.elf --inputs 1,1 --choices mcs_swapped.choices
# hart 0 exited a0 00000000 a1 00000001
# hart 1 faulted Break pc 00010054
# [status 3]
#
# A campaign finds it:
#
# $ rvcons campaign mcs_swapped.elf --inputs 1,1 --first 1 --count 1000 --steps 400 --summary
# seeds 944 first 1 exited 2 faulted 0 running 0
# seeds 56 first 6 exited 1 faulted 1 running 0
# [status 3]

.globl _start
_start:
    la s0, tail
    la s1, nodes
    slli t0, a0, 4
    add s2, s1, t0              # my node: the next hart's, whether I wait, how often I have left
    li s3, 1
    mv s4, a1                   # rounds left
again:
    beqz s4, finished
    sw zero, 0(s2)              # none comes next
    amoswap.w s5, s2, (s0)      # I am the last of the line; which was before me?
    beqz s5, section            # none: the lock is mine
    lw s6, 8(s5)                # how often the one before me has left
    sw s2, 0(s5)                # I come next ..
    sw s3, 4(s2)                # .. and wait: this comes too late
spin:
    lw t0, 4(s2)
    beqz t0, section            # the lock was handed over
    lw t0, 8(s5)
    beq t0, s6, spin            # the one before me hasn't left
    lw t0, 4(s2)
    beqz t0, section
    ebreak                      # it has left, and no other hands me the lock
section:
    lw t0, 0(s2)
    bnez t0, hand_over
    mv t1, s2
release:
    lr.w t0, (s0)
    bne t0, t1, next
    sc.w t0, zero, (s0)         # none has come: the lock is free
    bnez t0, release
    j left
next:
    lw t0, 0(s2)
    beqz t0, next               # one has come, but hasn't stored its node here yet
hand_over:
    sw zero, 4(t0)              # you needn't wait
left:
    lw t0, 8(s2)
    addi t0, t0, 1
    sw t0, 8(s2)
    addi s4, s4, -1
    j again
finished:
    li a0, 0
    li a7, 93
    ecall

.data
tail: .word 0
nodes: .zero 512
