# A barrier that is used again too early: the last hart to leave closes it, and a hart that comes
# before that for the next phase finds it open.
#
# Inputs: how many phases the hart goes through, the same for each. A hart that has passed the
# barrier of a phase to which another one hasn't come stops at an EBREAK.
#
# Hart 0 waits at the barrier of the first phase. Hart 1 opens it, leaves, comes again and passes
# the second one, with hart 0 still at the first:
#
# $ rvcons asm --out barrier_early.elf barrier_early.s
# $ cat barrier_early.choices
# 0*20 1*60 0*60
# $ rvcons run barrier_early.elf --inputs 2,2 --choices barrier_early.choices
# hart 0 running pc 00010040
# hart 1 faulted Break pc 00010080
# [status 3]
#
# A campaign finds it twice in a thousand seeds:
#
# $ rvcons campaign barrier_early.elf --inputs 2,2 --first 1 --count 1000 --steps 400 --summary
# seeds 998 first 1 exited 2 faulted 0 running 0
# seeds 2 first 210 exited 1 faulted 1 running 0
# [status 3]
#
# In bursts most seeds find it:
#
# $ rvcons campaign barrier_early.elf --inputs 2,2 --first 1 --count 10 --steps 400 --schedule bursts:30 --failures
# seed 1 exited 0 faulted 1 running 1
# seed 7 exited 0 faulted 1 running 1
# seed 9 exited 0 faulted 1 running 1
# seed 10 exited 0 faulted 1 running 1
# [status 3]

.globl _start
_start:
    la s0, arrived
    la s1, phases
    slli t0, a0, 2
    add s2, s1, t0              # my phase
    li s3, 0                    # phases done
    li s4, 1
again:
    beq s3, a1, finished
    addi s3, s3, 1
    sw s3, 0(s2)                # I am at this phase
    amoadd.w t0, s4, (s0)
    addi t0, t0, 1
    bne t0, a2, wait
    sw zero, 0(s0)              # the last to come opens the barrier
    sw s4, 4(s0)
wait:
    lw t0, 4(s0)
    beqz t0, wait
    addi s5, s0, 8
    amoadd.w t0, s4, (s5)
    addi t0, t0, 1
    bne t0, a2, passed
    sw zero, 8(s0)              # the last to leave closes it: one that comes before that finds it open
    sw zero, 4(s0)
passed:
    mv t0, s1
    slli t1, a2, 2
    add t1, s1, t1
look:
    lw t2, 0(t0)
    blt t2, s3, early           # this hart hasn't come to the phase that I have passed
    addi t0, t0, 4
    bne t0, t1, look
    j again
early:
    ebreak
finished:
    li a0, 0
    li a7, 93
    ecall

.data
arrived: .word 0
open: .word 0
left: .word 0
phases: .zero 128
