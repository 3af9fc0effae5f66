# The queue lock of Mellor-Crummey and Scott with two stores swapped, as in mcs_swapped.s, but a
# hart that waits looks at its own mark alone. Where the mistake strikes it waits for ever: a
# deadlock. No hart faults, and a campaign finds it only by --hangs, or where each hart must exit.
#
# Inputs: how often the hart takes the lock.
#
# Hart 1 has announced to hart 0 that it comes next. Hart 0 hands the lock over and leaves; then
# hart 1 marks that it waits:
#
# $ rvcons asm --out mcs_hangs.elf mcs_hangs.s
# $ cat mcs_hangs.choices
# 0*12 1*13 0*30 1*30
# $ rvcons run mcs_hangs.elf --inputs 1,1 --choices mcs_hangs.choices --hangs
# hart 0 exited a0 00000000 a1 00000001
# hart 1 running pc 0001003c
# hangs yes
# [status 7]
#
# A campaign finds it, and decides of each run whether it hangs: these didn't have too few steps.
#
# $ rvcons campaign mcs_hangs.elf --inputs 1,1 --first 1 --count 1000 --steps 400 --hangs --summary
# seeds 955 first 1 exited 2 faulted 0 running 0 hangs no
# seeds 45 first 2 exited 1 faulted 0 running 1 hangs yes
# [status 7]
#
# The steps that it takes. They end where hart 0 has handed the lock over, before hart 1's next
# step, in which it marks that it waits: however harts go on from there, hart 1 waits for ever.
#
# $ rvcons shrink mcs_hangs.elf --inputs 1,1 --choices mcs_hangs.choices --must-exit | tee few.choices
# 0*12 1*13 0*3
# $ (cat few.choices; rvcons schedule --harts 2 --steps 10000 --turns) >longer.choices
# $ rvcons run mcs_hangs.elf --inputs 1,1 --choices longer.choices --must-exit
# hart 0 exited a0 00000000 a1 00000001
# hart 1 running pc 0001003c
# [status 3]

.globl _start
_start:
    la s0, tail
    la s1, nodes
    slli t0, a0, 3
    add s2, s1, t0              # my node: the next hart's, whether I wait
    li s3, 1
    mv s4, a1                   # rounds left
again:
    beqz s4, finished
    sw zero, 0(s2)              # none comes next
    amoswap.w s5, s2, (s0)      # I am the last of the line; which was before me?
    beqz s5, section            # none: the lock is mine
    sw s2, 0(s5)                # I come next ..
    sw s3, 4(s2)                # .. and wait: this comes too late
spin:
    lw t0, 4(s2)
    bnez t0, spin               # until the lock is handed over
section:
    lw t0, 0(s2)
    bnez t0, hand_over
    mv t1, s2
release:
    lr.w t0, (s0)
    bne t0, t1, next
    sc.w t0, zero, (s0)         # none has come: the lock is free
    bnez t0, release
    j left
next:
    lw t0, 0(s2)
    beqz t0, next               # one has come, but hasn't stored its node here yet
hand_over:
    sw zero, 4(t0)              # you needn't wait
left:
    addi s4, s4, -1
    j again
finished:
    li a0, 0
    li a7, 93
    ecall

.data
tail: .word 0
nodes: .zero 256
