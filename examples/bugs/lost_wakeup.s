# A wake-up that is lost: a hart looks whether there is work, and announces that it sleeps only
# after that.
#
# Inputs: none are used; two harts. Hart 0 waits for work, hart 1 gives it and goes. A hart that
# sleeps though the one that should wake it has gone stops at an EBREAK.
#
# After hart 0's look and before it announces that it sleeps, hart 1 gives the work, finds no hart
# asleep, and goes:
#
# $ rvcons asm --out lost_wakeup.elf lost_wakeup.s
# $ cat lost_wakeup.choices
# 0*6 1*20 0*20
# $ rvcons run lost_wakeup.elf --inputs 0,0 --choices lost_wakeup.choices
# hart 0 faulted Break pc 00010034
# hart 1 exited a0 00000000 a1 00000000
# [status 3]
#
# A campaign finds it:
#
# $ rvcons campaign lost_wakeup.elf --inputs 0,0 --first 1 --count 1000 --steps 200 --summary
# seeds 864 first 1 exited 2 faulted 0 running 0
# seeds 136 first 6 exited 1 faulted 1 running 0
# [status 3]

.globl _start
_start:
    la s0, work
    li s1, 1
    bnez a0, giver
    lw t0, 0(s0)                # is there work?
    bnez t0, awake
    sw s1, 4(s0)                # no: I sleep, wake me
sleep:
    lw t0, 8(s0)
    bnez t0, awake              # somebody has woken me
    lw t0, 12(s0)
    beqz t0, sleep              # the giver is still there
    lw t0, 8(s0)
    bnez t0, awake              # it has woken me before it went
    ebreak                      # it has gone, and none will ever wake me
awake:
    j end
giver:
    sw s1, 0(s0)                # there is work
    lw t0, 4(s0)
    beqz t0, gone               # none sleeps
    sw s1, 8(s0)                # wake up
gone:
    sw s1, 12(s0)
end:
    li a0, 0
    li a7, 93
    ecall

.data
work: .word 0
asleep: .word 0
woken: .word 0
left: .word 0
