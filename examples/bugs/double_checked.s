# Initialisation that is checked twice, once without the lock and once with it, and a mark that is
# set before the value is there.
#
# Inputs: none are used; for 1 to 32 harts. Each hart uses the value, which is 42, and stops at an
# EBREAK where it is none yet.
#
# Hart 0 has set the mark and sleeps. Hart 1 sees it, and uses what hasn't been stored:
#
# $ rvcons asm --out double_checked.elf double_checked.s
# $ cat double_checked.choices
# 0*14 1*20 0*20
# $ rvcons run double_checked.elf --inputs 0,0 --choices double_checked.choices
# hart 0 exited a0 0000002a a1 00000000
# hart 1 faulted Break pc 0001004c
# [status 3]
#
# A campaign finds it:
#
# $ rvcons campaign double_checked.elf --inputs 0,0 --first 1 --count 1000 --steps 200 --summary
# seeds 966 first 1 exited 2 faulted 0 running 0
# seeds 34 first 7 exited 1 faulted 1 running 0
# [status 3]

.globl _start
_start:
    la s0, made
    la s1, lock
    la s2, value
    li s3, 1
    lw t0, 0(s0)                # is it made? The first look takes no lock
    bnez t0, use
take:
    amoswap.w t0, s3, (s1)
    bnez t0, take
    lw t0, 0(s0)                # the second look: somebody may have made it meanwhile
    bnez t0, give
    sw s3, 0(s0)                # it is made ..
    li t0, 42
    sw t0, 0(s2)                # .. but its value comes only now
give:
    sw zero, 0(s1)
use:
    lw a0, 0(s2)
    bnez a0, end
    ebreak                      # it was used before it had its value
end:
    li a7, 93
    ecall

.data
made: .word 0
lock: .word 0
value: .word 0
