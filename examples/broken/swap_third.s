# Consensus, broken: no hart may fault. The library's swap is for two harts; here three run it. The
# slot of the third lies past the zeros, where nothing is mapped.
#
# Inputs: what the hart would like to be decided. For two harts.
#
# Hart 2 faults as it stores its input. The other two have exited, with the same value:
#
# $ rvcons asm --out swap_third.elf swap_third.s
# $ cat swap_third.choices
# 0*11 1*15 2*4
# $ rvcons run swap_third.elf --inputs 7,9,4 --choices swap_third.choices --rule swap
# hart 0 exited a0 00000007 a1 00000001
# hart 1 exited a0 00000007 a1 00000001
# hart 2 faulted StoreAccess pc 0001000c
# verdict broken
# [status 4]
#
# `info` names the object all the same, since the file is the library's; what is proved of it is for
# two harts.
#
# $ rvcons info swap_third.elf | tail -n 1
# library swap

.globl _start
_start:
    lui s0, 0x11
    slli t0, a0, 2
    add t0, t0, s0
    sw a1, 4(t0)                # hart 2: 4 bytes at 0x1100c, where the zeros end
    addi t1, zero, 1
    amoswap.w t2, t1, (s0)
    beq t2, zero, win
    xori t0, a0, 1
    slli t0, t0, 2
    add t0, t0, s0
    lw a1, 4(t0)
win:
    addi a0, a1, 0
    addi a1, zero, 1
    addi a7, zero, 93
    ecall
.bss
.zero 12
