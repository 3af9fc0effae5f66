# Consensus, broken: each hart that has exited must have decided, with 1 in a1. Here a1 says whether
# the hart has won, so a hart that has lost exits with 0.
#
# Inputs: what the hart would like to be decided. For two harts.
#
# Both exit with 9, the input of hart 1, which has won. But hart 0 exits as if it had only adopted
# it:
#
# $ rvcons asm --out swap_who_won.elf swap_who_won.s
# $ cat swap_who_won.choices
# 1*11 0*15
# $ rvcons run swap_who_won.elf --inputs 7,9 --choices swap_who_won.choices --rule swap
# hart 0 exited a0 00000009 a1 00000000
# hart 1 exited a0 00000009 a1 00000001
# verdict broken
# [status 4]
#
# By the rule of adopt-commit the same run is right: hart 1 commits, and both have its value.
#
# $ rvcons run swap_who_won.elf --inputs 7,9 --choices swap_who_won.choices --rule adopt
# hart 0 exited a0 00000009 a1 00000000
# hart 1 exited a0 00000009 a1 00000001
# verdict kept
#
# With equal inputs it isn't, since then each hart that exits must commit:
#
# $ rvcons run swap_who_won.elf --inputs 9,9 --choices swap_who_won.choices --rule adopt
# hart 0 exited a0 00000009 a1 00000000
# hart 1 exited a0 00000009 a1 00000001
# verdict broken
# [status 4]

.globl _start
_start:
    lui s0, 0x11
    slli t0, a0, 2
    add t0, t0, s0
    sw a1, 4(t0)
    addi t1, zero, 1
    amoswap.w t2, t1, (s0)
    beq t2, zero, win
    xori t0, a0, 1
    slli t0, t0, 2
    add t0, t0, s0
    lw a1, 4(t0)
win:
    addi a0, a1, 0
    xori a1, t2, 1              # 1 for the winner, 0 for the loser
    addi a7, zero, 93
    ecall
.bss
.zero 12
