# Consensus, broken: the value must be the input of a hart that was chosen. Here a hart swaps first
# and publishes its input only then, so a hart that has lost can come too early to the winner's
# slot.
#
# Inputs: what the hart would like to be decided. For two harts.
#
# Hart 0 swaps and has won; before its input is in its slot, hart 1 swaps, has lost, and reads the
# slot. It exits with the 0 that is there, which is no hart's input. (Where hart 0 then goes on, it
# exits with 7.)
#
# $ rvcons asm --out swap_late.elf swap_late.s
# $ cat swap_late.choices
# 0*5 1*15
# $ rvcons run swap_late.elf --inputs 7,9 --choices swap_late.choices --rule swap
# hart 0 running pc 00010014
# hart 1 exited a0 00000000 a1 00000001
# verdict broken
# [status 4]
#
# One hart after the other keeps the rule, and so do all but 8 of a thousand random schedules:
#
# $ echo '0*11 1*15' >one_by_one.choices
# $ rvcons run swap_late.elf --inputs 7,9 --choices one_by_one.choices --rule swap
# hart 0 exited a0 00000007 a1 00000001
# hart 1 exited a0 00000007 a1 00000001
# verdict kept
# $ rvcons campaign swap_late.elf --inputs 7,9 --first 1 --count 1000 --steps 100 --rule swap | grep -c broken
# 8

.globl _start
_start:
    lui s0, 0x11
    slli t0, a0, 2
    add t0, t0, s0
    addi t1, zero, 1
    amoswap.w t2, t1, (s0)      # the winner is known from here on ..
    sw a1, 4(t0)                # .. and its input only from here on
    beq t2, zero, win
    xori t0, a0, 1
    slli t0, t0, 2
    add t0, t0, s0
    lw a1, 4(t0)
win:
    addi a0, a1, 0
    addi a1, zero, 1
    addi a7, zero, 93
    ecall
.bss
.zero 12
