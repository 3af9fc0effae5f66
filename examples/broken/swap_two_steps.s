# Consensus, broken: any two harts that have exited must have the same value. Here the swap is two
# instructions, a load and a store, and another hart can come between them.
#
# Inputs: what the hart would like to be decided. For two harts.
#
# Both load the 0 before one of them stores its 1, so both have won:
#
# $ rvcons asm --out swap_two_steps.elf swap_two_steps.s
# $ cat swap_two_steps.choices
# 0*6 1*12 0*6
# $ rvcons run swap_two_steps.elf --inputs 7,9 --choices swap_two_steps.choices --rule swap
# hart 0 exited a0 00000007 a1 00000001
# hart 1 exited a0 00000009 a1 00000001
# verdict broken
# [status 4]
#
# Where one has stored before the other loads, the rule is kept:
#
# $ echo '0*7 1*16 0*5' >apart.choices
# $ rvcons run swap_two_steps.elf --inputs 7,9 --choices apart.choices --rule swap
# hart 0 exited a0 00000007 a1 00000001
# hart 1 exited a0 00000007 a1 00000001
# verdict kept
# $ rvcons campaign swap_two_steps.elf --inputs 7,9 --first 1 --count 1000 --steps 100 --rule swap | grep -c broken
# 242

.globl _start
_start:
    lui s0, 0x11
    slli t0, a0, 2
    add t0, t0, s0
    sw a1, 4(t0)
    addi t1, zero, 1
    lw t2, 0(s0)                # look ..
    sw t1, 0(s0)                # .. and store: no AMOSWAP
    beq t2, zero, win
    xori t0, a0, 1
    slli t0, t0, 2
    add t0, t0, s0
    lw a1, 4(t0)
win:
    addi a0, a1, 0
    addi a1, zero, 1
    addi a7, zero, 93
    ecall
.bss
.zero 12
