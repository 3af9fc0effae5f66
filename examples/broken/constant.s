# Consensus, broken: the value must be the input of a hart that was chosen. Here all exit with 9,
# whatever their inputs are.
#
# All harts that exit agree, and each has decided. Only this clause gives agreement a meaning: a
# value that is no hart's input is no decision.
#
# Inputs: what the hart would like to be decided.
#
# Hart 0 runs alone and exits with 9. That is the input of hart 1, but hart 1 has taken no step, so
# no hart can have had its input from it:
#
# $ rvcons asm --out constant.elf constant.s
# $ cat constant.choices
# 0*4
# $ rvcons run constant.elf --inputs 7,9 --choices constant.choices --rule swap
# hart 0 exited a0 00000009 a1 00000001
# hart 1 running pc 00010000
# verdict broken
# [status 4]
#
# Where hart 1 is chosen too, 9 is its input, and the rule is kept:
#
# $ echo '0*4 1' >both.choices
# $ rvcons run constant.elf --inputs 7,9 --choices both.choices --rule swap
# hart 0 exited a0 00000009 a1 00000001
# hart 1 running pc 00010004
# verdict kept

.globl _start
_start:
    li a0, 9                    # no hart's input, if none brings it
    li a1, 1
    li a7, 93
    ecall
