# Adopt-commit, broken: a1 must be 1, commit, or 0, adopt. Here it is the hart's own mark, which is
# 2 where the hart means to commit and 1 where it adopts.
#
# Inputs: what the hart proposes. For 1 to 32 harts.
#
# Hart 0 marks that it commits, and exits with 2 in a1:
#
# $ rvcons asm --out adopt_mark.elf adopt_mark.s
# $ cat adopt_mark.choices
# 0*60 1
# $ rvcons run adopt_mark.elf --inputs 7,9 --choices adopt_mark.choices --rule adopt
# hart 0 exited a0 00000007 a1 00000002
# hart 1 running pc 00010004
# verdict broken
# [status 4]
#
# In turns both adopt, and their 1 means that both commit, to two values:
#
# $ printf '0 1 %.0s' $(seq 50) >turns.choices
# $ rvcons run adopt_mark.elf --inputs 7,9 --choices turns.choices --rule adopt
# hart 0 exited a0 00000007 a1 00000001
# hart 1 exited a0 00000009 a1 00000001
# verdict broken
# [status 4]

.globl _start
_start:
    lui s0, 0x11
    slli s1, a0, 4
    add s1, s1, s0              # my record
    slli t1, a2, 4
    add t1, t1, s0              # the end of the records
    addi s2, zero, 2
    sw a1, 0(s1)                # my value, and then
    addi t2, zero, 1
    sw t2, 4(s1)                # that I am present
    addi t0, s0, 0
look:
    lw t2, 4(t0)                # is this hart present
    beq t2, zero, next
    lw t3, 0(t0)                # with another value
    beq t3, a1, next
    addi s2, zero, 1            # then I can only adopt
next:
    addi t0, t0, 16
    bne t0, t1, look
    sw s2, 8(s1)                # my mark
    addi s3, zero, 1
    addi s4, a1, 0
    addi t0, s0, 0
    addi t4, zero, 1
mark:
    lw t2, 8(t0)
    beq t2, zero, after         # not marked yet
    bne t2, t4, commit
    addi s3, zero, 0            # an adopter: I don't commit
    jal zero, after
commit:
    lw s4, 0(t0)                # a committer: I take its value
after:
    addi t0, t0, 16
    bne t0, t1, mark
    addi a0, s4, 0
    addi a1, s2, 0              # my mark in place of s3
    addi a7, zero, 93
    ecall
.bss
.zero 512
