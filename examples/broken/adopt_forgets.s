# Adopt-commit, broken: the value must be the input of a hart that was chosen. Here a hart forgets
# its own value before it reads the marks, so a hart that finds no committer has none to exit with.
#
# Inputs: what the hart proposes. For 1 to 32 harts.
#
# In turns each sees the other's value, both mark 1, and none commits. Both should keep their own;
# both exit with 0:
#
# $ rvcons asm --out adopt_forgets.elf adopt_forgets.s
# $ rvcons run adopt_forgets.elf --inputs 7,9 --choices adopt_forgets.choices --rule adopt
# hart 0 exited a0 00000000 a1 00000000
# hart 1 exited a0 00000000 a1 00000000
# verdict broken
# [status 4]
#
# Where one commits, there is a value to take, and the rule is kept:
#
# $ echo '0*60 1*60' >one_by_one.choices
# $ rvcons run adopt_forgets.elf --inputs 7,9 --choices one_by_one.choices --rule adopt
# hart 0 exited a0 00000007 a1 00000001
# hart 1 exited a0 00000007 a1 00000000
# verdict kept
# $ rvcons campaign adopt_forgets.elf --inputs 7,9 --first 1 --count 1000 --steps 200 --rule adopt | grep -c broken
# 634

.globl _start
_start:
    lui s0, 0x11
    slli s1, a0, 4
    add s1, s1, s0              # my record
    slli t1, a2, 4
    add t1, t1, s0              # the end of the records
    addi s2, zero, 2
    sw a1, 0(s1)                # my value, and then
    addi t2, zero, 1
    sw t2, 4(s1)                # that I am present
    addi t0, s0, 0
look:
    lw t2, 4(t0)                # is this hart present
    beq t2, zero, next
    lw t3, 0(t0)                # with another value
    beq t3, a1, next
    addi s2, zero, 1            # then I can only adopt
next:
    addi t0, t0, 16
    bne t0, t1, look
    sw s2, 8(s1)                # my mark
    addi s3, zero, 1
    addi s4, zero, 0            # not my own value
    addi t0, s0, 0
    addi t4, zero, 1
mark:
    lw t2, 8(t0)
    beq t2, zero, after         # not marked yet
    bne t2, t4, commit
    addi s3, zero, 0            # an adopter: I don't commit
    jal zero, after
commit:
    lw s4, 0(t0)                # a committer: I take its value
after:
    addi t0, t0, 16
    bne t0, t1, mark
    addi a0, s4, 0
    addi a1, s3, 0
    addi a7, zero, 93
    ecall
.bss
.zero 512
