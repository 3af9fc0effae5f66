# Adopt-commit, broken: where one hart commits, all that have exited must have its value. Here a
# hart looks for the others first and publishes its own value and presence after that.
#
# Inputs: what the hart proposes. For 1 to 32 harts.
#
# Both look before one of them has published, so neither sees the other and both mean to commit.
# Hart 0 comes to its end before hart 1 publishes, and commits 7; then hart 1 commits 9:
#
# $ rvcons asm --out adopt_look_first.elf adopt_look_first.s
# $ cat adopt_look_first.choices
# 0*15 1*15 0*60 1*60
# $ rvcons run adopt_look_first.elf --inputs 7,9 --choices adopt_look_first.choices --rule adopt
# hart 0 exited a0 00000007 a1 00000001
# hart 1 exited a0 00000009 a1 00000001
# verdict broken
# [status 4]
#
# One hart after the other keeps the rule:
#
# $ echo '0*60 1*60' >one_by_one.choices
# $ rvcons run adopt_look_first.elf --inputs 7,9 --choices one_by_one.choices --rule adopt
# hart 0 exited a0 00000007 a1 00000001
# hart 1 exited a0 00000007 a1 00000000
# verdict kept
# $ rvcons campaign adopt_look_first.elf --inputs 7,9 --first 1 --count 1000 --steps 200 --rule adopt | grep -c broken
# 43

.globl _start
_start:
    lui s0, 0x11
    slli s1, a0, 4
    add s1, s1, s0              # my record
    slli t1, a2, 4
    add t1, t1, s0              # the end of the records
    addi s2, zero, 2
    addi t0, s0, 0
look:
    lw t2, 4(t0)                # is this hart present
    beq t2, zero, next
    lw t3, 0(t0)                # with another value
    beq t3, a1, next
    addi s2, zero, 1            # then I can only adopt
next:
    addi t0, t0, 16
    bne t0, t1, look
    sw a1, 0(s1)                # my value and my presence: too late
    addi t2, zero, 1
    sw t2, 4(s1)
    sw s2, 8(s1)                # my mark
    addi s3, zero, 1
    addi s4, a1, 0
    addi t0, s0, 0
    addi t4, zero, 1
mark:
    lw t2, 8(t0)
    beq t2, zero, after         # not marked yet
    bne t2, t4, commit
    addi s3, zero, 0            # an adopter: I don't commit
    jal zero, after
commit:
    lw s4, 0(t0)                # a committer: I take its value
after:
    addi t0, t0, 16
    bne t0, t1, mark
    addi a0, s4, 0
    addi a1, s3, 0
    addi a7, zero, 93
    ecall
.bss
.zero 512
