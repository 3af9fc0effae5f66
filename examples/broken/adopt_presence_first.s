# Adopt-commit, broken: where the harts that were chosen have the same input, each that exits must
# commit. Here a hart marks that it is present before its value is in its record.
#
# Inputs: what the hart proposes. For 1 to 32 harts.
#
# Hart 0 stops right after it has marked that it is present. Hart 1 finds it there with the value 0,
# which isn't its own 7, and so it can only adopt, though all inputs are 7:
#
# $ rvcons asm --out adopt_presence_first.elf adopt_presence_first.s
# $ cat adopt_presence_first.choices
# 0*8 1*60 0*60
# $ rvcons run adopt_presence_first.elf --inputs 7,7 --choices adopt_presence_first.choices --rule adopt
# hart 0 exited a0 00000007 a1 00000000
# hart 1 exited a0 00000007 a1 00000000
# verdict broken
# [status 4]
#
# One step more of hart 0, and its value is there:
#
# $ echo '0*9 1*60 0*60' >one_step_more.choices
# $ rvcons run adopt_presence_first.elf --inputs 7,7 --choices one_step_more.choices --rule adopt
# hart 0 exited a0 00000007 a1 00000001
# hart 1 exited a0 00000007 a1 00000001
# verdict kept
# $ rvcons campaign adopt_presence_first.elf --inputs 7,7 --first 1 --count 1000 --steps 200 --rule adopt | grep -c broken
# 28

.globl _start
_start:
    lui s0, 0x11
    slli s1, a0, 4
    add s1, s1, s0              # my record
    slli t1, a2, 4
    add t1, t1, s0              # the end of the records
    addi s2, zero, 2
    addi t2, zero, 1
    sw t2, 4(s1)                # I am present ..
    sw a1, 0(s1)                # .. and my value comes after that
    addi t0, s0, 0
look:
    lw t2, 4(t0)                # is this hart present
    beq t2, zero, next
    lw t3, 0(t0)                # with another value
    beq t3, a1, next
    addi s2, zero, 1            # then I can only adopt
next:
    addi t0, t0, 16
    bne t0, t1, look
    sw s2, 8(s1)                # my mark
    addi s3, zero, 1
    addi s4, a1, 0
    addi t0, s0, 0
    addi t4, zero, 1
mark:
    lw t2, 8(t0)
    beq t2, zero, after         # not marked yet
    bne t2, t4, commit
    addi s3, zero, 0            # an adopter: I don't commit
    jal zero, after
commit:
    lw s4, 0(t0)                # a committer: I take its value
after:
    addi t0, t0, 16
    bne t0, t1, mark
    addi a0, s4, 0
    addi a1, s3, 0
    addi a7, zero, 93
    ecall
.bss
.zero 512
