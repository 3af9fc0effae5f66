# Fischer's lock: a hart writes its name, waits, and enters where its name is still there. It is
# right where no hart is slower than the wait, and a schedule may be as slow as it likes. (M.
# Fischer; L. Lamport, "A Fast Mutual Exclusion Algorithm", ACM TOCS 5(1), 1987.)
#
# Inputs: how often the hart enters the section. In the section it adds 1 to `counter` by a plain
# read and write, so the counter is right in the end only where no two harts were in it at once.
# Exits with the counter in a0 and what it must be in a1; where they differ the hart stops at an
# EBREAK.
#
# In turns it holds, and under each seed of a campaign:
#
# $ rvcons asm --out fischer.elf fischer.s
# $ cat turns.choices turns.choices >longer.choices
# $ rvcons run fischer.elf --inputs 1,1 --choices longer.choices
# hart 0 exited a0 00000002 a1 00000002
# hart 1 exited a0 00000002 a1 00000002
# $ rvcons campaign fischer.elf --inputs 1,1 --first 1 --count 1000 --steps 1000 | cut -d" " -f3- | sort | uniq -c
#    1000 exited 2 faulted 0 running 0
#
# But where hart 0 has read that no name is there and then sleeps, hart 1 writes its own, waits, and
# is in the section as hart 0 comes to write:
#
# $ cat fischer.choices
# 0*9 1*95 0*200 1*100 0*20
# $ rvcons run fischer.elf --inputs 1,1 --choices fischer.choices
# hart 0 faulted Break pc 00010084
# hart 1 faulted Break pc 00010084
# [status 3]
#
# A seed draws each step evenly, so hart 0 hardly ever sleeps for so long: docs/QUESTIONS.md has the
# chance.

.globl _start
_start:
    la s0, name
    addi s5, a0, 1              # my name: not 0
    la s1, counter
    mv s2, a1                   # rounds left
again:
    beqz s2, finished
free:
    lw t0, 0(s0)
    bnez t0, free               # somebody's name stands there
    sw s5, 0(s0)                # mine
    li t0, 40
delay:
    addi t0, t0, -1             # the time in which all others must have written theirs
    bnez t0, delay
    lw t0, 0(s0)
    bne t0, s5, free            # another name stands there: begin again
    lw t0, 0(s1)                # the section: a plain read and write
    addi t0, t0, 1
    sw t0, 0(s1)
    sw zero, 0(s0)
    addi s2, s2, -1
    j again
finished:
    la s3, entered
    amoadd.w zero, a1, (s3)     # what the counter must grow by
    la s4, done
    li t0, 1
    amoadd.w zero, t0, (s4)
wait:
    lw t0, 0(s4)
    bne t0, a2, wait            # until all harts are done
    lw a0, 0(s1)
    lw a1, 0(s3)
    beq a0, a1, end
    ebreak                      # two harts were in the section at once
end:
    li a7, 93
    ecall

.data
counter: .word 0
entered: .word 0
done: .word 0
name: .word 0
