# A ticket lock: harts enter in the order in which they drew their tickets by AMOADD.
#
# Inputs: how often the hart enters the section. In the section it adds 1 to `counter` by a plain
# read and write, so the counter is right in the end only where no two harts were in it at once.
# Exits with the counter in a0 and what it must be in a1; where they differ the hart stops at an
# EBREAK.
#
# $ rvcons asm --out ticket.elf ticket.s
# $ rvcons run ticket.elf --inputs 2,2,2 --choices three.choices
# hart 0 exited a0 00000006 a1 00000006
# hart 1 exited a0 00000006 a1 00000006
# hart 2 exited a0 00000006 a1 00000006
#
# $ rvcons campaign ticket.elf --inputs 2,2,2 --first 1 --count 1000 --steps 1500 | cut -d" " -f3- | sort | uniq -c
#    1000 exited 3 faulted 0 running 0

.globl _start
_start:
    la s0, next
    la s5, serving
    li s6, 1
    la s1, counter
    mv s2, a1                   # rounds left
again:
    beqz s2, finished
    amoadd.w t1, s6, (s0)       # draw a ticket
turn:
    lw t0, 0(s5)
    bne t0, t1, turn            # until it is served
    lw t0, 0(s1)                # the section: a plain read and write
    addi t0, t0, 1
    sw t0, 0(s1)
    addi t1, t1, 1
    sw t1, 0(s5)                # the holder alone writes this word
    addi s2, s2, -1
    j again
finished:
    la s3, entered
    amoadd.w zero, a1, (s3)     # what the counter must grow by
    la s4, done
    li t0, 1
    amoadd.w zero, t0, (s4)
wait:
    lw t0, 0(s4)
    bne t0, a2, wait            # until all harts are done
    lw a0, 0(s1)
    lw a1, 0(s3)
    beq a0, a1, end
    ebreak                      # two harts were in the section at once
end:
    li a7, 93
    ecall

.data
counter: .word 0
entered: .word 0
done: .word 0
next: .word 0
serving: .word 0
