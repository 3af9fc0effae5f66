# Peterson's algorithm with its first two stores swapped: no lock any more.
#
# Inputs: how often the hart enters the section. In the section it adds 1 to `counter` by a plain
# read and write, so the counter is right in the end only where no two harts were in it at once.
# Exits with the counter in a0 and what it must be in a1; where they differ the hart stops at an
# EBREAK.
#
# Between hart 0's two stores hart 1 does both of its own, finds that hart 0 doesn't want to enter,
# and enters. Then hart 0 finds that it is its turn, and enters too:
#
# $ rvcons asm --out peterson_swapped.elf peterson_swapped.s
# $ rvcons run peterson_swapped.elf --inputs 1,1 --choices both_in.choices
# hart 0 faulted Break pc 00010098
# hart 1 faulted Break pc 00010098
# [status 3]
#
# A campaign finds it:
#
# $ rvcons campaign peterson_swapped.elf --inputs 1,1 --first 1 --count 1000 --steps 300 | cut -d" " -f3- | sort | uniq -c
#      16 exited 0 faulted 2 running 0
#     984 exited 2 faulted 0 running 0

.globl _start
_start:
    la s0, flags
    la s5, turn
    slli t0, a0, 2
    add s6, s0, t0              # own flag
    xori s8, a0, 1              # the other hart's number
    slli t0, s8, 2
    add s7, s0, t0              # its flag
    li s9, 1
    la s1, counter
    mv s2, a1                   # rounds left
again:
    beqz s2, finished
    sw s8, 0(s5)                # you may go first ..
    sw s9, 0(s6)                # .. and I want to enter: this comes too late
spin:
    lw t0, 0(s7)
    beqz t0, section            # the other doesn't want to
    lw t0, 0(s5)
    beq t0, s8, spin            # it does, and it is its turn
section:
    lw t0, 0(s1)                # the section: a plain read and write
    addi t0, t0, 1
    sw t0, 0(s1)
    sw zero, 0(s6)
    addi s2, s2, -1
    j again
finished:
    la s3, entered
    amoadd.w zero, a1, (s3)     # what the counter must grow by
    la s4, done
    li t0, 1
    amoadd.w zero, t0, (s4)
wait:
    lw t0, 0(s4)
    bne t0, a2, wait            # until all harts are done
    lw a0, 0(s1)
    lw a1, 0(s3)
    beq a0, a1, end
    ebreak                      # two harts were in the section at once
end:
    li a7, 93
    ecall

.data
counter: .word 0
entered: .word 0
done: .word 0
flags: .word 0, 0
turn: .word 0
