# A queue that loses an item: a hart that puts one draws a place and fills it later, and a hart that
# takes one looks at the places alone.
#
# Inputs: none are used; for 1 to 32 harts. Each puts an item, takes one, and exits with it. A hart
# that has drawn a place with nothing in it stops at an EBREAK: what is put there then is never
# taken.
#
# Hart 0 has drawn the first place and sleeps. Hart 1 puts its item into the second one, and takes
# what isn't in the first:
#
# $ rvcons asm --out queue_loses.elf queue_loses.s
# $ cat queue_loses.choices
# 0*9 1*40 0*40
# $ rvcons run queue_loses.elf --inputs 0,0 --choices queue_loses.choices
# hart 0 exited a0 00000002 a1 00000000
# hart 1 faulted Break pc 00010060
# [status 3]
#
# A campaign finds it once in a thousand seeds:
#
# $ rvcons campaign queue_loses.elf --inputs 0,0 --first 1 --count 1000 --steps 200 --summary
# seeds 999 first 1 exited 2 faulted 0 running 0
# seeds 1 first 114 exited 1 faulted 1 running 0
# [status 3]
#
# Bursts find it more often:
#
# $ rvcons campaign queue_loses.elf --inputs 0,0 --first 1 --count 40 --steps 200 --schedule bursts:10 --failures
# seed 16 exited 1 faulted 1 running 0
# seed 17 exited 1 faulted 1 running 0
# [status 3]

.globl _start
_start:
    la s0, tail
    la s1, head
    la s2, cells
    addi s3, a0, 1              # my item: not 0
    li s4, 1
    amoadd.w t0, s4, (s0)       # a place at the tail ..
    slli t0, t0, 2
    add t0, s2, t0
    sw s3, 0(t0)                # .. is filled only now
take:
    lw t1, 0(s1)
    lw t2, 0(s0)
    bgeu t1, t2, take           # the queue is empty
    addi t3, t1, 1
draw:
    lr.w t4, (s1)
    bne t4, t1, take            # another hart has taken this place
    sc.w t5, t3, (s1)
    bnez t5, draw
    slli t1, t1, 2
    add t1, s2, t1
    lw a0, 0(t1)
    bnez a0, end
    ebreak                      # nothing was in it: what is put there now is never taken
end:
    li a7, 93
    ecall

.data
tail: .word 0
head: .word 0
cells: .zero 128
