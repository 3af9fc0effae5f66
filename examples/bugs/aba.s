# A stack without a lock (Treiber), and its ABA problem: that the topmost node is the one that was
# read doesn't mean that nothing has happened meanwhile.
#
# Inputs: how often the hart takes two nodes and puts them back; there are four nodes. A node
# records whether a hart has it: a hart that takes one which another hart has stops at an EBREAK.
#
# Hart 0 has read that node A lies on top and B below it, and sleeps. Hart 1 takes A, takes B, and
# puts A back. Hart 0 finds A on top, as it was, and makes B the topmost node, which hart 1 has.
# Then it takes B:
#
# $ rvcons asm --out aba.elf aba.s
# $ cat aba.choices
# 0*11 1*48 0*60 1*60
# $ rvcons run aba.elf --inputs 1,1 --choices aba.choices
# hart 0 faulted Break pc 00010098
# hart 1 exited a0 00000000 a1 00000001
# [status 3]
#
# None of twenty thousand seeds of a campaign finds it:
#
# $ rvcons campaign aba.elf --inputs 3,3,3,3 --first 1 --count 20000 --steps 2000 --summary
# seeds 20000 first 1 exited 4 faulted 0 running 0
#
# But bursts do, since one hart sleeps in them while another does much:
#
# $ rvcons campaign aba.elf --inputs 3,3,3,3 --first 1 --count 40 --steps 2000 --schedule bursts:30 --failures
# seed 8 exited 2 faulted 2 running 0
# seed 11 exited 2 faulted 2 running 0
# seed 21 exited 3 faulted 1 running 0
# seed 24 exited 3 faulted 1 running 0
# [status 3]

.globl _start
_start:
    la s0, top
    la s1, nodes
    mv s2, a1                   # rounds left
again:
    beqz s2, finished
    call pop
    mv s3, a0
    call pop
    mv s4, a0
    mv a0, s3
    call push
    mv a0, s4
    call push
    addi s2, s2, -1
    j again
finished:
    li a0, 0
    li a7, 93
    ecall

# Takes the topmost node into a0, 0 where there is none.
pop:
    lw t0, 0(s0)                # the topmost node ..
    beqz t0, empty
    lw t1, 0(t0)                # .. and what lies below it, as long as it is the topmost
swing:
    lr.w t2, (s0)
    bne t2, t0, pop
    sc.w t3, t1, (s0)           # the top is the same node: but what lies below it may be another one now
    bnez t3, swing
    addi t4, t0, 4
    li t5, 1
    amoswap.w t5, t5, (t4)      # it is mine
    bnez t5, twice
    mv a0, t0
    ret
empty:
    li a0, 0
    ret
twice:
    ebreak                      # it is another hart's

# Puts the node in a0 back, if there is one.
push:
    beqz a0, pushed
    sw zero, 4(a0)              # it is nobody's
link:
    lw t0, 0(s0)
    sw t0, 0(a0)
store:
    lr.w t2, (s0)
    bne t2, t0, link
    sc.w t3, a0, (s0)
    bnez t3, store
pushed:
    ret

.data
top: .word nodes
nodes: .word nodes+8, 0         # the node below, and whether a hart has it
.word nodes+16, 0
.word nodes+24, 0
.word 0, 0
