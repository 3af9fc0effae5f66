# An addition by LR and SC that doesn't test whether the SC has stored.
#
# Inputs: how often the hart adds 1. Exits with the counter in a0 and what it must be in a1; where
# they differ the hart stops at an EBREAK.
#
# Hart 0 has loaded the counter and sleeps. Hart 1 adds 1, so that hart 0's SC stores nothing, and
# its result isn't tested:
#
# $ rvcons asm --out lrsc_untested.elf lrsc_untested.s
# $ cat lrsc_untested.choices
# 0*5 1*20 0*20 1*20
# $ rvcons run lrsc_untested.elf --inputs 1,1 --choices lrsc_untested.choices
# hart 0 faulted Break pc 00010054
# hart 1 faulted Break pc 00010054
# [status 3]
#
# A campaign finds it in half of the seeds, since it refuses store-conditionals too:
#
# $ rvcons campaign lrsc_untested.elf --inputs 1,1 --first 1 --count 1000 --steps 200 --summary
# seeds 483 first 1 exited 2 faulted 0 running 0
# seeds 517 first 2 exited 0 faulted 2 running 0
# [status 3]

.globl _start
_start:
    la s0, counter
    mv s1, a1                   # additions left
again:
    beqz s1, finished
    lr.w t0, (s0)
    addi t0, t0, 1
    sc.w t1, t0, (s0)           # t1 is 1 where nothing was stored; not tested
    addi s1, s1, -1
    j again
finished:
    la s2, asked
    amoadd.w zero, a1, (s2)     # what the counter must grow by
    la s3, done
    li t0, 1
    amoadd.w zero, t0, (s3)
wait:
    lw t0, 0(s3)
    bne t0, a2, wait            # until all harts are done
    lw a0, 0(s0)
    lw a1, 0(s2)
    beq a0, a1, end
    ebreak                      # an addition is lost
end:
    li a7, 93
    ecall

.data
counter: .word 0
asked: .word 0
done: .word 0
