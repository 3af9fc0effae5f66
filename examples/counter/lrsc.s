# The shared counter repaired by LR and SC: SC writes only where no other hart has written the word
# since LR, else the hart tries again.
#
# Each hart adds 1 to `counter` and to `done`, waits for all, and exits with the total in a0.
#
# Inputs: the total that the hart expects, 0 for none. On another total it stops at an EBREAK.
#
# In turns hart 1 has to try again:
#
# $ rvcons asm --out lrsc.elf lrsc.s
# $ rvcons run lrsc.elf --inputs 2,2 --choices turns.choices
# hart 0 exited a0 00000002 a1 00000002
# hart 1 exited a0 00000002 a1 00000002
#
# An SC may also fail for no reason. Here the schedule refuses hart 0's first one:
#
# $ cat refused.choices
# 0 0 0 0 0! 0
# 0 0 0 0 0 0 0 0 0 0 0 0 0 0
# 1 1 1 1 1 1 1 1 1 1 1 1 1 1 1 1 1 1 1 1
# 0 0 0 0 0 0 0 0 0 0
# $ rvcons run lrsc.elf --inputs 2,2 --choices refused.choices
# hart 0 exited a0 00000002 a1 00000002
# hart 1 exited a0 00000002 a1 00000002
#
# No random schedule loses an update. One SC in sixteen is refused in them:
#
# $ rvcons campaign lrsc.elf --inputs 2,2 --first 1 --count 1000 --steps 300 | cut -d" " -f3- | sort | uniq -c
#    1000 exited 2 faulted 0 running 0

.globl _start
_start:
    la s0, counter
retry:
    lr.w t0, (s0)               # read, and reserve the word
    addi t0, t0, 1
    sc.w t1, t0, (s0)           # write, where no other hart has written since
    bnez t1, retry
    la s1, done
    li t1, 1
    amoadd.w zero, t1, (s1)     # one more hart is done
wait:
    lw t1, 0(s1)
    bne t1, a2, wait            # until all are
    lw a0, 0(s0)
    beqz a1, end
    beq a0, a1, end
    ebreak                      # not the total that this hart expects
end:
    li a7, 93
    ecall

.data
counter: .word 0
done: .word 0
