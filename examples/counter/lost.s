# A shared counter that loses an update: adding 1 takes three instructions, and another hart can
# come between the first and the third.
#
# Each hart adds 1 to `counter` and to `done`, waits for all, and exits with the total in a0.
#
# Inputs: the total that the hart expects, 0 for none. On another total it stops at an EBREAK.
#
# Where one hart is done before the other begins, the total is 2:
#
# $ rvcons asm --out lost.elf lost.s
# $ rvcons run lost.elf --inputs 0,0 --choices one_by_one.choices
# hart 0 exited a0 00000002 a1 00000000
# hart 1 exited a0 00000002 a1 00000000
#
# Where hart 1's whole update falls between hart 0's read and its write, it is lost:
#
# $ cat between.choices
# 0 0 0
# 1 1 1 1 1
# 0 0
# 0 1 0 1 0 1 0 1 0 1 0 1 0 1 0 1 0 1 0 1 0 1 0 1
# $ rvcons run lost.elf --inputs 0,0 --choices between.choices
# hart 0 exited a0 00000001 a1 00000000
# hart 1 exited a0 00000001 a1 00000000
# $ rvcons run lost.elf --inputs 2,2 --choices between.choices
# hart 0 faulted Break pc 00010038
# hart 1 faulted Break pc 00010038
# [status 3]
#
# In turns both read 0 and both write 1:
#
# $ rvcons run lost.elf --inputs 0,0 --choices turns.choices
# hart 0 exited a0 00000001 a1 00000000
# hart 1 exited a0 00000001 a1 00000000
#
# Of a thousand random schedules about half lose the update:
#
# $ rvcons campaign lost.elf --inputs 2,2 --first 1 --count 1000 --steps 300 | cut -d" " -f3- | sort | uniq -c
#     557 exited 0 faulted 2 running 0
#     443 exited 2 faulted 0 running 0

.globl _start
_start:
    la s0, counter
    lw t0, 0(s0)                # read ..
    addi t0, t0, 1
    sw t0, 0(s0)                # .. and write: another hart can come between
    la s1, done
    li t1, 1
    amoadd.w zero, t1, (s1)     # one more hart is done
wait:
    lw t1, 0(s1)
    bne t1, a2, wait            # until all are
    lw a0, 0(s0)
    beqz a1, end
    beq a0, a1, end
    ebreak                      # not the total that this hart expects
end:
    li a7, 93
    ecall

.data
counter: .word 0
done: .word 0
