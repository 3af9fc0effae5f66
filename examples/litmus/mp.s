# Message passing: hart 0 writes x, the message, and then y, the flag; hart 1 reads y and then x.
# Under sequential consistency it never reads the flag without the message. On a RISC-V processor it
# may, without fences: README.md here.
#
# Inputs: not used. Each hart waits until all are done and then exits with what was read: a0 is what
# hart 1 read of y, a1 what it read of x. Where a0 is 1 and a1 is 0, it stops at an EBREAK instead.
#
# The three outcomes, each by a schedule that is named after it:
#
# $ rvcons asm --out mp.elf mp.s
# $ for f in mp_*.choices; do echo $f; rvcons run mp.elf --inputs 0,0 --choices $f | sed -n 1p; done
# mp_00.choices
# hart 0 exited a0 00000000 a1 00000000
# mp_01.choices
# hart 0 exited a0 00000000 a1 00000001
# mp_11.choices
# hart 0 exited a0 00000001 a1 00000001
#
# The fourth never comes:
#
# $ rvcons campaign mp.elf --inputs 0,0 --first 1 --count 1000 --steps 300 | cut -d" " -f3- | sort | uniq -c
#    1000 exited 2 faulted 0 running 0

.globl _start
_start:
    la s0, x
    la s1, y
    la s2, seen
    li s3, 1
    bnez a0, second
    sw s3, 0(s0)                # x = 1: the message
    sw s3, 0(s1)                # y = 1: it is there
    j meet
second:
    lw t0, 0(s1)                # read y
    lw t1, 0(s0)                # read x
    sw t0, 0(s2)
    sw t1, 4(s2)
meet:
    la s2, done
    amoadd.w zero, s3, (s2)
wait:
    lw t0, 0(s2)
    bne t0, a2, wait            # until all harts are done
    la s2, seen
    lw a0, 0(s2)
    lw a1, 4(s2)
    beqz a0, end
    bnez a1, end
    ebreak                      # what sequential consistency rules out
end:
    li a7, 93
    ecall

.data
x: .word 0
y: .word 0
seen: .word 0, 0
done: .word 0
