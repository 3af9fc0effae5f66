# Load buffering: hart 0 reads x and writes y, hart 1 reads y and writes x. Under sequential
# consistency they don't both read 1. On a RISC-V processor they may, without fences: README.md
# here.
#
# Inputs: not used. Each hart waits until all are done and then exits with what was read: a0 is what
# hart 0 read of x, a1 what hart 1 read of y. Where both are 1, it stops at an EBREAK instead.
#
# The three outcomes, each by a schedule that is named after it:
#
# $ rvcons asm --out lb.elf lb.s
# $ for f in lb_*.choices; do echo $f; rvcons run lb.elf --inputs 0,0 --choices $f | sed -n 1p; done
# lb_00.choices
# hart 0 exited a0 00000000 a1 00000000
# lb_01.choices
# hart 0 exited a0 00000000 a1 00000001
# lb_10.choices
# hart 0 exited a0 00000001 a1 00000000
#
# The fourth never comes:
#
# $ rvcons campaign lb.elf --inputs 0,0 --first 1 --count 1000 --steps 300 | cut -d" " -f3- | sort | uniq -c
#    1000 exited 2 faulted 0 running 0

.globl _start
_start:
    la s0, x
    la s1, y
    la s2, seen
    li s3, 1
    bnez a0, second
    lw t0, 0(s0)                # read x
    sw s3, 0(s1)                # y = 1
    sw t0, 0(s2)
    j meet
second:
    lw t0, 0(s1)                # read y
    sw s3, 0(s0)                # x = 1
    sw t0, 4(s2)
meet:
    la s2, done
    amoadd.w zero, s3, (s2)
wait:
    lw t0, 0(s2)
    bne t0, a2, wait            # until all harts are done
    la s2, seen
    lw a0, 0(s2)
    lw a1, 4(s2)
    beqz a0, end
    beqz a1, end
    ebreak                      # what sequential consistency rules out
end:
    li a7, 93
    ecall

.data
x: .word 0
y: .word 0
seen: .word 0, 0
done: .word 0
