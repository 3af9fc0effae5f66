# Independent reads of independent writes: hart 0 writes x, hart 1 writes y, hart 2 reads x and then
# y, hart 3 reads y and then x. Under sequential consistency harts 2 and 3 don't see the writes in
# different orders. On a RISC-V processor they may, without fences: README.md here.
#
# Inputs: not used. Each hart waits until all are done and then exits with what was read, a
# hexadecimal digit each: a0 is what hart 2 read of x and y, a1 what hart 3 read of y and x. Where
# both are 00000010, it stops at an EBREAK instead.
#
# The fifteen outcomes, each by a schedule that is named after the four reads:
#
# $ rvcons asm --out iriw.elf iriw.s
# $ for f in iriw_*.choices; do echo $f; rvcons run iriw.elf --inputs 0,0,0,0 --choices $f | sed -n 1p; done
# iriw_0000.choices
# hart 0 exited a0 00000000 a1 00000000
# iriw_0001.choices
# hart 0 exited a0 00000000 a1 00000001
# iriw_0010.choices
# hart 0 exited a0 00000000 a1 00000010
# iriw_0011.choices
# hart 0 exited a0 00000000 a1 00000011
# iriw_0100.choices
# hart 0 exited a0 00000001 a1 00000000
# iriw_0101.choices
# hart 0 exited a0 00000001 a1 00000001
# iriw_0110.choices
# hart 0 exited a0 00000001 a1 00000010
# iriw_0111.choices
# hart 0 exited a0 00000001 a1 00000011
# iriw_1000.choices
# hart 0 exited a0 00000010 a1 00000000
# iriw_1001.choices
# hart 0 exited a0 00000010 a1 00000001
# iriw_1011.choices
# hart 0 exited a0 00000010 a1 00000011
# iriw_1100.choices
# hart 0 exited a0 00000011 a1 00000000
# iriw_1101.choices
# hart 0 exited a0 00000011 a1 00000001
# iriw_1110.choices
# hart 0 exited a0 00000011 a1 00000010
# iriw_1111.choices
# hart 0 exited a0 00000011 a1 00000011
#
# The sixteenth never comes:
#
# $ rvcons campaign iriw.elf --inputs 0,0,0,0 --first 1 --count 1000 --steps 500 | cut -d" " -f3- | sort | uniq -c
#    1000 exited 4 faulted 0 running 0

.globl _start
_start:
    la s0, x
    la s1, y
    la s2, seen
    li s3, 1
    beqz a0, write_x
    li t0, 1
    beq a0, t0, write_y
    li t0, 2
    beq a0, t0, x_then_y
    lw t1, 0(s1)                # hart 3 reads y, then x
    lw t2, 0(s0)
    slli t1, t1, 4
    or t1, t1, t2
    sw t1, 4(s2)
    j meet
x_then_y:
    lw t1, 0(s0)                # hart 2 reads x, then y
    lw t2, 0(s1)
    slli t1, t1, 4
    or t1, t1, t2
    sw t1, 0(s2)
    j meet
write_x:
    sw s3, 0(s0)
    j meet
write_y:
    sw s3, 0(s1)
meet:
    la s2, done
    amoadd.w zero, s3, (s2)
wait:
    lw t0, 0(s2)
    bne t0, a2, wait            # until all harts are done
    la s2, seen
    lw a0, 0(s2)
    lw a1, 4(s2)
    li t0, 0x10
    bne a0, t0, end
    bne a1, t0, end
    ebreak                      # what sequential consistency rules out
end:
    li a7, 93
    ecall

.data
x: .word 0
y: .word 0
seen: .word 0, 0
done: .word 0
