.globl _start
_start:
lui s0, 0x11
slli t0, a0, 2
add t0, t0, s0
sw a1, 4(t0)
addi t1, zero, 1
amoswap.w t2, t1, (s0)
beq t2, zero, win
xori t0, a0, 1
slli t0, t0, 2
add t0, t0, s0
lw a1, 4(t0)
win:
addi a0, a1, 0
addi a1, zero, 1
addi a7, zero, 93
ecall
.bss
.zero 12
