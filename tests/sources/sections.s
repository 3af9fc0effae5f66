# Reads its data and its zeros, and calls a function that stands behind them in the text.
# status 21
.globl _start, table, count
.data
table:
  .word 5, 6, 7
  .byte 3
.bss
count: .zero 8
.text
_start:
  la s0, table
  la s1, count
  lw t0, 0(s1)
  bnez t0, wrong
  li t1, 3
1:
  lw t2, 0(s0)
  add t0, t0, t2
  addi s0, s0, 4
  addi t1, t1, -1
  bnez t1, 1b
  lbu t2, 0(s0)
  add t0, t0, t2
  sw t0, 4(s1)
  call ends
wrong:
  li a0, 1
  li a7, 93
  ecall
ends:
  lw a0, 4(s1)
  li a7, 93
  ecall
