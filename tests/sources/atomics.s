# Adds by an AMO and by LR and SC, and swaps.
# status 15
.globl _start
_start:
  la s0, word
  li t0, 5
  amoadd.w zero, t0, (s0)
retry:
  lr.w t1, (s0)
  add t1, t1, t0
  sc.w t2, t1, (s0)
  bnez t2, retry
  amoswap.w.aqrl a0, zero, (s0)
  add a0, a0, t0
  li a7, 93
  ecall
.bss
word: .zero 4
