# Exits with a status of its own.
# status 42
.globl _start
_start:
  li a0, 42
  li a7, 93
  ecall
