# Exits with the greater of the input and 100.
.globl _start
_start:
    li t0, 100
    bgeu a1, t0, large
    mv a1, t0
large:
    mv a0, a1
    li a7, 93
    ecall
