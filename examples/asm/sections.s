.globl _start
_start:
    la a0, table
    lw a0, 4(a0)
    la a1, room
    sw a0, 0(a1)
    li a7, 93
    ecall
.data
table: .word 1, _start, table+4
letter: .byte 0x41
.bss
room: .zero 8
