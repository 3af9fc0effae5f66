lui a0, %hi(value)
lw a1, %lo(value)(a0)
lw a2, %lo(value+4)(a0)
lui a3, %hi(0x12345fff)
addi a3, a3, %lo(0x12345fff)
.data
.zero 0x900
value: .word 1, 2
