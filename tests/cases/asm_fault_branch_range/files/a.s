beq a0, a1, x
.zero 4096
x:
