addi a0, q9, 1
