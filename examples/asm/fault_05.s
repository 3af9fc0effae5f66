addi a0, a0, 2048       # above 2047
