addi a0, a0             # an operand is missing
