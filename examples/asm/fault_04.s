addi a0, q9, 1          # no register has this name
