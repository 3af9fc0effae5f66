1:  addi a0, a0, -1
    beqz a0, 1f
    j 1b
1:  j 1b
