1: j 1f
1: beqz a0, 1b
