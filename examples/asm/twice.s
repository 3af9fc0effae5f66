.globl twice
twice:
    add a0, a1, a1
    ret
