mul a0, a0, a1          # no instruction of RV32I or A
