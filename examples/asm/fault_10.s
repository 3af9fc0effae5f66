.byte 1
nop                     # at 00010001
