here:
nop
here:                   # the second of this name
