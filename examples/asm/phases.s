addi a0, a0, 4096       # a range: seen last
here: nop
here: nop               # a name given twice: seen second
nop nop                 # the shape: seen first
