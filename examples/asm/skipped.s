.file "compiled.c"
.option nopic
.attribute arch, "rv32i2p1_a2p1"
.type main, @function
main:
    ret
.size main, .-main
.ident "by hand"
