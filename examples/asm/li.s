li a0, -2048
li a0, 2048
li a0, 0x12345000
li a0, 0x12345fff
li a0, 0xffffffff
