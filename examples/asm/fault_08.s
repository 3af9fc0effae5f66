beq a0, a1, far         # a branch reaches 4094 bytes ahead
.zero 4096
far:
