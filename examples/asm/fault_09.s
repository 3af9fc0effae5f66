.bss
.word 1                 # .bss has no bytes of its own
