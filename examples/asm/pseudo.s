start:
nop
mv a0, a1
not a0, a1
neg a0, a1
seqz a0, a1
snez a0, a1
sltz a0, a1
sgtz a0, a1
beqz a0, start
bnez a0, start
bgez a0, start
bltz a0, start
blez a0, start
bgtz a0, start
bgt a0, a1, start
ble a0, a1, start
bgtu a0, a1, start
bleu a0, a1, start
j start
jal start
jr a0
jalr a0
ret
li a0, 7
la a0, start+4
call start
tail start
