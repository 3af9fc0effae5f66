# Consensus, broken: any two harts that have exited must have the same value. Here the result of the
# SC is not tested.
#
# Inputs: what the hart would like to be decided. For 1 to 32 harts.
#
# The schedule refuses hart 0's SC, by `!`. Hart 0 goes on as if it had won; the word is still 0, so
# hart 1 wins too:
#
# $ rvcons asm --out lrsc_untested.elf lrsc_untested.s
# $ cat lrsc_untested.choices
# 0*7 0! 0*7 1*15
# $ rvcons run lrsc_untested.elf --inputs 4,5 --choices lrsc_untested.choices --rule lrsc
# hart 0 exited a0 00000004 a1 00000001
# hart 1 exited a0 00000005 a1 00000001
# verdict broken
# [status 4]
#
# Without a refusal it breaks too, where hart 0 stores between hart 1's LR and SC:
#
# $ echo '1*7 0*15 1*8' >between.choices
# $ rvcons run lrsc_untested.elf --inputs 4,5 --choices between.choices --rule lrsc
# hart 0 exited a0 00000004 a1 00000001
# hart 1 exited a0 00000005 a1 00000001
# verdict broken
# [status 4]
# $ rvcons campaign lrsc_untested.elf --inputs 4,5 --first 1 --count 1000 --steps 100 --rule lrsc | grep -c broken
# 489

.globl _start
_start:
    lui s0, 0x11
    slli t0, a0, 2
    add t0, t0, s0
    sw a1, 4(t0)
    addi t1, a0, 1
    lr.w t2, (s0)
    bne t2, zero, done
    sc.w t3, t1, (s0)           # t3 is 1 where nothing was stored; not tested
    addi t2, t1, 0
done:
    slli t2, t2, 2
    add t2, t2, s0
    lw a0, 0(t2)
    addi a1, zero, 1
    addi a7, zero, 93
    ecall
.bss
.zero 132
