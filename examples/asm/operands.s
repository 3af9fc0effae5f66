add a0, a1, a2          # registers
addi a0, x11, -5        # register and immediate
slli a0, a1, 31         # a shift amount
lui a0, 0xfffff         # twenty bits
lw a0, 8(sp)            # load
lw a0, (fp)             # the offset 0 may be left out
sw a0, -4(sp)           # store: what is stored comes first
beq a0, a1, here        # branch
here:
jal ra, 0x00010000      # a number is the target's address
jalr ra, 4(t0)
jalr ra, t0, 4          # the same
lr.w a0, (a1)
sc.w.rl a0, a2, (a1)    # what is stored, then where
amoadd.w.aqrl a0, a2, 0(a1)
fence rw, w
fence                   # fence iorw, iorw
fence.tso
ecall
ebreak
