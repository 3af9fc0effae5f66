# The nine faults, one for each input 0 to 8. A faulting instruction changes nothing but its hart's
# state: pc stays at it, and so do all registers.
#
# Inputs: which fault.
#
# $ rvcons asm --out faults.elf faults.s
# $ rvcons run faults.elf --inputs 0,1,2,3,4,5,6,7 --choices each.choices
# hart 0 faulted FetchAccess pc 00000000
# hart 1 faulted Illegal pc 0001001c
# hart 2 faulted LoadMisaligned pc 00010020
# hart 3 faulted StoreMisaligned pc 00010024
# hart 4 faulted LoadAccess pc 00010028
# hart 5 faulted StoreAccess pc 0001002c
# hart 6 faulted JumpMisaligned pc 00010030
# hart 7 faulted BadCall pc 00010034
# [status 3]
# $ rvcons run faults.elf --inputs 8 --choices nine.choices
# hart 0 faulted Break pc 00010038
# [status 3]

.globl _start
_start:
    la t0, kinds
    slli t1, a1, 2
    add t0, t0, t1
    lw t0, 0(t0)
    jr t0                       # to the input's fault

fetch:
    jr zero                     # nothing may be executed at 0
illegal:
    .word 0xffffffff            # no instruction
load_odd:
    lw a0, 2(zero)              # no multiple of 4 (nor mapped: misaligned comes first)
store_odd:
    sh a0, 1(zero)              # no multiple of 2
load_nothing:
    lw a0, 0(zero)              # not mapped
store_text:
    sw a0, 0(t0)                # the text can be read and executed alone
jump:
    jalr zero, 2(t0)            # to no multiple of 4
call:
    ecall                       # a7 is 0, not 93
break:
    ebreak

.data
kinds: .word fetch, illegal, load_odd, store_odd, load_nothing, store_text, jump, call, break
