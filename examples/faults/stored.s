# A program that stores over its own next instruction. A fetch reads memory as it is now, so the new
# word runs: a0 is 5, not 1.
#
# Inputs: not used. It needs a segment that may be written and executed, as `run --hex` makes one;
# the words are those of the listing's last column.
#
# $ rvcons asm stored.s | sed 's/.* //' >stored.hex
# $ rvcons run --hex stored.hex --inputs 3 --choices stored.choices
# hart 0 exited a0 00000005 a1 00000003
#
# The text of an ELF file that the assembler writes may not be written, so there the store faults:
#
# $ rvcons asm --out stored.elf stored.s
# $ rvcons run stored.elf --inputs 3 --choices stored.choices
# hart 0 faulted StoreAccess pc 00010010
# [status 3]

.globl _start
_start:
    la t0, next
    li t1, 0x00500513           # the word of `addi a0, zero, 5`
    sw t1, 0(t0)
next:
    li a0, 1                    # stored over before it is fetched
    li a7, 93
    ecall
