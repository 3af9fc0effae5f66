"""Sessions with the debugger at a pseudo-terminal."""
import subprocess

from people_parts.terminal import ENDLESS, PROGRAM, Terminal, at_terminal, check, through_pipe, write

GREETING = (
    "commands: help, where, goto K, forward [N], back [N], step H, break A, watch A, rwatch A, awatch A, delete A, go, rgo, steps A B, list [H], regs H [R..], mem A N, quit\n"
    "K, N and H are decimal; an address A is written with 0x, as 0x00010008; R is a register, as a0\n")

# Two harts count a word up, in turns. What is typed, and what is shown before the next prompt.
COUNTER = """.globl _start
_start:
    la s0, counter
    li t0, 1
    amoadd.w zero, t0, (s0)
    li a7, 93
    ecall
.data
counter: .word 5
"""
COUNTING = [
    (None, "0 of 12> ",
     GREETING + "next: hart 0 at 00010000, _start: auipc s0, 0x1\n"),
    ("where", "0 of 12> ", "step 0 of 12\nnext: hart 0 at 00010000, _start: auipc s0, 0x1\n"),
    ("forward 2", "2 of 12> ", "step 2 of 12\nnext: hart 0 at 00010004, _start+4: addi s0, s0, 0\n"),
    ("watch 00011000", "2 of 12> ",
     "watch 00002af8\n"
     "00011000 was read as a decimal number, which is 00002af8: for a hexadecimal address write 0x00011000\n"),
    ("watch 0x00011000", "2 of 12> ", "watch 00011000\n"),
    ("go", "7 of 12> ",
     "watch 00011000\nstep 7 of 12\nhart 0 changed 00011000 from 00000005 to 00000006\nnext: hart 1 at 0001000c, _start+12: amoadd.w zero, t0, (s0)\n"),
    ("go", "8 of 12> ",
     "watch 00011000\nstep 8 of 12\nhart 1 changed 00011000 from 00000006 to 00000007\nnext: hart 0 at 00010010, _start+16: addi a7, zero, 93\n"),
    ("rgo", "7 of 12> ",
     "watch 00011000\nstep 7 of 12\nhart 0 changed 00011000 from 00000005 to 00000006\nnext: hart 1 at 0001000c, _start+12: amoadd.w zero, t0, (s0)\n"),
    ("break 0x00010002", "7 of 12> ", "break 00010002\nno hart stops at 00010002: instructions begin at multiples of 4\n"),
    ("break 0x00011000", "7 of 12> ",
     "break 00011000\nno hart executes 00011000: it is in no segment that may be executed; rvcons info shows them\n"),
    ("goto 99", "7 of 12> ", "past end\nthe schedule has 12 choices, so positions go from 0 to 12\n"),
    ("regs 2", "7 of 12> ", "bad command\nthere are 2 harts, numbered from 0 to 1\n"),
    ("regs 2 a0", "7 of 12> ", "bad command\nthere are 2 harts, numbered from 0 to 1\n"),
    ("regs 0 s0 x5 pc", "7 of 12> ", "s0 00011000\nt0 00000001\npc 00010010\n"),
    ("regs 0 s0 pv", "7 of 12> ",
     "bad command\npv is no register: is pc meant? there are x0 to x31, or zero, ra, sp, gp, tp, t0 to t6, s0 to s11, a0 to a7, and pc\n"),
    ("regs 0 eflags", "7 of 12> ",
     "bad command\neflags is no register: write x0 to x31, or zero, ra, sp, gp, tp, t0 to t6, s0 to s11, a0 to a7, pc\n"),
    ("regs", "7 of 12> ",
     "bad command\nregs takes the number of a hart, and the names of up to 33 registers, as regs 0 or regs 0 a0 pc\n"),
    ("mem 0x00011000 65", "7 of 12> ", "bad command\nmem shows 1 to 64 words\n"),
    ("watch 0x", "7 of 12> ", "bad command\nwatch takes an address, as watch 0x00011000\n"),
    ("watch counter", "7 of 12> ", "watch 00011000\n"),
    ("break _start+0x10", "7 of 12> ", "break 00010010\n"),
    ("watch conter", "7 of 12> ", "no symbol\nconter is no symbol of the program: is counter meant?\n"),
    ("Where", "7 of 12> ",
     "bad command\nthe commands are help, where, goto, forward, back, step, break, watch, rwatch, awatch, delete, go, rgo, steps, list, regs, mem and quit, in small letters\n"),
    ("steps", "7 of 12> ", "bad command\nsteps takes two decimal numbers of choices, as steps 0 7\n"),
    ("steps 0 1", "7 of 12> ", "0 h0 00010000 auipc s0, 0x1\n"),
    ("help now", "7 of 12> ", "bad command\nhelp stands alone\n"),
    ("step 2", "7 of 12> ", "bad command\nthere are 2 harts, numbered from 0 to 1\n"),
    ("step", "7 of 12> ", "bad command\nstep takes the number of a hart, as step 1\n"),
    ("step 1", "8 of 12> ", "step 8 of 12\nnext: hart 0 at 00010010, _start+16: addi a7, zero, 93\n"),
    ("goto 10", "10 of 12> ", "step 10 of 12\nnext: hart 0 at 00010014, _start+20: ecall\n"),
    ("list", "10 of 12> ",
     "hart 0 running pc 00010014\n"
     "   00010000 <_start> auipc s0, 0x1\n   00010004 <_start+4> addi s0, s0, 0\n"
     "   00010008 <_start+8> addi t0, zero, 1\n   0001000c <_start+12> amoadd.w zero, t0, (s0)\n"
     "   00010010 <_start+16> addi a7, zero, 93\n=> 00010014 <_start+20> ecall\n"),
    ("list 2", "10 of 12> ", "bad command\nthere are 2 harts, numbered from 0 to 1\n"),
    ("list one", "10 of 12> ", "bad command\nlist takes nothing, or the number of a hart, as list 1\n"),
    ("delete 0x00010012", "10 of 12> ", "delete 00010012\n"),
    ("delete", "10 of 12> ", "bad command\ndelete takes an address, as delete 0x00010008\n"),
    ("delete 0x00011000", "10 of 12> ", "delete 00011000\n"),
    ("awatch counter", "10 of 12> ", "awatch 00011000\n"),
    ("rgo", "8 of 12> ",
     "break h1 00010010\nawatch 00011000\nstep 8 of 12\nhart 1 changed 00011000 from 00000006 to 00000007\nnext: hart 0 at 00010010, _start+16: addi a7, zero, 93\n"),
    ("rwatch", "8 of 12> ", "bad command\nrwatch takes an address, as watch 0x00011000\n"),
    ("goto 10", "10 of 12> ", "step 10 of 12\nnext: hart 0 at 00010014, _start+20: ecall\n"),
    ("go", "12 of 12> ",
     "end\nstep 12 of 12\nhart 0 has exited with 00000000\nhart 1 has exited with 00000001\nnext: no choice is left\n"),
    ("step 0", "12 of 12> ", "past end\nhart 0 is not chosen from here on\n"),
    ("list", "12 of 12> ", "past end\nno choice is left: name a hart, as list 0\n"),
    ("goto 12", "12 of 12> ", "step 12 of 12\nnext: no choice is left\n"),
    ("quit", None, ""),
]

# A hart that faults.
BREAK = ".globl _start\n_start:\n    nop\n    ebreak\n"
BREAKING = [
    (None, "0 of 3> ", GREETING + "next: hart 0 at 00010000, _start: addi zero, zero, 0\n"),
    ("go", "3 of 3> ",
     "end\nstep 3 of 3\nhart 0 at 00010004, _start+4: it has faulted, and regs 0 shows how\nnext: no choice is left\n"),
    ("goto 2", "2 of 3> ", "step 2 of 3\nnext: hart 0 at 00010004, _start+4: it has faulted, and does nothing\n"),
    ("go", "3 of 3> ", "end\nstep 3 of 3\nnext: no choice is left\n"),
    ("quit", None, ""),
]


def assemble(name, source):
    write(f"{name}.s", source)
    subprocess.run([PROGRAM, "asm", "--out", f"{name}.elf", f"{name}.s"], check=True, timeout=ENDLESS)


def session(name, words, lines, **ends):
    terminal = Terminal(words.split(), **ends)
    for typed, prompt, shown in lines:
        echo = ""
        if typed is not None:
            terminal.type(typed)
            echo = typed + "\n"
        check(f"{name}: {typed}", terminal.until(prompt), echo + shown + (prompt or ""))
    check(f"{name} ends", terminal.child.wait(timeout=10), 0)


def sessions():
    assemble("counter", COUNTER)
    write("counter.choices", "0 1 0 1 0 1 0 1 0 1 0 1\n")
    words = "debug counter.elf --inputs 1,1 --choices counter.choices"
    session("a session at a terminal", words, COUNTING)
    with open("errors", "w+b") as errors:
        session("a session at a terminal with 2>errors", words, COUNTING, stderr=errors)
        errors.seek(0)
        check("nothing stands in errors", errors.read(), b"")
    assemble("break", BREAK)
    session("a session with a fault", "debug break.elf --inputs 7 --list 0*3", BREAKING)
    words = words.split()
    error, shown = through_pipe(words, b"watch 00011000\nforward 2\n")
    check("a session through pipes", (error, shown), ("", "watch 00002af8\nstep 2 of 12\n"))
    # Standard error alone is a terminal: the answers are those for a program.
    with open("commands", "wb") as commands:
        commands.write(b"where\n")
    with open("commands", "rb") as commands, open("answers", "w+b") as answers:
        told = at_terminal(words, stdin=commands, stdout=answers)
        answers.seek(0)
        check("a session with 2>terminal", (told, answers.read()), ("", b"step 0 of 12\n"))
