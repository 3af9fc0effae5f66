"""Properties of one's own, and runs that hang, at a terminal."""

import os
import subprocess

from people_parts.terminal import ENDLESS, PROGRAM, at_terminal, check, through_pipe

TOP = os.path.dirname(os.path.dirname(os.path.dirname(os.path.realpath(__file__))))

# The property, and what is told behind a run of amo.s by two harts, 4 steps of hart 0 and 5 of hart 1.
ROWS = [
    (["--never-both", "_start+4..wait"],
     "after 5 choices: hart 0 at 00010010, _start+16; hart 1 at 00010004, _start+4; goto 5 in rvcons debug goes there\n"),
    (["--always", "counter < 2"],
     "after 8 choices: the word is 2, 0x00000002; goto 8 in rvcons debug goes there\n"),
    (["--always", "counter <= 2"], ""),
]  # fmt: skip


# A campaign of amo.s that breaks a property, and what is told behind it.
CAMPAIGN = ["campaign", "a.elf", "--inputs", "2,2", "--first", "5", "--count", "1", "--steps", "300", "--always", "counter < 2"]
HINT = (
    "seed 5 is the first such one. To look into it:\n"
    "    rvcons debug a.elf --inputs 2,2 --seed 5 --steps 300\n"
    "    rvcons run a.elf --inputs 2,2 --seed 5 --steps 300 --always 'counter < 2'\n"
    "    rvcons shrink a.elf --inputs 2,2 --seed 5 --steps 300 --always 'counter < 2'\n"
)
# The same of the schedules without a preemption.
BOUNDED = ["campaign", "a.elf", "--inputs", "2,2", "--preemptions", "0", "--steps", "40", "--until-failure", "--always", "counter < 2"]
BOUNDED_HINT = (
    "schedule 0 is the first such one. To look into it:\n"
    "    rvcons campaign a.elf --inputs 2,2 --preemptions 0 --steps 40 --choices-of 0 >failing.choices\n"
    "    rvcons debug a.elf --inputs 2,2 --choices failing.choices\n"
    "    rvcons run a.elf --inputs 2,2 --choices failing.choices --always 'counter < 2'\n"
)

# What is asked of every schedule of amo.s, the turns of the list that fails, and what is told of it.
EXPLORED = [
    (["--never-both", "wait..end"], 4,
     "after 16 choices: hart 0 at 00010020, wait; hart 1 at 00010020, wait; goto 16 in rvcons debug goes there\n"),
    (["--always", "counter < 2"], 2,
     "after 11 choices: the word is 2, 0x00000002; goto 11 in rvcons debug goes there\n"),
    (["--always", "counter < 2", "--never-both", "wait..end"], 2,
     "after 11 choices: the word is 2, 0x00000002; goto 11 in rvcons debug goes there\n"),
]  # fmt: skip
LIST = (
    "these choices fail, in {} turns, each a choice and the local steps behind it; no list of fewer choices fails.\n"
    "To look into it, write >failing.choices behind the command, and then\n"
    "    rvcons debug a.elf --inputs 2,2 --choices failing.choices\n"
)

# A run that hangs, and what is told of it: hart 1 marks that it waits, by its step behind 0*30, once
# hart 0 has handed the lock over.
HANGING = ["run", "h.elf", "--inputs", "1,1", "--list", "0*12 1*13 0*30 1*30", "--hangs"]
TOLD = (
    "the run hangs; 10000 further steps of the harts in turn lead here:\n"
    "hart 1 at 0001003c, spin+4: bne t0, zero, 0x00010038\n"
    "    it spins on the word 00011010, nodes+12, which is 1; choice 55 changed it last, hart 1 at 00010034, again+20\n"
    "    another hart would have to go on, and no other still runs\n"
    "shrink --must-exit in the place of run --hangs prints few of the choices that lead there\n"
)

# A run that only had too few steps.
SHORT = ["run", "a.elf", "--inputs", "2,2", "--list", "0*4 1*5", "--hangs"]


def properties():
    """Where the harts stood, or what the word was, is told where a run breaks a property."""
    subprocess.run([PROGRAM, "asm", "--out", "a.elf", f"{TOP}/examples/counter/amo.s"], check=True, timeout=ENDLESS)
    for asked, told in ROWS:
        words = ["run", "a.elf", "--inputs", "2,2", "--list", "0*4 1*5", *asked]
        check(f"a property {asked} through a pipe", through_pipe(words)[0], "")
        check(f"a property {asked} at a terminal", at_terminal(words), told)
    check("a campaign's property through a pipe", through_pipe(CAMPAIGN)[0], "")
    check("a campaign's property at a terminal", at_terminal(CAMPAIGN)[-len(HINT):], HINT)
    check("a bounded campaign's property through a pipe", through_pipe(BOUNDED)[0], "")
    check("a bounded campaign's property at a terminal", at_terminal(BOUNDED), BOUNDED_HINT)
    for asked, turns, told in EXPLORED:
        words = ["explore", "a.elf", "--inputs", "2,2", *asked]
        check(f"every schedule {asked} through a pipe", through_pipe(words)[0], "")
        check(f"every schedule {asked} at a terminal", at_terminal(words), LIST.format(turns) + told)
    subprocess.run([PROGRAM, "asm", "--out", "h.elf", f"{TOP}/examples/bugs/mcs_hangs.s"], check=True, timeout=ENDLESS)
    check("a hang through a pipe", through_pipe(HANGING)[0], "")
    check("a hang at a terminal", at_terminal(HANGING), TOLD)
    check("too few steps at a terminal", at_terminal(SHORT), "")
