"""Dialogues with GDB, each command with words of the answer."""
import re
import subprocess

from gdb_parts.cases import ENDLESS, GDB, SERVER, Case, check, in_turns
from gdb_parts.watcher import Watcher

QUIET = ["set remotetimeout 60", "set pagination off", "set width 0", "set confirm off", "set debuginfod enabled off"]
MARK = "@@ "


def server_of(case):
    return "target remote | " + " ".join([*SERVER, *case.options])


def dialogue(case, commands):
    """The (command, what GDB says) of the connection and of each command."""
    words = [GDB, "-nx", "-q", "-batch"]
    for line in QUIET:
        words += ["-ex", line]
    words += [case.elf, "-ex", f"echo {MARK}target\\n", "-ex", server_of(case)]
    for line in commands:
        words += ["-ex", f"echo {MARK}{line.replace(chr(92), chr(92) * 2)}\\n", "-ex", line]
    done = subprocess.run(words, stdin=subprocess.DEVNULL, stdout=subprocess.PIPE, stderr=subprocess.STDOUT, timeout=ENDLESS)
    return [part.partition("\n")[::2] for part in done.stdout.decode(errors="replace").split(MARK)[1:]]


def check_words(name, said, wanted):
    """What GDB says to each command has the wanted words, in this order."""
    for (line, text), (wanted_line, *words) in zip(said[1:], wanted):
        check(f"{name}: which command", line, wanted_line)
        at, missing = 0, None
        for word in words:
            found = text.find(word, at)
            if found < 0:
                missing = word
                break
            at = found + len(word)
        check(f"{name}: {line}: {text.strip()}", missing, None)
    check(f"{name}: commands answered", len(said) - 1, len(wanted))


HIT_0, HIT_1 = 'Thread 1 "hart 0" hit', 'Thread 2 "hart 1" hit'
NO_MORE = "No more reverse-execution history."

# Each row is a command and the words that have to stand in what GDB says, in this order.
ADDERS = {
    "connected": [
        ("info threads", '* 1    Thread 1 "hart 0" (running) 0x00010000 in _start ()', '2    Thread 2 "hart 1" (running)'),
        ("x/2i $pc", "=> 0x10000 <_start>:", "0x10004 <_start+4>:"),
        ("print $a2", "= 2"),
        ("x/2xw 0x11000", "0x11000", "0x00000000\t0x00000000"),
        ("info line", "No line number information available"),
        ("monitor where", "step 0 of 600, next hart 0"),
        ("monitor schedule 0 2", "> 0 h0 00010000 ", "\n  1 h1 00010000 "),
        ("monitor help", "where, goto K, forward [N], back [N], schedule [A B], harts"),
        ("detach", "detached"),
    ],
    "breakpoints": [
        ("break *0x10060", "Breakpoint 1 at 0x10060"),
        ("continue", f"{HIT_0} Breakpoint 1, 0x00010060 in add ()"),
        ("continue", "[Switching to Thread 2]", f"{HIT_1} Breakpoint 1, 0x00010060 in add ()"),
        ("nexti", "0x00010064 in add ()"),
        ("monitor where", "step 20 of 600, next hart 0"),
        ("stepi", "0x00010068 in add ()"),
        ("reverse-continue", f"{HIT_1} Breakpoint 1, 0x00010060 in add ()"),
        ("reverse-continue", "[Switching to Thread 1]", f"{HIT_0} Breakpoint 1, 0x00010060 in add ()"),
        ("delete",),
        ("tbreak *0x10028 thread 2", "Temporary breakpoint 2 at 0x10028"),
        ("continue", "[Switching to Thread 2]", f"{HIT_1} Temporary breakpoint 2, 0x00010028 in again ()"),
        ("info registers s1 sp pc", "s1             0x1", "sp             0x11090", "pc             0x10028"),
        ("break *0x10080 if $t1 == 2", "Breakpoint 3 at 0x10080"),
        ("continue", "hit Breakpoint 3, 0x00010080 in add ()"),
        ("print $t1", "= 2"),
        ("delete",),
        ("advance *0x10098", "0x00010098 in add ()"),
        ("advance *0x100a8", "0x000100a8 in add ()"),
    ],
    "watches": [
        ("watch *(int*)0x11000", "Hardware watchpoint 1: *(int*)0x11000"),
        ("continue", f"{HIT_0} Hardware watchpoint 1", "Old value = 0", "New value = 1", "0x00010084 in add ()"),
        ("monitor where", "step 35 of 600, next hart 1"),
        ("continue", "Old value = 1", "New value = 2", "0x00010084 in add ()"),
        ("reverse-continue", "Old value = 2", "New value = 1", "0x00010080 in add ()"),
        ("reverse-continue", "Old value = 1", "New value = 0", "0x00010080 in add ()"),
        ("monitor where", "step 34 of 600, next hart 0"),
        ("reverse-continue", NO_MORE, "0x00010000 in _start ()"),
        ("delete",),
        ("rwatch *(int*)0x11000", "Hardware read watchpoint 2"),
        ("continue", f"{HIT_0} Hardware read watchpoint 2", "Value = 0", "0x0001007c in add ()"),
        ("delete",),
        ("awatch *(char*)0x11005", "Hardware access (read/write) watchpoint 3"),
        ("continue", f"{HIT_1} Hardware access (read/write) watchpoint 3", "Value = 0", "0x00010094 in add ()"),
        ("continue", f"{HIT_1} Hardware access (read/write) watchpoint 3", "Old value = 0", "New value = 3", "0x0001009c in add ()"),
        ("delete",),
        ("watch *(int*)0x1100c", "Hardware watchpoint 4"),
        ("continue", "Old value = 0", "New value = 1", "0x00010040 in once ()"),
        ("monitor harts", "hart 0 running", "hart 1 running"),
        ("reverse-stepi", "0x0001003c in once ()"),
        ("monitor harts", "hart 0 running reserves 0001100c", "hart 1 running reserves 0001100c"),
    ],
    "refused": [
        ("set var $a0 = 1", "remote failure reply 'E30'"),
        ("set var *(int*)0x11000 = 1", "Cannot access memory at address 0x11000"),
        ("jump *0x10004", "remote failure reply 'E30'"),
        ("print ((int(*)(void))0x10064)()", "Cannot access memory at address"),
        ("x/w 0x50000", "Cannot access memory at address 0x50000"),
        ("print $a0", "= 0"),
        ("monitor nonsense", "bad command"),
        ("monitor goto 601", "past end"),
        ("monitor where", "step 0 of 600, next hart 0"),
        ("monitor goto 600", "step 600 of 600, end"),
        ("maint flush register-cache",),
        ("continue", NO_MORE),
        ("monitor back 10", "step 590 of 600, next hart 0"),
        ("kill", "killed"),
    ],
}
FAULTS = [
    ("continue", "Thread 2", "received signal SIGILL", "0x0001001c in illegal ()"),
    ("continue", "Thread 3", "received signal SIGBUS", "0x00010020 in load_odd ()"),
    ("continue", "Thread 4", "received signal SIGBUS", "0x00010024 in store_odd ()"),
    ("continue", "Thread 5", "received signal SIGSEGV", "0x00010028 in load_nothing ()"),
    ("continue", "Thread 6", "received signal SIGSEGV", "0x0001002c in store_text ()"),
    ("continue", "Thread 7", "received signal SIGBUS", "0x00010030 in jump ()"),
    ("continue", "Thread 8", "received signal SIGSYS", "0x00010034 in call ()"),
    ("continue", "Thread 9", "received signal SIGTRAP", "0x00010038 in break ()"),
    ("continue", "Thread 1", "received signal SIGSEGV", "0x00000000 in ?? ()"),
    ("info threads", "(faulted FetchAccess)", "(faulted Illegal)", "(faulted LoadMisaligned)", "(faulted BadCall)", "(faulted Break)"),
    ("continue", NO_MORE),
    ("monitor where", "step 72 of 72, end"),
    ("reverse-stepi", "0x00000000 in ?? ()"),
    ("monitor where", "step 63 of 72, next hart 0"),
    ("reverse-continue", NO_MORE, "0x00010000 in _start ()"),
    ("monitor where", "step 0 of 72, next hart 0"),
]
LINES_OF_C = [
    ("break main", "Breakpoint 1 at"),
    ("continue", f"{HIT_0} Breakpoint 1, main (hart=0, input=3, harts=2) at adders.c:"),
    ("bt", "#0  main (hart=0, input=3, harts=2) at adders.c:"),
    ("continue", "[Switching to Thread 2]", f"{HIT_1} Breakpoint 1, main (hart=1, input=3, harts=2) at adders.c:"),
    ("delete",),
    ("step", "add(hart);"),
    ("step", "add (hart=1) at adders.c:", "unsigned seen = counter;"),
    ("next", "unsigned next = once(seen, 1);"),
    ("step", "once (old=0, by=1) at adders.c:", "unsigned sum = old + by;"),
    ("bt", "#0  once (old=0, by=1)", "#1", "in add (hart=1)", "#2", "in main (hart=1, input=3, harts=2)"),
    ("finish", "in add (hart=1)", "unsigned next = once(seen, 1);", "= 1"),
    ("reverse-step", "once (old=0, by=1) at adders.c:"),
    ("reverse-finish", "in add (hart=1)", "unsigned next = once(seen, 1);"),
    ("reverse-next", "unsigned next = once(seen, 1);"),
    ("tbreak adders.c:BYTES", "Temporary breakpoint 2"),
    ("continue", "hit Temporary breakpoint 2, add (hart=", "bytes[hart] = next;"),
    ("info locals", "seen = 0", "next = 1"),
    ("print counter", "= 1"),
    ("dprintf adders.c:BYTES,\"hart %u wrote %u\\n\", hart, next", "Dprintf 3 at"),
    ("continue", "hart 0 wrote 2", "hart 0 wrote 3", "received signal SIGTRAP", "main (hart="),
    ("info threads", "(faulted Break)", "main (hart="),
    ("delete",),
    ("watch counter", "Hardware watchpoint 4: counter"),
    ("reverse-continue", "hit Hardware watchpoint 4: counter", "Old value = 3", "New value = 2", "in add (hart=", "counter = next;"),
    ("info locals", "seen = 2", "next = 3"),
    ("continue", "Old value = 2", "New value = 3"),
]
OPTIMIZED = [
    ("break main", "Breakpoint 1 at"),
    ("continue", f"{HIT_0} Breakpoint 1, main (hart=", "at adders.c:"),
    ("continue", f"{HIT_1} Breakpoint 1, main (hart=", "at adders.c:"),
    ("print counter", "= 0"),
    ("delete",),
    ("continue", "received signal SIGTRAP", "at adders.c:"),
    ("info threads", "(faulted Break)"),
    ("watch counter", "Hardware watchpoint 2: counter"),
    ("reverse-continue", "hit Hardware watchpoint 2: counter", "Old value = 3", "New value = 2"),
    ("x/i $pc", "sw"),
    ("print counter", "= 2"),
    ("reverse-continue", "Old value = 2", "New value = 1"),
    ("continue", "Old value = 1", "New value = 2"),
]
MI = [
    ("-list-target-features", "features=[", '"reverse"'),
    ("-exec-step-instruction --thread 2", "^running", 'reason="end-stepping-range"', 'addr="0x00010004"', 'thread-id="2"'),
    ("-exec-step-instruction --thread 2 --reverse", "^running", 'reason="end-stepping-range"', 'addr="0x00010000"', 'thread-id="2"'),
    ("-exec-continue --reverse", "^running", "*stopped", 'addr="0x00010000"'),
]


def dialogues_of_adders(elf):
    case = Case("turns2", elf, [2, 2], in_turns(2, 600))
    for name, rows in ADDERS.items():
        check_words(name, dialogue(case, [row[0] for row in rows]), rows)
    registers(case)
    side_by_side(elf)
    through_mi(case)


def registers(case):
    """All registers of each hart and the data, at some positions: as the model has them. GDB leaves out `zero`."""
    run = case.run
    for position in (0, 77, 300, 600):
        commands = [f"monitor goto {position}", "maint flush register-cache", "maint flush dcache"]
        for number in range(2):
            commands += [f"thread {number + 1}", "info registers"]
        said = dialogue(case, [*commands, "x/16xb 0x11000"])
        for number in range(2):
            hart = run.harts[position][number]
            given = [int(value, 16) for value in re.findall(r"^\w+ +(0x[0-9a-f]+)", said[5 + 2 * number][1], re.M)]
            check(f"registers of hart {number} at {position}", given, [*hart.registers[1:], hart.pc])
        given = [int(value, 16) for value in re.findall(r"\t(0x[0-9a-f]+)", said[-1][1])]
        check(f"memory at {position}", given, [run.byte(position, 0x11000 + at) for at in range(16)])


def side_by_side(elf):
    """Two breakpoints side by side: each hit of each hart is told."""
    case = Case("turns3", elf, [2, 2, 2], in_turns(3, 900))
    watcher = Watcher(case.run, [0x10060, 0x10064], False)
    hits = [at for at, choice in enumerate(watcher.run.choices) if choice.ran and choice.pc in watcher.points]
    wanted = {(watcher.run.choices[at].hart, watcher.steps[at][watcher.run.choices[at].hart]) for at in hits}
    said = dialogue(case, ["break *0x10060", "break *0x10064", *["continue", "monitor where"] * 2 * len(wanted)])
    given = set()
    for (_, text), (_, where) in zip(said[3::2], said[4::2]):
        for thread in re.findall(r'Thread (\d+) "hart \d+" hit', text):
            position = int(re.search(r"step (\d+) of", where)[1])
            given.add((int(thread) - 1, watcher.steps[position][int(thread) - 1]))
    check("hits side by side", sorted(given), sorted(wanted))


def through_mi(case):
    """What a front end sends, by GDB's machine interface."""
    lines = "".join(f"{row[0]}\n" for row in [(f"-target-select remote | {' '.join([*SERVER, *case.options])}",), *MI])
    words = [GDB, "-nx", "-q", "-i=mi", *(word for line in [*QUIET, "set mi-async off"] for word in ("-ex", line)), case.elf]
    done = subprocess.run(words, input=lines, stdout=subprocess.PIPE, stderr=subprocess.STDOUT, timeout=ENDLESS, text=True)
    at = 0
    for line, *wanted in MI:
        for word in wanted:
            found = done.stdout.find(word, at)
            check(f"MI: {line}: {word}", found >= 0, True)
            at = max(at, found)
