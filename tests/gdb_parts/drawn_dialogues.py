"""Random dialogues with GDB."""
import random
import re

from gdb_parts.cases import Case
from gdb_parts.dialogues import dialogue
from gdb_parts.watcher import Watcher


def view(said):
    """What GDB says without what other harts decide: values, notices and addresses in lines."""
    told = []
    for line, text in said[1:]:
        if line.startswith("tbreak"):
            continue
        text = re.sub(r"0x[0-9a-f]+ in |Value returned.*|\[.*?\]|Run till exit.*|seen=.*|old=\d+|^0x[0-9a-f]+\t", "", text, flags=re.M)
        told.append((line, re.sub(r"\n+", "|", text.strip())))
    return told


FORWARD_LINES = ["next", "next", "step", "step", "stepi", "next", "step", "finish"]
BACK_LINES = ["reverse-next", "reverse-step", "reverse-step", "reverse-stepi", "reverse-next", "reverse-finish"]
FORWARD_CODE = ["stepi", "nexti"]
BACK_CODE = ["reverse-stepi", "reverse-nexti"]


def mixed(drawn, kind, count):
    """Choices of three harts: by turns, each drawn, or in bursts."""
    hart, chosen = 0, []
    while len(chosen) < count:
        hart = (hart + 1) % 3 if kind == "turns" else drawn.randrange(3)
        chosen += [hart] * (drawn.randrange(1, 40) if kind == "bursts" else 1)
    return " ".join(map(str, chosen))


def alone(seed, elf, has_lines):
    """Steps of one hart show the same whatever the others do: as under a schedule of it alone."""
    drawn = random.Random(seed)
    kind, thread = ("turns", "even", "bursts")[seed % 3], drawn.randint(1, 3)
    forwards, back = (FORWARD_LINES, BACK_LINES) if has_lines else (FORWARD_CODE, BACK_CODE)
    first = f"tbreak {'main' if has_lines else '*0x10020'} thread {thread}"
    commands = [first, "continue", *(drawn.choice(forwards) for _ in range(8)), *(drawn.choice(back) for _ in range(8))]
    solo = Case(f"solo{seed}", elf, [20, 20, 20], f"{thread - 1}*1500")
    mix = Case(f"mix{seed}", elf, [20, 20, 20], mixed(drawn, kind, 4500))
    given, wanted = (view(dialogue(case, commands)) for case in (mix, solo))
    return f"{kind} of seed {seed}: hart {thread - 1} as it is alone", given, wanted


MOVES_OF_ALL = ["continue"] * 4 + ["stepi", "nexti", "reverse-stepi", "reverse-continue", "reverse-continue", "reverse-nexti", "finish"]


def missed(seed, elf):
    """No breakpoint and no change of a watched word is missed, whatever came before."""
    drawn = random.Random(seed)
    case = Case(f"missed{seed}", elf, [9, 9, 9], mixed(drawn, ("turns", "even", "bursts")[seed % 3], 2500))
    is_watch = seed % 4 == 3
    points = 0x11000 if is_watch else drawn.choice([[0x10060, 0x10080], [0x10060, 0x10064, 0x10024]])
    commands = ["watch *(int*)0x11000"] if is_watch else [f"break *{at}" for at in points]
    head = 1 + len(commands)
    for _ in range(14):
        line = drawn.choice([*MOVES_OF_ALL, f"thread {drawn.randint(1, 3)}"])
        commands += ["print $_thread", "monitor where", line, "monitor where"]
    said = dialogue(case, commands)
    watcher = Watcher(case.run, points, is_watch)
    for at in range(head, len(said) - 3, 4):
        (_, thread), (_, first), (line, text), (_, last) = said[at : at + 4]
        places = [re.search(r"step (\d+) of", where) for where in (first, last)]
        if None in places:
            return f"seed {seed}: {line}", text, "an answer"
        if not line.startswith("thread"):
            watcher.moved(line, int(thread.split("=")[1]) - 1, *(int(place[1]) for place in places), text)
    is_whole = len(said) == 1 + len(commands) and "internal-error" not in "".join(text for _, text in said)
    return f"seed {seed}: nothing is missed", (watcher.missed, is_whole), ([], True)
