"""Answers as objects of JSON: each has the facts of the lines, and the same status."""

import glob
import json
import os
import re
import subprocess

from people_parts.terminal import ENDLESS, PROGRAM, check

TOP = os.path.dirname(os.path.dirname(os.path.dirname(os.path.realpath(__file__))))

HART = re.compile(
    r"hart (\d+) (?:(running) pc ([0-9a-f]{8})|(exited) a0 ([0-9a-f]{8}) a1 ([0-9a-f]{8})|(faulted) (\w+) pc ([0-9a-f]{8}))"
)
WORD = "([0-9a-f]{8})"
PROPERTY = re.compile(rf"(?:never-both {WORD}\.\.{WORD}|always {WORD} (\S+) {WORD}) (?:kept|broken after (\d+))")
END = re.compile(r"ends exited (\d+) faulted (\d+) running (\d+)(?: (kept|broken))?((?: \d+:a[01]=[0-9a-f]{8})*)")
COUNTS = r"exited (\d+) faulted (\d+) running (\d+)"
# A line of a campaign: a seed or a row, then the verdict, properties, results and faults.
RUN = re.compile(
    rf"(?:seed (\d+)|seeds (\d+) first (\d+)) {COUNTS}(?: (kept|broken))?((?: (?:never-both|always) (?:kept|broken))*)"
    r"((?: \d+:a0=[0-9a-f]{8} \d+:a1=[0-9a-f]{8})*)((?: \w+ at [0-9a-f]{8})*)"
)
BOUND = re.compile(r"hart \d+ has (?:stopped after (\d+) own steps|no bound: it may wait for ever)")

# Of run, behind the program: schedules, with a rule or properties.
RUNS = [
    ["--seed", "1", "--steps", "40"],
    ["--seed", "2", "--steps", "400", "--must-exit", "--rule", "swap"],
    ["--turns", "300"],
    ["--seed", "3", "--steps", "200", "--always", "0x10000 != 0", "--never-both", "0x10004..0x10010"],
    ["--list", "", "--always", "0x10000 <u 5"],
]
EXPLORATIONS = [[], ["--bounds"], ["--must-exit", "--rule", "swap", "--bounds"], ["--never-both", "0x10004..0x10010"]]
CAMPAIGNS = [
    [],
    ["--failures", "--must-exit", "--rule", "swap"],
    ["--summary", "--always", "0x10000 != 0", "--never-both", "0x10004..0x10010"],
    ["--summary", "--outcomes"],
    ["--summary", "--by-cause"],
    ["--until-failure", "--must-exit", "--always", "0x10000 <u 5"],
]
# The most worlds that are looked at.
MOST = 200


def number(text):
    return int(text, 16)


def hart_of(line):
    at, running, stood, exited, a0, a1, faulted, cause, pc = HART.fullmatch(line).groups()
    hart = {"hart": int(at), "state": running or exited or faulted}
    if running:
        return hart | {"pc": number(stood)}
    return hart | ({"a0": number(a0), "a1": number(a1)} if exited else {"cause": cause, "pc": number(pc)})


def property_of(line):
    begin, end, word, comparison, wanted, after = PROPERTY.fullmatch(line).groups()
    broken = {"broken_after": int(after) if after else None}
    if begin:
        return {"kind": "never-both", "from": number(begin), "to": number(end)} | broken
    return {"kind": "always", "address": number(word), "comparison": comparison, "number": number(wanted)} | broken


def run_of(text):
    """The object of the lines of `run`."""
    lines = text.splitlines()
    return {
        "harts": [hart_of(line) for line in lines if line.startswith("hart ")],
        "verdict": next((line.split()[1] for line in lines if line.startswith("verdict ")), None),
        "properties": [property_of(line) for line in lines if line.startswith(("never-both ", "always "))],
    }


def segment_of(line):
    _, base, size, rights = line.split()
    return {"base": number(base), "size": int(size), "rights": rights}


def info_of(text):
    """The object of the lines of `info`."""
    entry, *lines, library = text.splitlines()
    symbols = [line.split(" ", 2)[1:] for line in lines if line.startswith("symbol ")]
    return {
        "entry": number(entry.split()[1]),
        "segments": [segment_of(line) for line in lines if line.startswith("segment ")],
        "symbols": None if "symbols bad" in lines else [{"name": name, "address": number(at)} for at, name in symbols],
        "library": None if library == "library none" else library.split()[1],
    }


def end_of(line):
    exited, faulted, running, verdict, words = END.fullmatch(line).groups()
    words = [number(word.split("=")[1]) for word in words.split()]
    returned = [{"a0": a0, "a1": a1} for a0, a1 in zip(words[::2], words[1::2])]
    counts = {"exited": int(exited), "faulted": int(faulted), "running": int(running)}
    return counts | {"verdict": verdict, "returned": returned}


def bound_of(line):
    steps = BOUND.fullmatch(line).group(1)
    return int(steps) if steps else None


def explore_of(text, status, most=MOST):
    """The object of what `explore` prints, without the turns of a list, which no line has."""
    if status == 6:
        return {"answer": "undecided", "most": most}
    lines = text.splitlines()
    head = re.fullmatch(r"every schedule: (\d+) worlds(, each with a way out)?", lines[0]) if lines else None
    if not head:
        return {"choices": text}
    return {
        "answer": "holds",
        "worlds": int(head.group(1)),
        "ways_out": True if head.group(2) else None,
        "ends": [end_of(line) for line in lines if line.startswith("ends ")],
        "bounds": [bound_of(line) for line in lines if line.startswith("hart ")],
    }


def words_by(text, size):
    """The words of a text, so many at a time."""
    words = text.split()
    return [words[at : at + size] for at in range(0, len(words), size)]


def result_of(words):
    a0, a1 = (word.split("=") for word in words)
    return {"hart": int(a0[0].split(":")[0]), "a0": number(a0[1]), "a1": number(a1[1])}


def campaign_line_of(line, options):
    """The object of a line of `campaign`."""
    seed, seeds, first, exited, faulted, running, verdict, judged, results, faults = RUN.fullmatch(line).groups()
    found = {"seed": int(seed)} if seed else {"seeds": int(seeds), "first": int(first)}
    found |= {"exited": int(exited), "faulted": int(faulted), "running": int(running), "verdict": verdict}
    if judged:
        found["properties"] = [{"kind": kind, "verdict": word} for kind, word in words_by(judged, 2)]
    if "--outcomes" in options:
        found["results"] = [result_of(words) for words in words_by(results, 2)]
    if "--by-cause" in options:
        found["faults"] = [{"cause": cause, "pc": number(pc)} for cause, _, pc in words_by(faults, 3)]
    return found


def compare_campaign(name, words, options):
    """Each line of a campaign is an object with the facts of the line, and the status is the same."""
    status, text = asked([*words, *options])
    given, objects_text = asked([*words, *options, "--json"])
    wanted = [campaign_line_of(line, options) for line in text.splitlines()]
    check(name, (given, [json.loads(line) for line in objects_text.splitlines()]), (status, wanted))


def asked(words):
    done = subprocess.run([PROGRAM, *words], capture_output=True, timeout=ENDLESS)
    return done.returncode, done.stdout.decode()


def object_of(name, words):
    """The status and the object of a command with --json, which is one line."""
    status, text = asked([*words, "--json"])
    check(f"{name} is one line", (text.count("\n"), text[-1:]), (1, "\n"))
    return status, json.loads(text)


def without_turns(found):
    """An answer of `explore` without what its lines don't have: the turns, and how a list ends."""
    if found["answer"] not in ("fails", "hangs"):
        return found | ({"ends": sorted_ends(found["ends"])} if "ends" in found else {})
    check("a list has turns", found["turns"] >= 0, True)
    return {"choices": found["choices"]}


def sorted_ends(ends):
    return sorted(ends, key=json.dumps)


def compare(name, words, told):
    """A command's object has the facts of its lines, and its status is the same."""
    status, text = asked(words)
    check(name, object_of(name, words), (status, told(text, status)))


def of_program(name, elf):
    compare(f"info {name}", ["info", elf], lambda text, _: info_of(text))
    compare(f"info --by-address {name}", ["info", elf, "--by-address"], lambda text, _: info_of(text))
    for options in RUNS:
        words = ["run", elf, "--inputs", "2,2", *options]
        compare(f"run {name} {options}", words, lambda text, _: run_of(text))
    words = ["campaign", elf, "--inputs", "2,2", "--first", "1", "--count", "20", "--steps", "200"]
    for options in CAMPAIGNS:
        compare_campaign(f"campaign {name} {options}", words, options)
    for options in EXPLORATIONS:
        words = ["explore", elf, "--inputs", "2,2", "--worlds", str(MOST), *options]
        status, text = asked(words)
        given, found = object_of(f"explore {name}", words)
        wanted = explore_of(text, status, MOST)
        if "ends" in wanted:
            wanted["ends"] = sorted_ends(wanted["ends"])
        check(f"explore {name} {options}", (given, without_turns(found)), (status, wanted))


def objects():
    """Each example that is assembled by itself, under a few schedules."""
    sources = sorted(glob.glob(f"{TOP}/examples/**/*.s", recursive=True))
    seen = 0
    for source in sources:
        name = os.path.relpath(source, TOP)
        if asked(["asm", "--out", "object.elf", source])[0] == 0:
            of_program(name, "object.elf")
            seen += 1
    check("most examples are assembled by themselves", seen > len(sources) // 2, True)
