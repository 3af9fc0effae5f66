"""The run that the model of a session is about, by the machine of `tests/traces`."""
import collections
import importlib.machinery
import importlib.util
import os

TESTS = os.path.dirname(os.path.dirname(os.path.realpath(__file__)))


def load(name):
    """A script of `tests`, as a module."""
    loader = importlib.machinery.SourceFileLoader(name, os.path.join(TESTS, name))
    spec = importlib.util.spec_from_loader(name, loader)
    module = importlib.util.module_from_spec(spec)
    loader.exec_module(module)
    return module


traces = load("traces")

# A hart at a position: its registers, where it stands, what it has reserved, and how it ended.
Hart = collections.namedtuple("Hart", "registers pc reserved state")
# A choice: its hart, whether it is refused, where the hart stood, whether it ran, the access that
# took place as (kind, address, bytes before, bytes after), the fault, and where the hart is then.
Choice = collections.namedtuple("Choice", "hart is_refused pc ran access fault next_pc")


def state_of(hart):
    """What is told of a hart: whether it runs, and how it ended."""
    kind = hart.end["state"]
    if kind == "exited":
        return f"exited a0 {hart.registers[10]:08x}"
    return f"faulted {hart.end['cause']}" if kind == "faulted" else "running"


class Run:
    """The run of a list of choices: what is seen at each position, and of each choice."""

    def __init__(self, elf, inputs, choices):
        entry, segments = traces.image_of(elf)
        self.listing = traces.listing_of(elf)
        self.machine = traces.Machine(entry, segments, inputs, self.listing)
        self.image = dict(self.machine.memory.bytes)
        self.texts, self.choices = [], []
        self.harts, self.stored = [self.harts_now()], [{}]
        for number, (hart, is_refused) in enumerate(choices):
            self.do(number, hart, is_refused)
            self.harts.append(self.harts_now())

    def harts_now(self):
        return [Hart(tuple(hart.registers), hart.pc, hart.reserved, state_of(hart)) for hart in self.machine.harts]

    def do(self, number, number_of_hart, is_refused):
        hart = self.machine.harts[number_of_hart]
        pc, reserved, ran = hart.pc, hart.reserved, hart.end["state"] == "running"
        line = self.machine.step(number, number_of_hart, is_refused, None)
        fault = hart.end.get("cause") if ran else None
        access = None if fault else self.access_of(line["access"], reserved, is_refused)
        stored = self.stored[-1]
        if access and access[2] != access[3]:
            stored = {**stored, **{access[1] + offset: byte for offset, byte in enumerate(access[3])}}
        self.stored.append(stored)
        self.choices.append(Choice(number_of_hart, is_refused, pc, ran, access, fault, hart.pc))
        self.texts.append(self.text_of(ran, line))

    def access_of(self, told, reserved, is_refused):
        """An access that takes place: a store-conditional that fails has none."""
        if told is None or told["kind"] == "store-conditional" and (reserved != told["address"] or is_refused):
            return None
        before, after = (told[which].to_bytes(told["size"], "little") for which in ("before", "after"))
        return told["kind"], told["address"], before, after

    def text_of(self, ran, line):
        """What stands behind the pc in the line of a choice, as the debugger's `steps` has it."""
        if not ran:
            return "stopped"
        if line["word"] is None:
            return "no fetch"
        return line["text"] or f".word 0x{line['word']:08x}"

    def byte(self, position, at):
        return self.stored[position].get(at, self.image.get(at))
