"""The model of a session with GDB: what each packet is answered."""
import collections
import re

from gdb_parts.run import traces

NAMES = ["fp" if name == "s0" else name for name in traces.REGISTERS]
POINTERS = {"sp", "gp", "tp", "fp"}
SIGNALS = {
    "FetchAccess": 11, "LoadAccess": 11, "StoreAccess": 11,
    "LoadMisaligned": 10, "StoreMisaligned": 10, "JumpMisaligned": 10,
    "Illegal": 4, "BadCall": 12, "Break": 5,
}  # fmt: skip
FEATURES = (
    "PacketSize=4000;QStartNoAckMode+;qXfer:features:read+;qXfer:threads:read+;"
    "ReverseStep+;ReverseContinue+;vContSupported+;swbreak+;hwbreak+"
)
HELP = "where, goto K, forward [N], back [N], schedule [A B], harts\n"
MOST_BYTES = 0x1FFF
PACKET_SIZE = 0x4000
READS = ("load", "load-reserved", "amo")


def register_line(number, name):
    kind = "code_ptr" if name in ("ra", "pc") else "data_ptr" if name in POINTERS else None
    told = f' type="{kind}"' if kind else ""
    return f'<reg name="{name}" bitsize="32" regnum="{number}"{told}/>'


TARGET = (
    '<?xml version="1.0"?><!DOCTYPE target SYSTEM "gdb-target.dtd"><target version="1.0">'
    "<architecture>riscv:rv32</architecture><osabi>none</osabi>"
    '<feature name="org.gnu.gdb.riscv.cpu">'
    + "".join(register_line(number, name) for number, name in enumerate([*NAMES, "pc"]))
    + "</feature></target>"
)


class Refused(Exception):
    """A packet that is answered by an error; nothing has changed."""


BAD_OPERAND, UNMAPPED, READ_ONLY = "E01", "E14", "E30"


def number_of(digits, most=2**32 - 1):
    """A number of a packet: hexadecimal digits alone."""
    if not re.fullmatch(rb"[0-9a-fA-F]+", digits) or int(digits, 16) > most:
        raise Refused(BAD_OPERAND)
    return int(digits, 16)


def two_numbers(text):
    first, comma, second = text.partition(b",")
    if not comma:
        raise Refused(BAD_OPERAND)
    return number_of(first), number_of(second)


def low_first(word):
    return word.to_bytes(4, "little").hex()


def piece(whole, text):
    place, count = two_numbers(text)
    if place > len(whole):
        raise Refused(BAD_OPERAND)
    size = min(count, PACKET_SIZE - 1)
    return ("m" if size < len(whole) - place else "l") + whole[place : place + size]


# The steps of one thread alone: their way, where they began, and the choices that are their own.
Alone = collections.namedtuple("Alone", "way begin own")
FORWARDS, BACKWARDS = 1, -1
ANY = -1  # the hart of a step of any thread


class Session:
    """What GDB has asked for so far, and the position in the run."""

    def __init__(self, run):
        self.run, self.position, self.length = run, 0, len(run.choices)
        self.harts = len(run.harts[0])
        self.software, self.hardware, self.watches = set(), set(), []
        self.reads = self.moves = None  # the hart that `Hg` and `Hc` chose, if they chose one
        self.last_hart, self.stop = 0, "T05thread:1;"
        self.knows_software = False
        self.alone = None

    # ---- Threads

    def hart_of(self, thread):
        if not 1 <= thread <= self.harts:
            raise Refused(BAD_OPERAND)
        return thread - 1

    def threads(self, text):
        """'all', 'any', or the number of a thread's hart."""
        if text == b"-1":
            return "all"
        thread = number_of(text)
        return self.hart_of(thread) if thread else "any"

    def hart_read(self):
        return self.last_hart if self.reads is None else self.reads

    def hart_now(self, number):
        return self.run.harts[self.position][number]

    # ---- What stops a choice

    def breakpoint(self, at):
        choice = self.run.choices[at]
        if not choice.ran:
            return None
        if choice.pc in self.software:
            return "swbreak:;" if self.knows_software else ""
        return "hwbreak:;" if choice.pc in self.hardware else None

    def watched(self, at):
        access = self.run.choices[at].access
        if access is None:
            return None
        kind, address, before, after = access
        for which, watch, length in self.watches:
            low, high = max(watch, address), min(watch + length, address + len(before))
            if low >= high:
                continue
            if which == 2 and before[low - address : high - address] != after[low - address : high - address]:
                return f"watch:{low:x};"
            if which == 3 and kind in READS:
                return f"rwatch:{low:x};"
            if which == 4:
                return f"awatch:{low:x};"
        return None

    def stops_at(self, position, hart, reason="", signal=5):
        """The session has moved; returns the stop."""
        self.position, self.last_hart, self.reads = position, hart, hart
        now = self.hart_now(hart)
        places = f"02:{low_first(now.registers[2])};08:{low_first(now.registers[8])};20:{low_first(now.pc)};"
        self.stop = f"T{signal:02x}{places}thread:{hart + 1:x};{reason}"
        return self.stop

    # ---- Moves

    def begin(self, way, lone, is_long):
        """Where a move begins, and the choices that it passes.

        A move of all threads begins where the steps of one thread alone before it began, if they
        went the same way, and passes their own choices.
        """
        if lone is not None and not is_long:
            if self.alone is None or self.alone.way != way:
                self.alone = Alone(way, self.position, set())
            return self.position, ()
        alone, self.alone = self.alone, None
        if alone is None or alone.way != way or lone is not None:
            return self.position, ()
        return alone.begin, alone.own

    def forward(self, step=None, lone=None, span=None):
        """Before the first hit or behind the first fault, or where a step of a hart is done."""
        position, passed = self.begin(FORWARDS, lone, span is not None)
        is_done = False
        for at in range(position, self.length):
            choice = self.run.choices[at]
            if at in passed:
                continue
            if is_done and choice.hart == step:
                return self.stops_at(at, step)
            counts = lone is None or choice.hart == lone
            if counts:
                for hit in (self.breakpoint(at), self.watched(at)):
                    if hit is not None:
                        return self.stops_at(at, choice.hart, hit)
            is_own = choice.ran and step in (choice.hart, ANY)
            if lone is not None and is_own and span is None:
                self.alone.own.add(at)
            if counts and choice.fault:
                return self.stops_at(at + 1, choice.hart, "", SIGNALS[choice.fault])
            if not is_own:
                continue
            goes_on = self.run.harts[at + 1][choice.hart].state == "running"
            if span and goes_on and span[0] <= choice.next_pc < span[1]:
                continue
            if lone is not None or step == ANY or not goes_on:
                return self.stops_at(at + 1, choice.hart)
            is_done = True
        hart = step if step not in (None, ANY) else self.last_hart
        return self.stops_at(self.length, hart, "" if is_done else "replaylog:end;")

    def backward(self, step=None, lone=None):
        """Behind the last watch hit or before the last breakpoint hit or step of a hart."""
        position, passed = self.begin(BACKWARDS, lone, step is None)
        for at in reversed(range(position)):
            choice = self.run.choices[at]
            if at in passed:
                continue
            counts = lone is None or choice.hart == lone
            if counts and self.watched(at) is not None:
                return self.stops_at(at + 1, choice.hart, self.watched(at))
            if counts and self.breakpoint(at) is not None:
                return self.stops_at(at, choice.hart, self.breakpoint(at))
            if choice.ran and choice.hart == step:
                if lone is not None:
                    self.alone.own.add(at)
                return self.stops_at(at, step)
        return self.stops_at(0, self.last_hart if step is None else step, "replaylog:begin;")

    def resume(self, text):
        """`vCont`: the first action that fits a thread is its own; without one for all, a thread moves alone."""
        actions = [self.action(part) for part in text.split(b";")]
        read, is_alone = self.hart_read(), all(who != "all" for _, who in actions)
        for kind, who in actions:
            if who == "all":
                return self.forward() if kind == "c" else self.forward(ANY, None, None if kind == "s" else kind)
            hart = read if who == "any" else who
            own = next(each for each, whom in actions if whom in ("all", hart) or whom == "any" and hart == read)
            if own != "c":
                return self.forward(hart, hart if is_alone else None, None if own == "s" else own)
        first = actions[0][1]
        return self.forward(None, read if first == "any" else first)

    def action(self, part):
        """An action and whom it is for: `c`, `s`, or the range that a step has to leave."""
        what, colon, who = part.partition(b":")
        whom = self.threads(who) if colon else "all"
        if re.fullmatch(rb"[cs]|[CS][0-9a-fA-F]{2}", what):
            return chr(what[0]).lower(), whom
        if what[:1] == b"r":
            span = two_numbers(what[1:])
            return span if span[0] < span[1] else "s", whom
        raise Refused(BAD_OPERAND)

    # ---- Packets

    def answer(self, packet):
        """The text of the answer, which is framed then; None where there is none."""
        fixed = FIXED.get(packet)
        if fixed is not None:
            return fixed(self) if callable(fixed) else fixed
        for front, method in WITH_OPERANDS:
            if packet.startswith(front):
                return method(self, packet[len(front) :])
        return ""

    def supported(self, text):
        self.knows_software = text[:1] == b":" and b"swbreak+" in text[1:].split(b";")
        return FEATURES

    def read_thread(self, text):
        chosen = self.threads(text)
        self.reads = None if chosen in ("all", "any") else chosen
        return "OK"

    def move_threads(self, text):
        chosen = self.threads(text)
        self.moves = None if chosen in ("all", "any") else chosen
        return "OK"

    def is_there(self, text):
        self.hart_of(number_of(text))
        return "OK"

    def thread_state(self, text):
        return self.hart_now(self.hart_of(number_of(text))).state.encode().hex()

    def thread_list(self, text):
        told = ""
        for number, hart in enumerate(self.run.harts[self.position]):
            told += f'<thread id="{number + 1:x}" name="hart {number}">{hart.state}</thread>'
        return piece(f"<threads>{told}</threads>", text)

    def first_threads(self):
        return "m" + ",".join(f"{number + 1:x}" for number in range(self.harts))

    def register(self, text):
        number, hart = number_of(text), self.hart_now(self.hart_read())
        if number > 32:
            raise Refused(BAD_OPERAND)
        return low_first(hart.pc if number == 32 else hart.registers[number])

    def registers(self):
        hart = self.hart_now(self.hart_read())
        return "".join(map(low_first, [*hart.registers, hart.pc]))

    def memory(self, text):
        address, length = two_numbers(text)
        told = []
        while len(told) < min(length, MOST_BYTES):
            byte = self.run.byte(self.position, address + len(told))
            if byte is None:
                break
            told.append(byte)
        if length and not told:
            raise Refused(UNMAPPED)
        return bytes(told).hex()

    def point(self, text, is_in):
        if not re.match(rb"[0-9],", text):
            return ""
        kind, (address, length) = int(text[:1]), two_numbers(text[2:])
        if kind > 4:
            return ""
        if kind < 2:
            points = self.hardware if kind else self.software
            (points.add if is_in else points.discard)(address)
            return "OK"
        watch = (kind, address, length)
        if is_in and watch not in self.watches:
            self.watches.append(watch)
        elif not is_in and watch in self.watches:
            self.watches.remove(watch)
        return "OK"

    def refuse_write(self, _):
        raise Refused(READ_ONLY)

    # ---- `monitor`

    def monitor(self, digits):
        if len(digits) % 2 or not re.fullmatch(rb"[0-9a-fA-F]*", digits):
            raise Refused(BAD_OPERAND)
        words = [word for word in bytes.fromhex(digits.decode()).split(b" ") if word]
        return self.command(words).encode().hex()

    def command(self, words):
        name, operands = (words[0], words[1:]) if words else (b"where", [])
        if any(not re.fullmatch(rb"[0-9]+", operand) for operand in operands):
            return "bad command\n"
        numbers = [int(operand) for operand in operands]
        shape = (name, len(numbers))
        if shape == (b"where", 0):
            return self.place()
        if shape == (b"goto", 1):
            return self.go_to(numbers[0])
        if shape in ((b"forward", 0), (b"forward", 1)):
            return self.go_to(self.position + (numbers or [1])[0])
        if shape in ((b"back", 0), (b"back", 1)):
            return self.go_to(self.position - (numbers or [1])[0])
        if shape in ((b"schedule", 0), (b"schedule", 2)):
            return self.schedule(*(numbers or (max(0, self.position - 4), min(self.length, self.position + 8))))
        if shape == (b"harts", 0):
            return "".join(self.hart_line(number, hart) for number, hart in enumerate(self.run.harts[self.position]))
        return HELP if shape == (b"help", 0) else "bad command\n"

    def go_to(self, position):
        if not 0 <= position <= self.length:
            return "past end\n"
        self.position, self.alone = position, None
        return self.place()

    def place(self):
        if self.position == self.length:
            return f"step {self.position} of {self.length}, end\n"
        following = self.run.choices[self.position]
        return f"step {self.position} of {self.length}, next hart {following.hart}{'!' if following.is_refused else ''}\n"

    def schedule(self, first, end):
        if max(first, end) > self.length:
            return "past end\n"
        return "".join(map(self.choice_line, range(first, end)))

    def choice_line(self, at):
        choice = self.run.choices[at]
        pointer = "> " if at == self.position else "  "
        return f"{pointer}{at} h{choice.hart}{'!' if choice.is_refused else ''} {choice.pc:08x} {self.run.texts[at]}\n"

    def hart_line(self, number, hart):
        reserved = "" if hart.reserved is None else f" reserves {hart.reserved:08x}"
        return f"hart {number} {hart.state}{reserved}\n"


def step_back(session):
    step = session.hart_read() if session.moves is None else session.moves
    return session.backward(step, session.moves)


FIXED = {
    b"?": lambda session: session.stop,
    b"g": Session.registers,
    b"qC": lambda session: f"QC{session.hart_read() + 1:x}",
    b"qAttached": "1",
    b"qSymbol::": "OK",
    b"qfThreadInfo": Session.first_threads,
    b"qsThreadInfo": "l",
    b"vCont?": "vCont;c;C;s;S;r",
    b"QStartNoAckMode": "OK",
    b"c": lambda session: session.forward(),
    b"s": lambda session: session.forward(session.hart_read() if session.moves is None else session.moves),
    b"bc": lambda session: session.backward(None, session.moves),
    b"bs": step_back,
    b"D": "OK",
}
WITH_OPERANDS = [
    (b"vCont;", Session.resume),
    (b"qSupported", Session.supported),
    (b"qXfer:features:read:target.xml:", lambda _, text: piece(TARGET, text)),
    (b"qXfer:threads:read::", Session.thread_list),
    (b"qThreadExtraInfo,", Session.thread_state),
    (b"qRcmd,", Session.monitor),
    (b"Hg", Session.read_thread),
    (b"Hc", Session.move_threads),
    (b"H", lambda _, text: refuse_operand()),
    (b"T", Session.is_there),
    (b"p", Session.register),
    (b"m", Session.memory),
    (b"Z", lambda session, text: session.point(text, True)),
    (b"z", lambda session, text: session.point(text, False)),
    *((letter, Session.refuse_write) for letter in (b"G", b"P", b"M", b"X")),
]


def refuse_operand():
    raise Refused(BAD_OPERAND)
