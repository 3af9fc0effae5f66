"""Raw packets, many of them changed at random, and bad input, as the model answers them."""
import random
import subprocess

from gdb_parts.cases import ENDLESS, PROGRAM, SERVER, check, talk
from gdb_parts.conversation import Conversation

PACKETS = 2000


def framed(body):
    return b"$" + body + b"#%02x" % (sum(body) % 256)


def command(words):
    return b"qRcmd," + words.encode().hex().encode()


QUESTIONS = b"""
? g p20 p2 pa qC qAttached qSymbol:: qfThreadInfo qsThreadInfo vCont? qThreadExtraInfo,1 qThreadExtraInfo,2 T1 T9
qSupported:swbreak+;hwbreak+ qSupported:multiprocess+ qXfer:threads:read::0,1000 qXfer:threads:read::10,20
qXfer:features:read:target.xml:0,40 qXfer:features:read:target.xml:700,4000
vMustReplyEmpty qTStatus X0,0: P0=0 M0,1:00 G !
""".split()
MOVES = b"""
c s bc bs c bc bs vCont;c vCont;c vCont;s:1;c vCont;s:2;c vCont;s:1 vCont;s:2 vCont;s:1 vCont;s:2 vCont;s vCont;c:1
vCont;C05 vCont;S05:2;c vCont;r10000,10020:1;c vCont;r10060,100b8:2;c vCont;r10020,10030:2 vCont;r10060,100b8
vCont;s:1;c:2 vCont;c:1;s
""".split()
CHOSEN = b"Hg0 Hg1 Hg2 Hg-1 Hc0 Hc1 Hc2 Hc-1".split()
LINES = [
    "where", "", "goto 0", "goto 50", "goto 120", "forward", "forward 3", "back", "back 5", "schedule", "schedule 3 9",
    "schedule 9 3", "harts", "help", "goto", "goto 99999", "goto 99999999999999999999", "goto x", "  where  ",
    "forward 3 4", "steps 0 1", "Where", "go\tto", "schedule 1", "harts 1",
]  # fmt: skip
MEMORY = [0x10000, 0x10FFE, 0x11000, 0x1100C, 0x11010, 0, 0xFFFFFFFF]


def point(drawn):
    kind = drawn.randrange(5)
    if kind < 2:
        return b"%c%d,%x,4" % (drawn.choice(b"ZZz"), kind, 0x10000 + 4 * drawn.randrange(48))
    return b"%c%d,%x,%x" % (drawn.choice(b"ZZz"), kind, 0x11000 + drawn.randrange(16), drawn.choice([1, 1, 2, 4, 4, 8]))


def plain_packet(drawn):
    kind = drawn.randrange(20)
    if kind < 6:
        return drawn.choice(MOVES)
    if kind < 9:
        return point(drawn)
    if kind < 11:
        return drawn.choice(CHOSEN)
    if kind < 13:
        return command(drawn.choice(LINES))
    if kind < 15:
        return b"m%x,%x" % (drawn.choice(MEMORY) + drawn.randrange(4), drawn.choice([0, 1, 4, 4, 0x40, 0x4000]))
    return drawn.choice(QUESTIONS)


def changed(drawn, packet):
    """The packet with some bytes replaced, left out or put in."""
    packet = bytearray(packet)
    for _ in range(drawn.choice([0, 0, 0, 0, 0, 0, 1, 1, 2, 5])):
        kind = drawn.randrange(3)
        if kind == 2 or not packet:
            packet.insert(drawn.randrange(len(packet) + 1), drawn.choice(b"0123456789abcdef,:;-+}*"))
        elif kind == 1:
            del packet[drawn.randrange(len(packet))]
        else:
            packet[drawn.randrange(len(packet))] = drawn.choice(b"0123456789abcdef,:;-+ %\xff\x00zZ")
    return bytes(packet)


def drawn_packet(drawn):
    """A packet that does not end the session."""
    while True:
        packet = changed(drawn, plain_packet(drawn))
        if packet not in (b"D", b"k") and b"#" not in packet and b"$" not in packet:
            return packet


def noise(drawn):
    """What may stand in front of a packet: acknowledgments, and bytes of no packet."""
    return drawn.choice([b"", b"", b"", b"+", b"+", b"-", b"\x03", b"++x", b"$ab", b"$?#00", b"$g#6", b"$?#zz"])


def session_of(drawn, has_acks, last):
    parts = [framed(b"qSupported:swbreak+;hwbreak+")]
    if not has_acks:
        parts += [framed(b"QStartNoAckMode"), b"+"]
    for _ in range(PACKETS):
        parts.append((noise(drawn) if has_acks else b"") + framed(drawn_packet(drawn)))
    return [*parts, last]


def first_difference(case, parts, output):
    """What was given from the first part on whose answer differs, and what was wanted."""
    conversation, at = Conversation(case.run), 0
    for number, part in enumerate(parts):
        wanted = conversation.reads(part)
        given = output[at : at + len(wanted)]
        if given != wanted:
            return (number, part[-60:], given[:300]), (number, part[-60:], wanted[:300])
        at += len(wanted)
    return output[at:][:300], b""


def raw(number, case):
    """Packets, many of them changed; they are written by single bytes in one session."""
    drawn = random.Random(number)
    last = [b"", framed(b"D") + framed(b"?"), framed(b"k") + framed(b"?")][number % 3]
    parts = session_of(drawn, number % 2 == 0, last)
    status, output, said = talk(case, b"".join(parts), number == 3)
    check(f"packets of seed {number}: the end", (status, said), (0, b""))
    check(f"packets of seed {number}", *first_difference(case, parts, output))


BAD_INPUT = [
    b"", b"+", b"-", b"\x03", b"junk", b"$", b"$?", b"$?#", b"$?#3", b"$?#3f", b"$?#3F", b"$?#00", b"$?#zz", b"$?#3 f",
    b"$#00", b"$#0", b"$abc$?#3f", b"-" + framed(b"?") + b"-", framed(b"?") + b"--+", b"$?#00-", b"$?#$?#3f", b"$}\x03#a0",
    framed(b"QStartNoAckMode") + b"$?#00" + framed(b"?") + b"-+", framed(b"QStartNoAckMode") * 2,
    framed(b"D") + framed(b"?"), framed(b"k") + framed(b"?"), framed(b"m11000,4}"), framed(b"m11000,4") * 3,
    framed(b"x" * 70000) + framed(b"?"),
]  # fmt: skip
BAD_PACKETS = b"""
m0,4 m11000,4 m11000,ffffffff m, m11000 m100000000,4 mfffffffe,4 m11000,0 m11000,4,4 m0,0 p20 p21 p
Hg3 Hg-1 Hg-2 Hx1 H T0 T2 T vCont vCont; vCont;x vCont;s:9 vCont;t vCont;s: vCont;s:0 vCont;c:0 vCont;r1,2 vCont;r1
vCont;C5 vCont;s:1;c:9 Z0,10094 Z0,,4 Z9,10094,4 Z9,,4 Z0,10094,4;X1,0 Z Za,1,4 z2,1,4 Z2,11000,0 Z0,100000000,4
qRcmd,zz qRcmd,7 qRcmd, qRcmd,ff qXfer:features:read:other.xml:0,10 qXfer:features:read:target.xml:ffff,10
qXfer:features:read:target.xml:0,0 qXfer:threads:read::0 qXfer:threads:read:x:0,1 qThreadExtraInfo,0 qSupported
G00 P0=0 M0,1:00 X0,0: vRun R00 ! c10094 C05 s bs bc b ?x gg D;1 kk
""".split()


def bad_input(case):
    for given in [*BAD_INPUT, *map(framed, BAD_PACKETS)]:
        wanted = Conversation(case.run).reads(given)
        check(f"input {given[:60]}", talk(case, given)[:2], (0, wanted))


def ends(case):
    """An input that ends anywhere is answered up to there, and the status is 0."""
    whole = framed(b"qSupported:swbreak+") + b"+" + framed(b"Z0,10060,4") + b"-+" + framed(b"c")
    whole += framed(b"QStartNoAckMode") + framed(b"g")
    for end in range(len(whole)):
        wanted = Conversation(case.run).reads(whole[:end])
        check(f"an input of {end} bytes", talk(case, whole[:end])[:2], (0, wanted))


def started(name, words):
    done = subprocess.run([PROGRAM, name, *words], input=b"", capture_output=True, timeout=ENDLESS)
    return done.returncode, done.stdout, done.stderr


def refused_starts(case):
    """Where no run can begin, `gdb` says what `debug` says, and writes nothing."""
    elf, inputs, choices = case.elf, case.options[2], case.choices
    with open("no_elf", "wb") as file:
        file.write(b"no program")
    with open("bad.choices", "w", encoding="ascii") as file:
        file.write("0 1 x")
    lines = [
        ["absent.elf", "--inputs", inputs, "--choices", choices], [elf, "--inputs", inputs, "--choices", "absent.choices"],
        ["no_elf", "--inputs", inputs, "--choices", choices], [elf, "--inputs", inputs, "--choices", "bad.choices"],
        [elf, "--inputs", "1", "--choices", choices], [elf, "--inputs", ",".join(["1"] * 33), "--choices", choices],
    ]  # fmt: skip
    for words in lines:
        given, wanted = (started(name, words) for name in ("gdb", "debug"))
        check(f"gdb {' '.join(words)[:80]}", given, wanted)
        check(f"gdb {' '.join(words)[:80]}: refused", given[0] != 0 and not given[1], True)


def listed(case):
    """The choices may stand on the command line."""
    with open(case.choices, encoding="ascii") as file:
        options = [*case.options[:3], "--list", file.read()]
    done = subprocess.run([*SERVER, *options], input=framed(b"c"), capture_output=True, timeout=ENDLESS)
    wanted = Conversation(case.run).reads(framed(b"c"))
    check("--list", (done.returncode, done.stdout, done.stderr), (0, wanted, b""))
