"""What a command shows through a pipe and at a pseudo-terminal, beside what is wanted."""
import os
import pty
import re
import select
import subprocess
import sys

PROGRAM = os.path.realpath(sys.argv[1])
ENDLESS = 60

# How many checks have failed and passed.
COUNTS = {False: 0, True: 0}


def check(name, actual, wanted):
    """Counts a check, which has passed where the two are equal."""
    COUNTS[actual == wanted] += 1
    if actual != wanted:
        print(f"FAILED {name}:\n--- shown:\n{actual}\n--- wanted:\n{wanted}")


def through_pipe(words, give=b""):
    """What a command writes on standard error, which is a pipe."""
    done = subprocess.run([PROGRAM, *words], input=give, stdout=subprocess.PIPE, stderr=subprocess.PIPE, timeout=ENDLESS)
    return done.stderr.decode(), done.stdout.decode()


def read_some(fd, seconds):
    """What comes at a terminal, or None at its end."""
    if not select.select([fd], [], [], seconds)[0]:
        return None
    try:
        return os.read(fd, 4096) or None
    except OSError:
        return None


def at_terminal(words, **ends):
    """What a command writes at a terminal, which is its standard error."""
    master, slave = pty.openpty()
    ends = {"stdin": subprocess.DEVNULL, "stdout": subprocess.DEVNULL, **ends}
    child = subprocess.Popen([PROGRAM, *words], stderr=slave, **ends)
    os.close(slave)
    shown = b""
    while (piece := read_some(master, ENDLESS)) is not None:
        shown += piece
    child.wait(timeout=ENDLESS)
    os.close(master)
    return shown.decode().replace("\r\n", "\n")


def both(name, words, fixed, told):
    """A command through a pipe, and at a terminal."""
    check(f"{name} through a pipe", through_pipe(words)[0], fixed)
    check(f"{name} at a terminal", at_terminal(words), fixed + told)


def write(name, content):
    with open(name, "wb") as file:
        file.write(content if isinstance(content, bytes) else content.encode())


def on_screen(words, given=b""):
    """The lines of a terminal at the end, if a command writes both its outputs there."""
    master, slave = pty.openpty()
    child = subprocess.Popen([PROGRAM, *words], stdin=subprocess.PIPE, stdout=slave, stderr=slave)
    os.close(slave)
    child.stdin.write(given)
    child.stdin.close()
    written = b""
    while (piece := read_some(master, ENDLESS)) is not None:
        written += piece
    child.wait(timeout=ENDLESS)
    os.close(master)
    lines, line, at = [], "", 0
    for part in re.split("(\\r|\\n|\x1b\\[K)", written.decode()):
        if part == "\r":
            at = 0
        elif part == "\n":
            lines, line, at = [*lines, line], "", 0
        elif part == "\x1b[K":
            line = line[:at]
        else:
            line, at = line[:at] + part + line[at + len(part):], at + len(part)
    return [*lines, line], written.decode()


class Terminal:
    """The debugger at a pseudo-terminal."""

    def __init__(self, words, stderr=None):
        self.master, slave = pty.openpty()
        self.child = subprocess.Popen([PROGRAM, *words], stdin=slave, stdout=slave, stderr=stderr or slave)
        os.close(slave)
        self.shown = ""

    def until(self, prompt):
        """What is shown before a prompt, or before the end where there is none."""
        while prompt is None or not self.shown.endswith(prompt):
            piece = read_some(self.master, 10)
            if piece is None:
                break
            self.shown += piece.decode().replace("\r\n", "\n")
        shown, self.shown = self.shown, ""
        return shown

    def type(self, line):
        os.write(self.master, line.encode() + b"\n")
