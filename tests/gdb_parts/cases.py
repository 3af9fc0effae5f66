"""Cases of `tests/gdb`, and what a server says to their bytes."""
import functools
import os
import shutil
import subprocess
import sys
import tempfile

from gdb_parts.run import TESTS, Run, traces

check = traces.check
PROGRAM = traces.PROGRAM
SERVER = [os.path.join(TESTS, "gdb_model"), PROGRAM] if "--model" in sys.argv[2:] else [PROGRAM, "gdb"]
GDB = shutil.which("gdb-multiarch")
ENDLESS = 60


class Case:
    """A file under a list of choices."""

    def __init__(self, name, elf, inputs, choices):
        self.elf, self.inputs = elf, inputs
        self.choices = f"{name}.choices"
        with open(self.choices, "w", encoding="ascii") as file:
            file.write(choices)
        self.options = [elf, "--inputs", ",".join(map(str, inputs)), "--choices", self.choices]

    @functools.cached_property
    def run(self):
        """What the model knows of the run."""
        with open(self.choices, encoding="ascii") as file:
            return Run(self.elf, self.inputs, traces.choices_of(file.read()))


def drawn_choices(drawn, harts, count, most):
    """A text of choices in bursts of up to so many of one hart, of which a tenth are refused."""
    words = []
    while count > 0:
        times = min(count, drawn.randint(1, most))
        words.append(f"{drawn.randrange(harts)}{'!' if drawn.randrange(10) == 0 else ''}*{times}")
        count -= times
    return " ".join(words)


def talk(case, data, is_slow=False):
    """The status, the output and the standard error of a server that is given some bytes."""
    if not is_slow:
        done = subprocess.run([*SERVER, *case.options], input=data, capture_output=True, timeout=ENDLESS)
        return done.returncode, done.stdout, done.stderr
    with tempfile.TemporaryFile() as out:
        server = subprocess.Popen([*SERVER, *case.options], stdin=subprocess.PIPE, stdout=out, bufsize=0)
        for byte in data:
            server.stdin.write(bytes([byte]))
        server.stdin.close()
        status = server.wait(ENDLESS)
        out.seek(0)
        return status, out.read(), b""


def in_turns(harts, count):
    return " ".join(str(at % harts) for at in range(count))
