"""Looks over the built program for functions whose stack frames are above a limit in octets, 65,536 where it is left out, and lists them, the
largest first. The status is 1 where there are some. A frame is what a function takes of the stack for itself, as its machine code says
it (objdump): registers that are pushed, and room for locals. A function that was inlined has no frame of its own: its locals
are in that of its caller."""

import re
import shutil
import signal
import subprocess
import sys

from checks import usage
from machine.gateway import PROGRAM, is_built, is_of_try

LIMIT = 65536

HEAD = re.compile(r"^[0-9a-f]+ <(.*)>:$")
TAKEN = re.compile(r"\bsub +\$0x([0-9a-f]+),%rsp")
GIVEN = re.compile(r"\badd +\$0x([0-9a-f]+),%rsp")
# A large frame is touched step by step: its end is reckoned first, in one instruction or in two, and a loop of steps goes there.
BEGUN = re.compile(r"\bmov +%rsp,%r11")
PROBED = re.compile(r"\blea +-0x([0-9a-f]+)\(%rsp\),%r11|\bsub +\$0x([0-9a-f]+),%r11")


def octets(digits):
    """The number of these digits, which is below 0 where the compiler takes less than nothing."""
    number = int(digits, 16)
    return number - 2**64 if number >= 2**63 else number


class Function:
    """A function whose code is read from its first line on: how deep the stack is there, and was at most."""

    def __init__(self, name):
        self.name, self.depth, self.most = name, 0, 0
        self.has_begun = self.is_probing = False

    def read(self, code):
        has_begun, self.has_begun = self.has_begun, bool(BEGUN.search(code))
        if (found := PROBED.search(code)) and (found.group(1) or has_begun):
            self.depth, self.is_probing = self.depth + octets(found.group(1) or found.group(2)), True
        elif (found := TAKEN.search(code)) and self.is_probing:
            # The step of such a loop is none of its own.
            self.is_probing = False
        elif found:
            self.depth += octets(found.group(1))
        elif "push " in code:
            self.depth += 8
        elif "pop " in code:
            self.depth = max(self.depth - 8, 0)
        elif found := GIVEN.search(code):
            self.depth = max(self.depth - octets(found.group(1)), 0)
        self.most = max(self.most, self.depth)


def read_functions(program):
    """The functions of a program by their names, as its symbols have them."""
    command = ["objdump", "--disassemble", "--no-show-raw-insn", "--demangle", program]
    functions = []
    with subprocess.Popen(command, stdout=subprocess.PIPE, stderr=subprocess.DEVNULL, text=True, errors="replace") as done:
        for line in done.stdout:
            if found := HEAD.match(line):
                functions.append(Function(found.group(1)))
            elif functions and ("%rsp" in line or "%r11" in line or "push " in line or "pop " in line):
                functions[-1].read(line)
    return functions


def main(limit=LIMIT, program=PROGRAM):
    if program == PROGRAM and not is_built():
        print("frames: skipped, since the built program is missing or older than its sources")
        return 0
    if is_of_try(program):
        print("frames: skipped, since the program was built by rt try, whose checks of memory have frames of their own")
        return 0
    functions = read_functions(program)
    if len(functions) < 3:
        raise RuntimeError(f"{program} has no symbols")
    large = sorted((function for function in functions if function.most > limit), key=lambda function: -function.most)
    for function in large:
        print(f"{function.most:10,}  {function.name}")
    largest = max(functions, key=lambda function: function.most)
    print(f"{len(large)} of {len(functions):,} functions have frames above {limit:,} octets; the largest is {largest.most:,}, of {largest.name}")
    return 1 if large else 0


if __name__ == "__main__":
    came = usage.heed("frames", __doc__, "LIMIT", "PROGRAM")
    # Who reads no more, as head, ends it in silence.
    signal.signal(signal.SIGPIPE, signal.SIG_DFL)
    try:
        if shutil.which("objdump") is None:
            raise RuntimeError("there is no objdump here (Debian's binutils)")
        sys.exit(main(*(kind(word) for kind, word in zip((int, str), came))))
    except (RuntimeError, ValueError, OSError) as error:
        sys.exit(f"frames: {error}")
