#!/usr/bin/env python3
"""The addresses of the library's basic blocks in a program that is linked with it, in order, in hexadecimal.

`blocks.py PROGRAM LIBRARY`; needs objdump and nm. A block starts where a function starts, where a jump goes to, and
behind each jump and return. PROGRAM is linked at fixed addresses (-no-pie).
"""

import re
import subprocess
import sys

FUNCTION = re.compile(r"^([0-9a-f]+) <(.+)>:$")
INSTRUCTION = re.compile(r"^ +([0-9a-f]+):\t(\S+) *(\S*)")


def lines_of(*command):
    return subprocess.run(command, check=True, capture_output=True, text=True).stdout.splitlines()


def functions_of(library):
    """The names of its functions, local ones too."""
    symbols = (line.split() for line in lines_of("nm", "--defined-only", library))
    return {fields[2] for fields in symbols if len(fields) == 3 and fields[1] in "tT"}


def block_starts(program, functions):
    starts, instructions = set(), set()
    is_wanted = is_start = False
    for line in lines_of("objdump", "-d", "--no-show-raw-insn", program):
        function, instruction = FUNCTION.match(line), INSTRUCTION.match(line)
        if function:
            is_wanted = is_start = function[2] in functions
        elif instruction and is_wanted:
            address, name, operand = instruction.groups()
            # What fills the gap between functions is never run.
            if is_start and not name.startswith(("nop", "int3", "cs", "data16", "xchg")):
                starts.add(int(address, 16))
            instructions.add(int(address, 16))
            is_start = name.startswith(("j", "ret"))
            if name.startswith("j") and re.fullmatch("[0-9a-f]+", operand):
                starts.add(int(operand, 16))
    return sorted(starts & instructions)


def main():
    program, library = sys.argv[1:]
    for start in block_starts(program, functions_of(library)):
        print(f"{start:x}")


if __name__ == "__main__":
    main()
