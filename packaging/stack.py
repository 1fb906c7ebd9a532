"""The most stack that each call of the static library takes, from its machine code.

    python3 stack.py LIBRARY HEADER

adds up the frames along the calls, which objdump shows: what each function pushes
and takes off the stack pointer, its return address, and the 128 bytes below the
stack pointer that a function without calls may use. A call of the C library's
`memcpy` or `memset` counts with its return address alone: these keep nothing on
the stack. A function that calls itself counts as often as DEEPEST says. Fails above
the bytes that the header promises, where any other function calls itself or functions
call each other in a circle, and on a call by a computed address: then there is no sum.
"""

import re
import subprocess
import sys

FUNCTION = re.compile(r"^[0-9a-f]+ <(.+)>:$")
PUSH = re.compile(r"\tpush ")
TAKEN = re.compile(r"\tsub +\$0x([0-9a-f]+),%rsp")
CALL = re.compile(r"\tcall +(\S+)(?: <(.+)>)?")
TARGET = re.compile(r"R_X86_64_(?:PLT32|PC32)\t(\S+?)-0x4$")
WORD = 8
RED_ZONE = 128
LEAVES = {"memcpy", "memset"}
# It takes one digit at each call, and its contract's measure falls from the 20 digits of a number of 64 bits to none.
DEEPEST = {"encoding::decimal::put_digits": 21}
EXPORTED = "pumdalin_"
PROMISE = re.compile(r"PUMDALIN_(\w+)_STACK = (\d+)")


class Function:
    def __init__(self) -> None:
        self.frame = WORD
        self.calls: set[str] = set()


def functions_of(library: str) -> dict[str, Function]:
    """The functions of a library with their frames, and what each calls."""
    listing = subprocess.run(["objdump", "-dr", "--no-show-raw-insn", library],
                             check=True, capture_output=True, text=True).stdout
    found: dict[str, Function] = {}
    function = Function()
    pending = ""
    for line in listing.splitlines():
        target = TARGET.search(line)
        if pending:
            function.calls.add(target[1].removeprefix(".text.") if target else pending)
            pending = ""
        if start := FUNCTION.match(line):
            function = found.setdefault(start[1], Function())
        elif PUSH.search(line):
            function.frame += WORD
        elif taken := TAKEN.search(line):
            function.frame += int(taken[1], 16)
        elif call := CALL.search(line):
            if call[1].startswith("*") or not call[2]:
                sys.exit(f"a call by a computed address: {line.strip()}")
            pending = call[2]
    return found


def promises(header: str) -> dict[str, int]:
    """The bytes of stack that the header says suffice, by the call's name."""
    with open(header, encoding="utf-8") as file:
        return {EXPORTED + name.lower(): int(number) for name, number in PROMISE.findall(file.read())}


def deepest(name: str, functions: dict[str, Function], around: tuple[str, ...]) -> int:
    """The most stack that a call of a function takes."""
    if name in around:
        sys.exit(f"a circle of calls: {' -> '.join((*around, name))}")
    if name in LEAVES:
        return WORD
    if name not in functions:
        sys.exit(f"{name} is called and is not in the library")
    function = functions[name]
    others = function.calls - ({name} if name in DEEPEST else set())
    inner = [deepest(called, functions, (*around, name)) for called in others]
    return function.frame * DEEPEST.get(name, 1) + max(inner, default=RED_ZONE)


if __name__ == "__main__":
    library, header = sys.argv[1:]
    functions, promised = functions_of(library), promises(header)
    calls = {name: deepest(name, functions, ()) for name in sorted(functions) if name.startswith(EXPORTED)}
    for name, bytes_taken in calls.items():
        print(f"{name} takes at most {bytes_taken:,} bytes of stack; the header promises {promised.get(name, 0):,}")
    if calls.keys() != promised.keys():
        sys.exit("the header promises something else than the calls that there are")
    sys.exit(0 if all(bytes_taken <= promised[name] for name, bytes_taken in calls.items()) else 1)
