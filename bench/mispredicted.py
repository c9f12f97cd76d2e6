#!/usr/bin/env python3
"""How many branches of a program a simple processor would guess wrong, by the emulator's log of its instructions.

  qemu-x86_64 -one-insn-per-tb -d exec,nochain PROGRAM .. 2>&1 >/dev/null | mispredicted.py PROGRAM OBJDUMP

A conditional jump is guessed by a two-bit counter for its address and the last eight outcomes, an indirect jump or call by its last target; returns
are guessed right. So does valgrind's cachegrind, but for its tables, which are small enough for two jumps to share an entry.
"""
import subprocess
import sys

DIRECT = ("jmp", "jmpq", "call", "callq")


def jumps(program, objdump):
    """Conditional jumps by their addresses as the log writes them, each with the address behind it, and indirect ones."""
    conditional, indirect, before = {}, set(), None
    listing = subprocess.run([objdump, "-d", "--no-show-raw-insn", program], capture_output=True, text=True, check=True).stdout
    for line in listing.splitlines():
        at, is_code, code = line.partition(":\t")
        if not is_code:
            continue
        at = b"%016x" % int(at, 16)
        if before:
            conditional[before] = at
        words = [w for w in code.replace(",", " ").split() if w not in ("bnd", "notrack", "pt", "pn")]
        before = at if words and words[0].startswith(("j", "loop")) and words[0] not in DIRECT else None
        if words and words[0] in DIRECT and words[1].startswith("*"):
            indirect.add(at)
    return conditional, indirect


def mispredicted(log, conditional, indirect):
    wrong, outcomes, counters, targets = 0, 0, {}, {}
    jump = behind = None
    for line in log:
        if not line.startswith(b"Trace"):
            continue
        at = line.split(b"/", 2)[1]
        if behind:
            key, taken = (jump, outcomes), at != behind
            counter = counters.get(key, 1)
            wrong += taken != (counter > 1)
            counters[key] = min(counter + 1, 3) if taken else max(counter - 1, 0)
            outcomes = (2 * outcomes + taken) % 256
        elif jump:
            wrong += targets.get(jump) != at
            targets[jump] = at
        behind = conditional.get(at)
        jump = at if behind or at in indirect else None
    return wrong


if len(sys.argv) != 3:
    sys.exit(__doc__)
print(mispredicted(sys.stdin.buffer, *jumps(sys.argv[1], sys.argv[2])))
