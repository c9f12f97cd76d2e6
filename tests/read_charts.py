#!/usr/bin/env python3
"""The stored cases of `driver read_charts`: its input, and the output that documents 01 and 02 ask for.

  tests/read_charts.py           write tests/stored/read_charts.in and read_charts.out
  tests/read_charts.py --check   say whether they are what this file says

Each case is a file and its line: number, place, then the counts of steps, actions, transitions, blocks and cases, and the edition,
which is 1 without a record of kind 6, 2 with it, and 0 in the all-zero chart of a refusal (document 02, request viii).
The lines are derived from the documents by hand; nothing here runs the reader. A record takes 4 bytes of head and its
body: a step 5, an action 9, a transition 40, a block 11, a case 7, an edition 5, the end 4, so places are sums of these.
"""
import struct
import sys
from pathlib import Path

ROOT = Path(__file__).resolve().parent.parent


def record(kind, body, length=None):
    return struct.pack("<HH", len(body) if length is None else length, kind) + body


def step(initial):
    return record(1, bytes([initial]))


def action(output, value=1):
    return record(2, struct.pack("<Bi", output, value))


def members(numbers):
    return sum(1 << k for k in numbers)


def transition(sources, targets, on=(), off=(), wait=0):
    return record(3, struct.pack("<QQQQI", members(sources), members(targets), members(on), members(off), wait))


def block(step, action, qualifier, duration=0):
    return record(4, struct.pack("<BBBI", step, action, qualifier, duration))


def case(step, signal, expected):
    return record(5, bytes([step, signal, expected]))


def edition(number):
    return record(6, bytes([number]))


def second(chart):
    """The same file in edition 2: the record stands after the cases, in front of the end record."""
    assert chart.endswith(END)
    return chart[:-4] + EDITION + END


END = record(0, b"")
EDITION = edition(2)
N, R, S, L, D, P, SD, DS, SL, P1, P0 = range(11)
DAY = 86_400_000

ONE = step(1)  # 5 bytes
TWO = step(1) + step(0)  # 10 bytes
ACTED = step(1) + action(0)  # 14 bytes
MANY = step(1) + action(0) * 32  # 293 bytes
GO = transition([0], [1])  # a transition that is right wherever steps 0 and 1 exist
FULL = step(1) * 64 + action(31, -1) * 32 + GO * 64 + block(63, 31, N) * 256 + case(63, 63, 1) * 64  # 6432 bytes

CHART_A = (
    step(1) + step(0) + action(0, 120) + action(0, 7)
    + transition([0], [1], on=[0]) + transition([1], [0], on=[1], wait=500)
    + block(1, 0, N) + block(1, 1, S) + block(0, 1, R) + case(1, 1, 1) + END
)

CASES = [
    # what document 01 names
    ("chart A", CHART_A, "0 0 2 2 2 3 1 1"),
    ("empty file: 1, place 0", b"", "1 0 0 0 0 0 0 0"),
    ("64 steps accepted", step(1) * 64 + END, "0 0 64 0 0 0 0 1"),
    ("a 65th refused 4", step(1) * 65 + END, "4 320 0 0 0 0 0 0"),
    # 1: fewer than 4 bytes are left where a record must begin, or the body is cut
    ("three bytes", END[:3], "1 0 0 0 0 0 0 0"),
    ("no end record", ONE, "1 5 0 0 0 0 0 0"),
    ("three bytes of an end record", ONE + END[:3], "1 5 0 0 0 0 0 0"),
    ("a step's head alone", ONE + step(0)[:4], "1 5 0 0 0 0 0 0"),
    ("an action's body cut by one byte", ONE + action(0)[:8], "1 5 0 0 0 0 0 0"),
    ("a transition's body cut by one byte", TWO + GO[:39], "1 10 0 0 0 0 0 0"),
    ("a block's body cut by one byte", ACTED + block(0, 0, N)[:10], "1 14 0 0 0 0 0 0"),
    ("a case's body cut by one byte", ONE + case(0, 0, 0)[:6], "1 5 0 0 0 0 0 0"),
    # 2: kind above 6 (document 02, request viii), or smaller than the kind before it (kind 0 excepted)
    ("kind 7", ONE + record(7, b"\2") + END, "2 5 0 0 0 0 0 0"),
    ("kind 65535", ONE + record(65535, b"") + END, "2 5 0 0 0 0 0 0"),
    ("kind 256, whose lesser byte is 0", ONE + record(256, b"") + END, "2 5 0 0 0 0 0 0"),
    ("a step after an action", ACTED + step(0) + END, "2 14 0 0 0 0 0 0"),
    ("a block after a case", ACTED + case(0, 0, 0) + block(0, 0, N) + END, "2 21 0 0 0 0 0 0"),
    ("a kind may be left out", ONE + case(0, 0, 0) + END, "0 0 1 0 0 0 1 1"),
    # 3: wrong body length for the kind
    ("a step of two bytes", ONE + record(1, b"\0\0") + END, "3 5 0 0 0 0 0 0"),
    ("a step of no byte", ONE + record(1, b"") + END, "3 5 0 0 0 0 0 0"),
    ("an action of four bytes", ONE + record(2, b"\0" * 4) + END, "3 5 0 0 0 0 0 0"),
    ("an action of six bytes", ONE + record(2, b"\0" * 6) + END, "3 5 0 0 0 0 0 0"),
    ("a transition of 35 bytes", TWO + record(3, b"\0" * 35) + END, "3 10 0 0 0 0 0 0"),
    ("a transition of 37 bytes", TWO + record(3, b"\0" * 37) + END, "3 10 0 0 0 0 0 0"),
    ("a block of six bytes", ACTED + record(4, b"\0" * 6) + END, "3 14 0 0 0 0 0 0"),
    ("a block of eight bytes", ACTED + record(4, b"\0" * 8) + END, "3 14 0 0 0 0 0 0"),
    ("a case of two bytes", ONE + record(5, b"\0" * 2) + END, "3 5 0 0 0 0 0 0"),
    ("a case of four bytes", ONE + record(5, b"\0" * 4) + END, "3 5 0 0 0 0 0 0"),
    ("an end with a body", ONE + record(0, b"\0"), "3 5 0 0 0 0 0 0"),
    ("a length of 257, whose lesser byte is 1", ONE + record(1, b"\0" * 257) + END, "3 5 0 0 0 0 0 0"),
    # the order of a record's tests: head (1), 2, 3, body (1), 4, 5, 6, 7
    ("2 before 3", ONE + record(7, b"", length=9), "2 5 0 0 0 0 0 0"),
    ("3 before the cut body", ONE + record(2, b"", length=6), "3 5 0 0 0 0 0 0"),
    ("the cut body before 4", step(1) * 64 + step(1)[:4], "1 320 0 0 0 0 0 0"),
    ("4 before 5", step(1) * 64 + step(2) + END, "4 320 0 0 0 0 0 0"),
    ("5 before 6", TWO + transition([], [1], wait=DAY + 1) + END, "5 10 0 0 0 0 0 0"),
    ("6 before 7", TWO + transition([], [1], on=[0], off=[0]) + END, "6 10 0 0 0 0 0 0"),
    ("5 before 7", TWO + transition([0], [1], on=[32], off=[32]) + END, "5 10 0 0 0 0 0 0"),
    # 4: one more of a kind than its limit
    ("32 actions", MANY + END, "0 0 1 32 0 0 0 1"),
    ("33 actions", MANY + action(0) + END, "4 293 0 0 0 0 0 0"),
    ("64 transitions", TWO + GO * 64 + END, "0 0 2 0 64 0 0 1"),
    ("65 transitions", TWO + GO * 65 + END, "4 2570 0 0 0 0 0 0"),
    ("256 blocks", ACTED + block(0, 0, N) * 256 + END, "0 0 1 1 0 256 0 1"),
    ("257 blocks", ACTED + block(0, 0, N) * 257 + END, "4 2830 0 0 0 0 0 0"),
    ("64 cases", ONE + case(0, 0, 0) * 64 + END, "0 0 1 0 0 0 64 1"),
    ("65 cases", ONE + case(0, 0, 0) * 65 + END, "4 453 0 0 0 0 0 0"),
    ("a full chart: 6,436 bytes", FULL + END, "0 0 64 32 64 256 64 1"),
    # 5: steps
    ("initial 0 and 1", TWO + END, "0 0 2 0 0 0 0 1"),
    ("initial 2", ONE + step(2) + END, "5 5 0 0 0 0 0 0"),
    ("initial 255", ONE + step(255) + END, "5 5 0 0 0 0 0 0"),
    # 5: actions
    ("output 31", ONE + action(31) + END, "0 0 1 1 0 0 0 1"),
    ("output 32", ONE + action(32) + END, "5 5 0 0 0 0 0 0"),
    ("output 255", ONE + action(255) + END, "5 5 0 0 0 0 0 0"),
    ("the largest value", ONE + action(0, 2**31 - 1) + END, "0 0 1 1 0 0 0 1"),
    ("the smallest value", ONE + action(0, -(2**31)) + END, "0 0 1 1 0 0 0 1"),
    # 5: transitions
    ("the last step a source", TWO + transition([1], [0]) + END, "0 0 2 0 1 0 0 1"),
    ("a source past the steps", TWO + transition([2], [0]) + END, "5 10 0 0 0 0 0 0"),
    ("a target past the steps", TWO + transition([0], [2]) + END, "5 10 0 0 0 0 0 0"),
    ("a target past the steps beside one that exists", TWO + transition([0], [1, 2]) + END, "5 10 0 0 0 0 0 0"),
    ("source 63 of 64 steps", step(1) * 64 + transition([63], [0]) + END, "0 0 64 0 1 0 0 1"),
    ("target 63 of 64 steps", step(1) * 64 + transition([0], [63]) + END, "0 0 64 0 1 0 0 1"),
    ("source 63 of 63 steps", step(1) * 63 + transition([63], [0]) + END, "5 315 0 0 0 0 0 0"),
    ("all 32 inputs exist", TWO + transition([0], [1], on=range(0, 31, 2), off=range(1, 32, 2)) + END, "0 0 2 0 1 0 0 1"),
    ("signal 32 on without actions", TWO + transition([0], [1], on=[32]) + END, "5 10 0 0 0 0 0 0"),
    ("signal 32 off without actions", TWO + transition([0], [1], off=[32]) + END, "5 10 0 0 0 0 0 0"),
    ("signal 32 on, one action", TWO + action(0) + transition([0], [1], on=[32]) + END, "0 0 2 1 1 0 0 1"),
    ("signal 33 on, one action", TWO + action(0) + transition([0], [1], on=[33]) + END, "5 19 0 0 0 0 0 0"),
    ("signal 33 off, one action", TWO + action(0) + transition([0], [1], off=[33]) + END, "5 19 0 0 0 0 0 0"),
    ("signal 63, 32 actions", TWO + action(0) * 32 + transition([0], [1], on=[63]) + END, "0 0 2 32 1 0 0 1"),
    ("signal 63, 31 actions", TWO + action(0) * 31 + transition([0], [1], off=[63]) + END, "5 289 0 0 0 0 0 0"),
    ("the longest wait", TWO + transition([0], [1], wait=DAY) + END, "0 0 2 0 1 0 0 1"),
    ("a longer wait", TWO + transition([0], [1], wait=DAY + 1) + END, "5 10 0 0 0 0 0 0"),
    ("a wait of 2^32 - 1", TWO + transition([0], [1], wait=2**32 - 1) + END, "5 10 0 0 0 0 0 0"),
    ("the second transition is the faulty one", TWO + GO + transition([0], [2]) + END, "5 50 0 0 0 0 0 0"),
    # 5: blocks
    ("a block on the last step", TWO + action(0) + block(1, 0, N) + END, "0 0 2 1 0 1 0 1"),
    ("a block past the steps", TWO + action(0) + block(2, 0, N) + END, "5 19 0 0 0 0 0 0"),
    ("a block on step 255", TWO + action(0) + block(255, 0, N) + END, "5 19 0 0 0 0 0 0"),
    ("a block for the last action", ONE + action(0) * 2 + block(0, 1, N) + END, "0 0 1 2 0 1 0 1"),
    ("a block past the actions", ONE + action(0) * 2 + block(0, 2, N) + END, "5 23 0 0 0 0 0 0"),
    ("a block without actions", ONE + block(0, 0, N) + END, "5 5 0 0 0 0 0 0"),
    ("qualifier 11", ACTED + block(0, 0, 11) + END, "5 14 0 0 0 0 0 0"),
    ("qualifier 255", ACTED + block(0, 0, 255) + END, "5 14 0 0 0 0 0 0"),
    # 5: cases
    ("a case on the last step", TWO + case(1, 0, 0) + END, "0 0 2 0 0 0 1 1"),
    ("a case past the steps", TWO + case(2, 0, 0) + END, "5 10 0 0 0 0 0 0"),
    ("signal 31 without actions", ONE + case(0, 31, 0) + END, "0 0 1 0 0 0 1 1"),
    ("signal 32 without actions", ONE + case(0, 32, 0) + END, "5 5 0 0 0 0 0 0"),
    ("signal 32 with one action", ACTED + case(0, 32, 0) + END, "0 0 1 1 0 0 1 1"),
    ("signal 33 with one action", ACTED + case(0, 33, 0) + END, "5 14 0 0 0 0 0 0"),
    ("signal 63 with 32 actions", MANY + case(0, 63, 0) + END, "0 0 1 32 0 0 1 1"),
    ("signal 64 with 32 actions", MANY + case(0, 64, 0) + END, "5 293 0 0 0 0 0 0"),
    ("signal 255 with 32 actions", MANY + case(0, 255, 0) + END, "5 293 0 0 0 0 0 0"),
    ("expected 1", ONE + case(0, 0, 1) + END, "0 0 1 0 0 0 1 1"),
    ("expected 2", ONE + case(0, 0, 2) + END, "5 5 0 0 0 0 0 0"),
    # 6: a transition has no source, no target, or a step that is both
    ("no source", TWO + transition([], [1]) + END, "6 10 0 0 0 0 0 0"),
    ("no target", TWO + transition([0], []) + END, "6 10 0 0 0 0 0 0"),
    ("a step that is both", TWO + transition([0, 1], [1]) + END, "6 10 0 0 0 0 0 0"),
    ("step 63 is both", step(1) * 64 + transition([63], [63]) + END, "6 320 0 0 0 0 0 0"),
    # 7: a signal in both on and off
    ("input 0 on and off", TWO + transition([0], [1], on=[0, 1], off=[0]) + END, "7 10 0 0 0 0 0 0"),
    ("signal 63 on and off", TWO + action(0) * 32 + transition([0], [1], on=[63], off=[63]) + END, "7 298 0 0 0 0 0 0"),
    # 8: two timed blocks for one action; its place is 0
    ("two timed blocks for one action", ACTED + block(0, 0, L) + block(0, 0, D) + END, "8 0 0 0 0 0 0 0"),
    ("two SL blocks for one action, on two steps", TWO + action(0) + block(0, 0, SL) + block(1, 0, SL) + END, "8 0 0 0 0 0 0 0"),
    (
        "the first and the last of 256 blocks",
        ACTED + block(0, 0, DS) + block(0, 0, N) * 254 + block(0, 0, SD) + END,
        "8 0 0 0 0 0 0 0",
    ),
    ("two timed blocks for action 31", MANY + block(0, 31, L) + block(0, 31, L) + END, "8 0 0 0 0 0 0 0"),
    ("timed blocks for two actions", ONE + action(0) * 2 + block(0, 0, L) + block(0, 1, L) + END, "0 0 1 2 0 2 0 1"),
    ("one timed block among others", ACTED + block(0, 0, N) + block(0, 0, D, 5) + block(0, 0, R) + END, "0 0 1 1 0 3 0 1"),
    # 9: no initial step (a chart without steps included); its place is 0
    ("no step", END, "9 0 0 0 0 0 0 0"),
    ("no initial step", step(0) * 2 + END, "9 0 0 0 0 0 0 0"),
    ("the last of 64 steps is the initial one", step(0) * 63 + step(1) + END, "0 0 64 0 0 0 0 1"),
    ("9 before 8", step(0) + action(0) + block(0, 0, L) * 2 + END, "9 0 0 0 0 0 0 0"),
    # 10: bytes after the end record; its place is the first surplus byte
    ("one byte more", ONE + END + b"\0", "10 9 0 0 0 0 0 0"),
    ("two end records", ONE + END + END, "10 9 0 0 0 0 0 0"),
    ("a record after the end", ONE + END + step(0), "10 9 0 0 0 0 0 0"),
    ("10 before 9", END + b"\0", "10 4 0 0 0 0 0 0"),
    ("10 before 8", ACTED + block(0, 0, L) * 2 + END + END, "10 40 0 0 0 0 0 0"),
]

# "L, D, SD, DS and SL are timed and may have duration 0; the others must have duration 0"
for q in (N, R, S, P, P1, P0):
    CASES.append((f"untimed {q}, duration 0", ACTED + block(0, 0, q, 0) + END, "0 0 1 1 0 1 0 1"))
    CASES.append((f"untimed {q}, duration 1", ACTED + block(0, 0, q, 1) + END, "5 14 0 0 0 0 0 0"))
for q in (L, D, SD, DS, SL):
    CASES.append((f"timed {q}, duration 0", ACTED + block(0, 0, q, 0) + END, "0 0 1 1 0 1 0 1"))
    CASES.append((f"timed {q}, the longest duration", ACTED + block(0, 0, q, DAY) + END, "0 0 1 1 0 1 0 1"))
    CASES.append((f"timed {q}, a longer duration", ACTED + block(0, 0, q, DAY + 1) + END, "5 14 0 0 0 0 0 0"))

# Document 02, request (viii): "A chart may have one more record, kind 6, one byte with the value 2, after the cases"
BLOCKED = ACTED + block(0, 0, N)  # 25 bytes
CASED = BLOCKED + case(0, 0, 0)  # 32 bytes
MOVED = TWO + action(0) + GO  # 59 bytes
CASES += [
    ("chart A in edition 2", second(CHART_A), "0 0 2 2 2 3 1 2"),
    ("edition 2 behind a step alone", ONE + EDITION + END, "0 0 1 0 0 0 0 2"),
    ("edition 2 behind steps", TWO + EDITION + END, "0 0 2 0 0 0 0 2"),
    ("edition 2 behind actions", ACTED + EDITION + END, "0 0 1 1 0 0 0 2"),
    ("edition 2 behind transitions", TWO + GO + EDITION + END, "0 0 2 0 1 0 0 2"),
    ("edition 2 behind blocks", BLOCKED + EDITION + END, "0 0 1 1 0 1 0 2"),
    ("edition 2 behind cases", CASED + EDITION + END, "0 0 1 1 0 1 1 2"),
    ("edition 2 behind 64 cases", ONE + case(0, 0, 0) * 64 + EDITION + END, "0 0 1 0 0 0 64 2"),
    # "A chart then has at most 6,441 bytes"
    ("a full chart in edition 2: 6,441 bytes", FULL + EDITION + END, "0 0 64 32 64 256 64 2"),
    ("6,441 bytes and one more", FULL + EDITION + END + b"\0", "10 6441 0 0 0 0 0 0"),
    ("6,441 bytes and a record of edition 2 more", FULL + EDITION + END + EDITION, "10 6441 0 0 0 0 0 0"),
    ("a full chart with the edition twice", FULL + EDITION + EDITION + END, "4 6437 0 0 0 0 0 0"),
    ("a full chart in edition 3", FULL + edition(3) + END, "5 6432 0 0 0 0 0 0"),
    ("a full chart and its edition without an end", FULL + EDITION, "1 6437 0 0 0 0 0 0"),
    # 2: "after the cases", so whatever follows is smaller than the kind before it, but for the end; the place is that of what follows
    ("the edition before all", EDITION + ONE + END, "2 5 0 0 0 0 0 0"),
    ("the edition before all of chart A", EDITION + CHART_A, "2 5 0 0 0 0 0 0"),
    ("the edition between steps", ONE + EDITION + step(0) + END, "2 10 0 0 0 0 0 0"),
    ("the edition between steps and actions", ONE + EDITION + action(0) + END, "2 10 0 0 0 0 0 0"),
    ("the edition between actions", ACTED + EDITION + action(0) + END, "2 19 0 0 0 0 0 0"),
    ("the edition between actions and transitions", TWO + action(0) + EDITION + GO + END, "2 24 0 0 0 0 0 0"),
    ("the edition between steps and transitions", TWO + EDITION + GO + END, "2 15 0 0 0 0 0 0"),
    ("the edition between transitions", TWO + GO + EDITION + GO + END, "2 55 0 0 0 0 0 0"),
    ("the edition between transitions and blocks", MOVED + EDITION + block(0, 0, N) + END, "2 64 0 0 0 0 0 0"),
    ("the edition between transitions and cases", MOVED + EDITION + case(0, 0, 0) + END, "2 64 0 0 0 0 0 0"),
    ("the edition between actions and blocks", ACTED + EDITION + block(0, 0, N) + END, "2 19 0 0 0 0 0 0"),
    ("the edition between blocks", BLOCKED + EDITION + block(0, 0, N) + END, "2 30 0 0 0 0 0 0"),
    ("the edition between blocks and cases", BLOCKED + EDITION + case(0, 0, 0) + END, "2 30 0 0 0 0 0 0"),
    ("the edition between steps and cases", ONE + EDITION + case(0, 0, 0) + END, "2 10 0 0 0 0 0 0"),
    ("the edition between cases", CASED + EDITION + case(0, 0, 0) + END, "2 37 0 0 0 0 0 0"),
    ("the edition between cases, and again after them", CASED + EDITION + case(0, 0, 0) + EDITION + END, "2 37 0 0 0 0 0 0"),
    ("a step behind the edition of chart A", CHART_A[:-4] + EDITION + step(0) + END, "2 153 0 0 0 0 0 0"),
    ("kind 7 behind the edition", ONE + EDITION + record(7, b"\2") + END, "2 10 0 0 0 0 0 0"),
    ("kind 262, whose lesser byte is 6", ONE + record(262, b"\2") + END, "2 5 0 0 0 0 0 0"),
    ("kind 1536, whose greater byte is 6", ONE + record(1536, b"\2") + END, "2 5 0 0 0 0 0 0"),
    # .. and 10 after the end record
    ("the edition after the end", ONE + END + EDITION, "10 9 0 0 0 0 0 0"),
    ("the edition after the end of chart A", CHART_A + EDITION, "10 152 0 0 0 0 0 0"),
    ("the edition before and after the end", ONE + EDITION + END + EDITION, "10 14 0 0 0 0 0 0"),
    ("the edition after the end, and another end", ONE + END + EDITION + END, "10 9 0 0 0 0 0 0"),
    ("two ends behind the edition", ONE + EDITION + END + END, "10 14 0 0 0 0 0 0"),
    # 3, "wrong body length for the kind": one byte
    ("an edition of no byte", ONE + record(6, b"") + END, "3 5 0 0 0 0 0 0"),
    ("an edition of two bytes", ONE + record(6, b"\2\0") + END, "3 5 0 0 0 0 0 0"),
    ("an edition of 36 bytes", ONE + record(6, b"\2" + b"\0" * 35) + END, "3 5 0 0 0 0 0 0"),
    ("an edition of 257 bytes, whose lesser byte is 1", ONE + record(6, b"\2" * 257) + END, "3 5 0 0 0 0 0 0"),
    ("an edition of 256 bytes", ONE + record(6, b"\2" * 256) + END, "3 5 0 0 0 0 0 0"),
    ("a second edition of no byte", ONE + EDITION + record(6, b"") + END, "3 10 0 0 0 0 0 0"),
    ("an end with a body behind the edition", ONE + EDITION + record(0, b"\2"), "3 10 0 0 0 0 0 0"),
    # 1: cut within head and body, or no end record behind it
    ("one byte of an edition", ONE + EDITION[:1], "1 5 0 0 0 0 0 0"),
    ("two bytes of an edition", ONE + EDITION[:2], "1 5 0 0 0 0 0 0"),
    ("three bytes of an edition", ONE + EDITION[:3], "1 5 0 0 0 0 0 0"),
    ("an edition's head alone", ONE + EDITION[:4], "1 5 0 0 0 0 0 0"),
    ("an edition's head alone behind chart A", CHART_A[:-4] + EDITION[:4], "1 148 0 0 0 0 0 0"),
    ("no end record behind the edition", ONE + EDITION, "1 10 0 0 0 0 0 0"),
    ("three bytes of an end record behind the edition", ONE + EDITION + END[:3], "1 10 0 0 0 0 0 0"),
    # 4, "limit one"
    ("the edition twice", ONE + EDITION + EDITION + END, "4 10 0 0 0 0 0 0"),
    ("the edition twice behind chart A", CHART_A[:-4] + EDITION + EDITION + END, "4 153 0 0 0 0 0 0"),
    ("the edition three times", ONE + EDITION * 3 + END, "4 10 0 0 0 0 0 0"),
    ("the edition twice and nothing else", EDITION + EDITION + END, "4 5 0 0 0 0 0 0"),
    # the order of its tests: head (1), 2, 3, body (1), 4, 5
    ("an edition's 2 before 3", EDITION + record(1, b"\1\1") + END, "2 5 0 0 0 0 0 0"),
    ("an edition's 3 before the cut body", ONE + record(6, b"\2", length=2), "3 5 0 0 0 0 0 0"),
    ("an edition's 3 before 4", ONE + EDITION + record(6, b"\2\2") + END, "3 10 0 0 0 0 0 0"),
    ("an edition's 3 before 5", ONE + record(6, b"\1\1") + END, "3 5 0 0 0 0 0 0"),
    ("a second edition's cut body before 4", ONE + EDITION + EDITION[:4], "1 10 0 0 0 0 0 0"),
    ("an edition's 4 before 5", ONE + EDITION + edition(1) + END, "4 10 0 0 0 0 0 0"),
    ("5 of the first of two editions", ONE + edition(1) + EDITION + END, "5 5 0 0 0 0 0 0"),
    # the first faulty record counts, and an edition is one before 10, 9 and 8 are tested
    ("a case's 5 before the edition's", ONE + case(1, 0, 0) + edition(3) + END, "5 5 0 0 0 0 0 0"),
    ("6 before the edition's 5", TWO + transition([0], [0, 1]) + edition(3) + END, "6 10 0 0 0 0 0 0"),
    ("the edition's 5 before 10", ONE + edition(3) + END + END, "5 5 0 0 0 0 0 0"),
    ("the edition's 5 before 9", step(0) + edition(3) + END, "5 5 0 0 0 0 0 0"),
    ("the edition's 5 before 8", ACTED + block(0, 0, L) * 2 + edition(3) + END, "5 36 0 0 0 0 0 0"),
    ("the edition's 4 before 9", step(0) + EDITION * 2 + END, "4 10 0 0 0 0 0 0"),
    # all else is refused in edition 2 as in edition 1
    ("6, a step that is both in edition 2", TWO + transition([0, 1], [1]) + EDITION + END, "6 10 0 0 0 0 0 0"),
    ("9, the edition alone", EDITION + END, "9 0 0 0 0 0 0 0"),
    ("9, no initial step in edition 2", step(0) * 2 + EDITION + END, "9 0 0 0 0 0 0 0"),
    ("8, two timed blocks in edition 2", ACTED + block(0, 0, L) + block(0, 0, D) + EDITION + END, "8 0 0 0 0 0 0 0"),
    ("9 before 8 in edition 2", step(0) + action(0) + block(0, 0, L) * 2 + EDITION + END, "9 0 0 0 0 0 0 0"),
    ("10 before 9 in edition 2", EDITION + END + b"\0", "10 9 0 0 0 0 0 0"),
    ("10 before 8 in edition 2", ACTED + block(0, 0, L) * 2 + EDITION + END + END, "10 45 0 0 0 0 0 0"),
]
# "Refusals: 5 for another edition byte": 1 too, which is said by no record
for byte in (0, 1, 3, 4, 6, 18, 130, 255):
    CASES.append((f"edition byte {byte}", ONE + edition(byte) + END, "5 5 0 0 0 0 0 0"))
    CASES.append((f"edition byte {byte} behind chart A", CHART_A[:-4] + edition(byte) + END, "5 148 0 0 0 0 0 0"))

FILES = {
    "tests/stored/read_charts.in": b"".join(struct.pack("<H", len(f)) + f for _, f, _ in CASES),
    "tests/stored/read_charts.out": "".join(line + "\n" for _, _, line in CASES).encode(),
}


def store(files, script):
    """Write the files, or with --check stop at the first that is not what the script says."""
    for name, content in files.items():
        path = ROOT / name
        if "--check" not in sys.argv[1:]:
            path.parent.mkdir(parents=True, exist_ok=True)
            path.write_bytes(content)
        elif not path.is_file() or path.read_bytes() != content:
            sys.exit(f"{name} is not what {script} says")


if __name__ == "__main__":
    assert len(CHART_A) == 152 and len(FULL + END) == 6436 and len(second(FULL + END)) == 6441
    store(FILES, "tests/read_charts.py")
    print(f"read_charts: {len(CASES)} cases")
