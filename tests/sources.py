#!/usr/bin/env python3
"""The charts of the source documents that can be run, encoded, with the lines that document 01 asks for, derived by hand.

bench_run.py runs them. Where a source would do otherwise, document 01 decides; comments name the point.
"""
import struct
import sys

sys.dont_write_bytecode = True
from read_charts import D, END, L, N, P0, P1, R, S, SD, SL, action, block, case, members, record, step, transition  # noqa: E402


def start(clock):
    return record(17, struct.pack("<I", clock))


def cycle(clock, inputs=0):
    return record(16, struct.pack("<II", clock, inputs))


def line(number, active, activity, taken=(), why=None):
    """A call's line, and behind one that takes nothing its second, why each transition waits (document 02, request vi)."""
    first = f"{number} {members(active):016x} {members(activity):08x} {members(taken):016x}"
    return first if why is None else f"{first}\n{why}"


def trace(*calls):
    """A start's clock, and cycles as their clock and set of inputs."""
    return start(calls[0]) + b"".join(cycle(clock, members(inputs)) for clock, inputs in calls[1:])


# Source 000, the simple mixer: steps Start, RunPump, Empty. Inputs 0 min1, 1 max1, 2 min2, 3 max2, 4 the mixer runs. Actions 0 StartPump, 1
# StopPump, 2 RefillT1, 3 EmptyT2, 4 MixT2. "T1 is empty or T2 is full" is two transitions.
MIXER_STEPS = step(1) + step(0) + step(0) + b"".join(action(k, 1) for k in range(5))
MIXER_MOVES = (transition([0], [1], on=[0, 4], off=[3]) + transition([1], [2], off=[0]) + transition([1], [2], on=[3])
               + transition([2], [0], on=[1], off=[2]))
PUMPS = block(1, 0, P1) + block(2, 1, P1) + block(2, 2, N) + block(2, 3, N)


def mixer(first, *rest):
    return MIXER_STEPS + MIXER_MOVES + first + PUMPS + b"".join(rest) + END


# Section 3.1: MixT2 is set in the first step and reset in the last. The mixer runs when the pump's step is left, T2 is drained when Empty is,
# and MixT2 was active before Start was left (signal 36).
SET_MIXER = mixer(block(0, 4, S), block(2, 4, R), case(1, 4, 1), case(2, 2, 0), case(0, 36, 1))
SOURCES = [
    ("000, mixer with S and R", SET_MIXER, trace(0, (100, {0, 1}), (200, {0, 1, 4}), (300, {0, 2, 4}), (400, {2, 4}), (500, {0, 1})), [
        line(0, {0}, {4}), line(1, {0}, {4}, why="3111"), line(2, {1}, {0, 4}, {0}), line(3, {1}, {4}, why="1331"),
        line(4, {2}, {1, 2, 3}, {1}), line(5, {0}, {4}, {3}), "passed 3 failed 0 notrun 0"]),
    # both reasons to stop the pump at once: the lower number is taken, its rival not
    ("000, mixer, T1 empty and T2 full", SET_MIXER, trace(0, (100, {0, 4}), (200, {2, 3})), [
        line(0, {0}, {4}), line(1, {1}, {0, 4}, {0}), line(2, {2}, {1, 2, 3}, {1}), "passed 1 failed 1 notrun 1"]),
    # chapter 5: the mixer delayed or limited to 100 ms, by the counter of its step; outputs have no memory here
    ("000, mixer with D 100", mixer(block(0, 4, D, 100)), trace(0, (99, {}), (100, {}), (150, {0, 4}), (160, {})), [
        line(0, {0}, {}), line(1, {0}, {}, why="3111"), line(2, {0}, {4}, why="3111"), line(3, {1}, {0}, {0}),
        line(4, {2}, {1, 2, 3}, {1}), "passed 0 failed 0 notrun 0"]),
    ("000, mixer with L 100", mixer(block(0, 4, L, 100)), trace(0, (99, {}), (100, {}), (150, {0, 4})), [
        line(0, {0}, {4}), line(1, {0}, {4}, why="3111"), line(2, {0}, {}, why="3111"), line(3, {1}, {0}, {0}), "passed 0 failed 0 notrun 0"]),
]

# Source 000, chapter 6: Start, Drain_Tank1, Drain_Tank2, Drain_Tank3, Ready in a line. Actions 0 mixer 2 (S, R in the last step), 1 mixer 1 (SL one
# hour, R in Drain_Tank3), 2 mixer 3 (SD half an hour, R in the last), 3.. valves and pumps opened by P1 and closed by P0.
PLANT = (
    step(1) + step(0) * 4 + b"".join(action(k, 1) for k in range(17))
    + b"".join(transition([k], [k + 1], on=[k]) for k in range(4))
    + block(0, 0, S) + block(1, 1, SL, 3_600_000) + block(2, 2, SD, 1_800_000) + block(3, 1, R) + block(4, 0, R) + block(4, 2, R)
    + b"".join(block(1, a, P1) for a in (3, 4, 5)) + b"".join(block(1, a, P0) for a in (6, 7))
    + b"".join(block(2, a, P1) for a in (5, 8)) + b"".join(block(2, a, P0) for a in (7, 9, 10))
    + b"".join(block(3, a, P1) for a in (4, 11, 12, 13)) + b"".join(block(3, a, P0) for a in (10, 14, 15, 16))
    + case(1, 33, 0) + case(2, 34, 1) + case(4, 0, 0) + END
)
# minute by minute: mixer 1 stops after 60 minutes (call 61), mixer 3 starts after 30 (call 92); only a reset ends either latch
MINUTES = [(1_000 + 60_000 * k, set()) for k in range(1, 61)] + [(3_601_010, {1})] + [(3_601_010 + 60_000 * k, set()) for k in range(1, 31)]
PLANT_LINES = (
    [line(0, {0}, {0}), line(1, {1}, {0, 1, 3, 4, 5}, {0})] + [line(k, {1}, {0, 1}, why="1311") for k in range(2, 61)]
    + [line(61, {1}, {0}, why="1311"), line(62, {2}, {0, 5, 6, 7, 8}, {1})] + [line(k, {2}, {0}, why="1131") for k in range(63, 92)]
    + [line(92, {2}, {0, 2}, why="1131"), line(93, {3}, {0, 2, 4, 7, 9, 10, 11, 12, 13}, {2}), line(94, {3}, {0, 2}, why="1113")]
    + [line(95, {4}, {10, 14, 15, 16}, {3}), line(96, {4}, {}, why="1111")]
)
SOURCES.append(("000, chapter 6", PLANT,
                trace(0, (1_000, {0}), *MINUTES, (5_401_020, {2}), (5_401_030, {}), (5_401_040, {3}), (5_401_050, {})),
                PLANT_LINES + ["passed 2 failed 0 notrun 1"]))

# Source 004, example 4.9: a press. Inputs 0 and 1 are the two buttons; a unit is a second. Steps wait, close, press; actions 0 close, 1 open, 2
# press are pulses on entering, so that the start opens the gate once. Letting go of a button is two transitions.
PRESS = (
    step(1) + step(0) * 2 + b"".join(action(k, 1) for k in range(3))
    + transition([0], [1], on=[0, 1]) + transition([1], [2], on=[0, 1], wait=5_000) + transition([1], [0], off=[0])
    + transition([1], [0], off=[1]) + transition([2], [0], wait=2_000)
    + block(1, 0, P1) + block(0, 1, P1) + block(2, 2, P1) + case(1, 0, 1) + case(2, 0, 0) + case(0, 1, 1) + END
)
SOURCES.append(("004, press", PRESS, trace(
    0, (100, {0}), (200, {0, 1}), (5_199, {0, 1}), (5_200, {0, 1}), (7_199, {}), (7_250, {}), (7_300, {0, 1}), (7_400, {1}), (7_500, {0, 1}),
    (12_500, {})), [
        line(0, {0}, {1}), line(1, {0}, {}, why="31111"), line(2, {1}, {0}, {0}), line(3, {1}, {}, why="14331"), line(4, {2}, {2}, {1}),
        line(5, {2}, {}, why="11114"), line(6, {0}, {1}, {4}), line(7, {1}, {0}, {0}), line(8, {0}, {1}, {2}), line(9, {1}, {0}, {0}), line(10, {0}, {1}, {2}),
        "passed 2 failed 1 notrun 0"]))

# Source 004, programs 3.1 and 3.2: two lamps that alternate every 30 s. No reading equals the half minute: a wait is reached, not met.
LAMPS = (step(1) + step(0) + action(0, 1) + action(1, 1) + transition([0], [1], wait=30_000) + transition([1], [0], wait=30_000)
         + block(0, 0, N) + block(1, 1, N) + END)
SOURCES.append(("004, two lamps", LAMPS, trace(0, (29_999, {}), (30_114, {}), (59_932, {}), (60_246, {})), [
    line(0, {0}, {0}), line(1, {0}, {0}, why="41"), line(2, {1}, {1}, {0}), line(3, {1}, {1}, why="14"), line(4, {0}, {0}, {1}), "passed 0 failed 0 notrun 0"]))
