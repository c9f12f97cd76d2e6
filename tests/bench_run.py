#!/usr/bin/env python3
"""The program bench_run, run on charts and traces and compared with what documents 01 and 02 say it prints.

  tests/bench_run.py                   write what `rt ci` runs it on: crates/bench_run/stdin, stdout and data/chart.bin; and examples/clamp
  tests/bench_run.py --check           say whether they are what this file says
  tests/bench_run.py --run [PROGRAM]   run the built program on every case, or another by its path from the root, such as build/bench_run

Short outputs are written out by hand. The long ones come from the plain model of start and cycle in run_cycles.py; nothing here
gets an expected line from the engine.
"""
import sys

sys.dont_write_bytecode = True
import run_cycles as model  # noqa: E402
from programs import main  # noqa: E402
from read_charts import (  # noqa: E402
    CHART_A, DS, EDITION, END, FULL as FULL_CHART, GO, L, N, ONE, P0, P1, R, S, TWO, action, block, case, edition, record, second, step, transition,
)
from sources import SOURCES, cycle, line, start, trace  # noqa: E402

TRACE_A = start(1000) + cycle(1010, 1) + cycle(1510, 2)
LINES_A = [
    "0 0000000000000001 00000000 0000000000000000",
    "1 0000000000000002 00000003 0000000000000001",
    "2 0000000000000001 00000000 0000000000000002",
]
NO_STEP, BAD_TRACE = "0" * 16, "refused trace 16"
BEGUN = "0 0000000000000001 00000000 " + NO_STEP

# name, chart file (None: there is none), trace, lines
CASES = [
    ("chart A", CHART_A, TRACE_A, LINES_A + ["passed 1 failed 0 notrun 0"]),
    ("chart A, last clock 1509", CHART_A, start(1000) + cycle(1010, 1) + cycle(1509, 2),
     LINES_A[:2] + ["2 0000000000000002 00000003 " + NO_STEP, "14", "passed 0 failed 0 notrun 1"]),
    # a second line where a cycle takes nothing (document 02, request vi): of no transition; of each digit that a halted chart can have; of 64
    ("no transition waits", ONE + END, start(0) + cycle(5), [BEGUN, "1" + BEGUN[1:], "", "passed 0 failed 0 notrun 0"]),
    ("transitions wait", step(1) * 2 + step(0) + transition([2], [0]) + transition([0], [2], on=[0]) + transition([0], [2], wait=10)
     + transition([0], [1]) + END, start(7) + cycle(6) + cycle(16),
     ["0 0000000000000003 00000000 " + NO_STEP, "1 refused 11", "2 0000000000000003 00000000 " + NO_STEP, "1345", "passed 0 failed 0 notrun 0"]),
    ("64 transitions wait", TWO + transition([0], [1], on=[0]) * 64 + END, start(7) + cycle(7),
     [BEGUN, "1" + BEGUN[1:], "3" * 64, "passed 0 failed 0 notrun 0"]),
    ("a case that fails", CHART_A[:-11] + case(1, 1, 0) + END, TRACE_A, LINES_A + ["passed 0 failed 1 notrun 0"]),
    ("the empty trace", CHART_A, b"", ["passed 0 failed 0 notrun 1"]),
    ("the empty trace, 64 cases", ONE + case(0, 0, 0) * 64 + END, b"", ["passed 0 failed 0 notrun 64"]),
    ("no case", ONE + END, start(0), [BEGUN, "passed 0 failed 0 notrun 0"]),
    ("the start alone", CHART_A, start(4294967295), [BEGUN, "passed 0 failed 0 notrun 1"]),
    # the chart
    ("no chart file", None, TRACE_A, ["refused chart 1"]),
    ("an empty chart file", b"", TRACE_A, ["refused chart 1"]),
    ("a bad chart and an empty trace", b"", b"", ["refused chart 1"]),
    ("a bad chart and a bad trace", b"", b"\0", ["refused chart 1"]),
    ("1, a cut body", CHART_A[:-5], TRACE_A, ["refused chart 1"]),
    ("2, kind 7", ONE + record(7, b"\2") + END, TRACE_A, ["refused chart 2"]),
    ("3, a step of two bytes", record(1, b"\1\0") + END, TRACE_A, ["refused chart 3"]),
    ("4, 65 steps", step(1) * 65 + END, TRACE_A, ["refused chart 4"]),
    ("5, output 32", ONE + action(32) + END, TRACE_A, ["refused chart 5"]),
    ("6, a step both source and target", TWO + transition([0], [0, 1]) + END, TRACE_A, ["refused chart 6"]),
    ("7, a signal in on and off", TWO + transition([0], [1], on=[3], off=[3]) + END, TRACE_A, ["refused chart 7"]),
    ("8, two timed blocks", ONE + action(0) + block(0, 0, L) * 2 + END, TRACE_A, ["refused chart 8"]),
    ("9, no initial step", step(0) + END, TRACE_A, ["refused chart 9"]),
    ("10, a byte more", CHART_A + b"\0", TRACE_A, ["refused chart 10"]),
    ("10, a chart file of 70,000 bytes", CHART_A.ljust(70_000, b"\0"), TRACE_A, ["refused chart 10"]),
    # the trace: "cut, unknown, of wrong length .., or a start record is not exactly the first"
    ("a start's head cut", CHART_A, start(1000)[:3], [BAD_TRACE]),
    ("a start's body cut", CHART_A, start(1000)[:7], [BAD_TRACE]),
    ("a start's head alone", CHART_A, start(1000)[:4], [BAD_TRACE]),
    ("one byte", CHART_A, b"\4", [BAD_TRACE]),
    ("a start of three bytes", CHART_A, record(17, b"\0" * 3) + cycle(0), [BAD_TRACE]),
    ("a start of five bytes", CHART_A, record(17, b"\0" * 5) + cycle(0), [BAD_TRACE]),
    ("a start of eight bytes", CHART_A, record(17, b"\0" * 8) + cycle(0), [BAD_TRACE]),
    ("a cycle first", CHART_A, cycle(1000) + start(1000), [BAD_TRACE]),
    ("a second start", CHART_A, start(1000) * 2 + cycle(1010, 1), [BEGUN, BAD_TRACE]),
    ("a start after a cycle", CHART_A, TRACE_A + start(1510), LINES_A + [BAD_TRACE]),
    ("kind 15", CHART_A, record(15, b"\0" * 4), [BAD_TRACE]),
    ("kind 0 ends no trace", CHART_A, TRACE_A + END, LINES_A + [BAD_TRACE]),
    ("kind 18 behind the start", CHART_A, start(1000) + record(18, b"\0" * 8), [BEGUN, BAD_TRACE]),
    ("kind 272, whose lesser byte is 16", CHART_A, start(1000) + record(272, b"\0" * 8), [BEGUN, BAD_TRACE]),
    ("a cycle of seven bytes", CHART_A, start(1000) + record(16, b"\0" * 7), [BEGUN, BAD_TRACE]),
    ("a cycle of nine bytes", CHART_A, start(1000) + record(16, b"\0" * 9), [BEGUN, BAD_TRACE]),
    ("a cycle of four bytes", CHART_A, start(1000) + record(16, b"\0" * 4), [BEGUN, BAD_TRACE]),
    ("a length of 264, whose lesser byte is 8", CHART_A, start(1000) + record(16, b"\0" * 264), [BEGUN, BAD_TRACE]),
    ("a cycle's head cut", CHART_A, TRACE_A + cycle(1600)[:3], LINES_A + [BAD_TRACE]),
    ("a cycle's body cut", CHART_A, TRACE_A + cycle(1600)[:11], LINES_A + [BAD_TRACE]),
    # "A refused cycle prints its number, `refused` and the code, and the run goes on"
    ("refused cycles in the middle", CHART_A,
     start(1000) + cycle(999, 1) + cycle(1010, 1) + cycle(61_011, 2) + cycle(1009, 2) + cycle(1510, 2),
     [LINES_A[0], "1 refused 11", "2" + LINES_A[1][1:], "3 refused 11", "4 refused 11", "5" + LINES_A[2][1:],
      "passed 1 failed 0 notrun 0"]),
    ("all cycles refused", CHART_A, start(1000) + cycle(999) * 11,
     [LINES_A[0]] + [f"{k} refused 11" for k in range(1, 12)] + ["passed 0 failed 0 notrun 1"]),
    # every hex digit, in steps, activity and transitions taken; the letters are lower case
    ("each hex digit", b"".join(step(0x0123456789ABCDEF >> k & 1) for k in range(64)) + action(0) * 32
     + b"".join(block(next(s for s in range(64) if 0x0123456789ABCDEF >> s & 1), k, N) for k in range(32) if 0xFEDCBA98 >> k & 1)
     + END, start(7), ["0 0123456789abcdef fedcba98 " + NO_STEP, "passed 0 failed 0 notrun 0"]),
    ("all steps and actions", step(1) * 64 + action(0) * 32 + b"".join(block(63, k, N) for k in range(32)) + END, start(7),
     ["0 ffffffffffffffff ffffffff " + NO_STEP, "passed 0 failed 0 notrun 0"]),
    ("32 transitions taken", b"".join(step(k < 32) for k in range(64))
     + b"".join(transition([k // 2], [32 + k // 2], on=[k % 2]) for k in range(64)) + END, start(7) + cycle(7, 2),
     ["0 00000000ffffffff 00000000 " + NO_STEP, "1 ffffffff00000000 00000000 aaaaaaaaaaaaaaaa", "passed 0 failed 0 notrun 0"]),
    # step 0 is left with input 1 set and input 2 not: 10 cases pass, 12 fail, and 42 on step 1 do not run
    ("two digits in each count", TWO + GO + case(0, 1, 1) * 10 + case(0, 2, 1) * 12 + case(1, 0, 0) * 42 + END, start(1) + cycle(2, 2),
     [BEGUN, "1 0000000000000002 00000000 0000000000000001", "passed 10 failed 12 notrun 42"]),
]

# Document 02, request (viii). Steps 0 and 1 are active and lead into each other, on input 0 and on input 1 with a wait of 10. Actions: 0 is P0 on
# step 0, 1 is P1 and 2 is L 100 on step 1. In edition 2 both are left and entered at 1020, and their cases marked, the second bad; at 1025 step 1 is a
# target that stays, so that L, which began anew at 1020, ends at 1120. In edition 1 nothing is ever taken, and L ends 100 ms after the start.
SWAP = (step(1) * 2 + action(0) * 3 + transition([0], [1], on=[0]) + transition([1], [0], on=[1], wait=10)
        + block(0, 0, P0) + block(1, 1, P1) + block(1, 2, L, 100) + case(0, 0, 1) + case(1, 1, 0) + END)
SWAP_TRACE = trace(1000, (1010, {}), (1020, {0, 1}), (1025, {0}), (1030, {}), (1119, {}), (1120, {}), (1121, {1}), (1122, {0, 1}))
CASES += [
    ("edition 2", second(SWAP), SWAP_TRACE, [
        line(0, {0, 1}, {1, 2}), line(1, {0, 1}, {2}, why="33"), line(2, {0, 1}, {0, 1, 2}, {0, 1}), line(3, {1}, {0, 2}, {0}),
        line(4, {1}, {2}, why="13"), line(5, {1}, {2}, why="13"), line(6, {1}, {}, why="13"), line(7, {0}, {}, {1}), line(8, {1}, {0, 1, 2}, {0}),
        "passed 1 failed 1 notrun 0"]),
    ("the same chart in edition 1", SWAP, SWAP_TRACE, [
        line(0, {0, 1}, {1, 2}), line(1, {0, 1}, {2}, why="33"), line(2, {0, 1}, {2}, why="55"), line(3, {0, 1}, {2}, why="53"),
        line(4, {0, 1}, {2}, why="33"), line(5, {0, 1}, {}, why="33"), line(6, {0, 1}, {}, why="33"), line(7, {0, 1}, {}, why="35"),
        line(8, {0, 1}, {}, why="55"), "passed 0 failed 0 notrun 2"]),
    ("chart A in edition 2", second(CHART_A), TRACE_A, LINES_A + ["passed 1 failed 0 notrun 0"]),
    ("chart A in edition 2, the empty trace", second(CHART_A), b"", ["passed 0 failed 0 notrun 1"]),
    # two into one target, which is entered once; the chart of "transitions wait" above in edition 2: its fourth transition is taken, and then the
    # first reason of all is that step 0 is not active, but for the one from step 2
    ("two into one target in edition 2",
     second(step(1) * 2 + step(0) + action(0) + transition([0], [2]) + transition([1], [2]) + block(2, 0, P1) + END),
     trace(7, (8, {}), (9, {})), [line(0, {0, 1}, {}), line(1, {2}, {0}, {0, 1}), line(2, {2}, {}, why="11"), "passed 0 failed 0 notrun 0"]),
    ("transitions wait in edition 2",
     second(step(1) * 2 + step(0) + transition([2], [0]) + transition([0], [2], on=[0]) + transition([0], [2], wait=10) + transition([0], [1]) + END),
     start(7) + cycle(6) + cycle(16) + cycle(17),
     [line(0, {0, 1}, {}), "1 refused 11", line(2, {1}, {}, {3}), line(3, {1}, {}, why="1111"), "passed 0 failed 0 notrun 0"]),
    # "A chart then has at most 6,441 bytes": 64 transitions from step 0 to step 1, both active; the first is taken, and step 0 is active no more
    ("a chart of 6,441 bytes", second(FULL_CHART + END), trace(7, (8, {}), (9, {})),
     [line(0, range(64), {31}), line(1, range(1, 64), {31}, {0}), line(2, range(1, 64), {31}, why="1" * 64), "passed 0 failed 0 notrun 64"]),
    ("the same of 6,436 bytes", FULL_CHART + END, trace(7, (8, {})),
     [line(0, range(64), {31}), line(1, range(64), {31}, why="5" * 64), "passed 0 failed 0 notrun 64"]),
    ("10, a chart of 6,441 bytes and one more", second(FULL_CHART + END) + b"\0", TRACE_A, ["refused chart 10"]),
    # the record's refusals
    ("1, the edition's head alone", CHART_A[:-4] + EDITION[:4], TRACE_A, ["refused chart 1"]),
    ("2, the edition before the case", CHART_A[:-11] + EDITION + CHART_A[-11:], TRACE_A, ["refused chart 2"]),
    ("3, an edition of two bytes", ONE + record(6, b"\2\0") + END, TRACE_A, ["refused chart 3"]),
    ("4, the edition twice", ONE + EDITION * 2 + END, TRACE_A, ["refused chart 4"]),
    ("5, edition byte 1", ONE + edition(1) + END, TRACE_A, ["refused chart 5"]),
    ("5, edition byte 3", second(CHART_A)[:-9] + edition(3) + END, TRACE_A, ["refused chart 5"]),
    ("10, the edition behind the end", CHART_A + EDITION, TRACE_A, ["refused chart 10"]),
]

# Document 02, request (xi): the chart that docs/ASSESSOR.md works through by hand. Steps idle, closing, braking and opening, each left by an input of its
# own; actions 0 jog and 1 clamp, both on output 0, and 2 power. Closing clamps after 200 ms, braking jogs, opening resets the clamp, idle sets power.
def clamp(on):
    """Transition k asks for the signals on[k]."""
    return (step(1) + step(0) * 3 + action(0, 5) + action(0, 1) + action(1, 1) + b"".join(transition([k], [(k + 1) % 4], on=on[k]) for k in range(4))
            + block(1, 1, DS, 200) + block(2, 0, N) + block(3, 1, R) + block(0, 2, S) + END)


CLAMP = clamp([[0], [1], [2], [3]])
CLAMP_TRACE = trace(1000, (1010, {0}), (1209, {}), (1210, {}), (1300, {1}), (1290, {2}), (1400, {2}), (1500, {3}))
CASES += [
    ("the clamp", CLAMP, CLAMP_TRACE, [
        "0 0000000000000001 00000004 0000000000000000",
        "1 0000000000000002 00000004 0000000000000001",
        "2 0000000000000002 00000004 0000000000000000",
        "1311",
        "3 0000000000000002 00000006 0000000000000000",
        "1311",
        "4 0000000000000004 00000007 0000000000000002",
        "5 refused 11",
        "6 0000000000000008 00000004 0000000000000004",
        "7 0000000000000001 00000004 0000000000000008",
        "passed 0 failed 0 notrun 0"]),
    # its step is left in the call that would have set it, and is not active after it; and in edition 2 it is the same
    *((f"a clamp left at its duration{how}", chart, trace(1000, (1010, {0}), (1210, {1}), (1300, {})),
       [line(0, {0}, {2}), line(1, {1}, {2}, {0}), line(2, {2}, {0, 2}, {1}), line(3, {2}, {0, 2}, why="1131"), "passed 0 failed 0 notrun 0"])
      for how, chart in [("", CLAMP), (" in edition 2", second(CLAMP))]),
    # so closing is left only once the call before has left the clamp active
    ("a clamp that is waited for", clamp([[0], [1, 33], [2], [3]]), trace(1000, (1010, {0}), (1215, {1}), (1216, {1})),
     [line(0, {0}, {2}), line(1, {1}, {2}, {0}), line(2, {1}, {1, 2}, why="1311"), line(3, {2}, {0, 1, 2}, {1}), "passed 0 failed 0 notrun 0"]),
    # step 0, which stays active, sets the action in every call, and step 2 resets it while it is active
    ("S at the start, S and R in one call", step(1) * 2 + step(0) + action(0) + transition([1], [2], on=[0]) + transition([2], [1], on=[1])
     + block(0, 0, S) + block(2, 0, R) + END, trace(0, (1, {0}), (2, {}), (3, {1})),
     [line(0, {0, 1}, {0}), line(1, {0, 2}, {}, {0}), line(2, {0, 2}, {}, why="13"), line(3, {0, 1}, {0}, {1}), "passed 0 failed 0 notrun 0"]),
]


def answered(data, records):
    """The lines of calls by the model, a second one in the same text, and the tally's; records are a start's clock and then cycles' clocks and inputs."""
    chart = model.parse(data)
    model.check_valid(chart)
    lines, answer = [], None
    for number, (clock, inputs) in enumerate(records):
        if answer is None:
            answer = model.start(chart, clock)
        else:
            answer = model.cycle(chart, answer.run, answer.outputs, clock, model.numbers(inputs))
        if answer.code:
            lines.append(f"{number} refused {answer.code}")
        else:
            active, activity, taken = map(model.members, (answer.run.active, answer.run.activity, answer.taken))
            lines.append(f"{number} {active:016x} {activity:08x} {taken:016x}")
            if number > 0 and not taken:
                lines[-1] += "\n" + "".join(map(str, answer.reasons))
    bad, good = answer.run.bad, answer.run.good - answer.run.bad
    return lines, f"passed {len(good)} failed {len(bad)} notrun {len(chart.cases) - len(good) - len(bad)}"


# "begins at byte 65,528 or later": a start and 5,460 cycles end there. Chart A swings every 250 ms; its wait is 500.
LONG = [(1000, 0)] + [(1000 + 250 * k, k % 4) for k in range(1, 5461)]
FULL = start(1000) + b"".join(cycle(*call) for call in LONG[1:])
LONG_LINES, LONG_TALLY = answered(CHART_A, LONG)
assert len(FULL) == 65_528 and len(LONG_LINES) == 5461 and LONG_LINES[-1].startswith("5460 ")
assert answered(CHART_A, [(1000, 0), (1010, 1), (1510, 2)]) == (LINES_A, "passed 1 failed 0 notrun 0")
CASES += [
    ("a trace of exactly 65,528 bytes", CHART_A, FULL, LONG_LINES + [LONG_TALLY]),
    ("65,528 bytes and one record more", CHART_A, FULL + cycle(LONG[-1][0]), LONG_LINES + [BAD_TRACE]),
    ("65,528 bytes and one byte more", CHART_A, FULL + b"\0", LONG_LINES + [BAD_TRACE]),
    ("65,528 bytes and 240,000 more", CHART_A, FULL + cycle(LONG[-1][0]) * 20_000, LONG_LINES + [BAD_TRACE]),
    ("a trace of ten megabytes", CHART_A, FULL.ljust(10_000_000, b"\0"), LONG_LINES + [BAD_TRACE]),
    ("one record fewer", CHART_A, FULL[:-12], LONG_LINES[:-1] + [LONG_TALLY]),
    ("the last record cut", CHART_A, FULL[:-1], LONG_LINES[:-1] + [BAD_TRACE]),
] + SOURCES

if __name__ == "__main__":
    main("bench_run", CASES, (CHART_A, FULL), {"examples/clamp/chart.bin": CLAMP, "examples/clamp/trace.bin": CLAMP_TRACE})
