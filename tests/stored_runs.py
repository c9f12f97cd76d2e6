#!/usr/bin/env python3
"""The stored cases of `driver stored_runs`: its input, and what is stored after each call by the sentence of document 02, request (xi).

  tests/stored_runs.py           write tests/stored/stored_runs.in and stored_runs.out
  tests/stored_runs.py --check   say whether they are what this file says

All lines are by hand. A call is a cycle's clock and set of inputs, HOLD, RELEASE, or a list of such cycles, a shift; behind it stand its number, of a shift
how many cycles were accepted, the active steps, the stored actions, and the step counters that are not 0.
"""
import struct
import sys

sys.dont_write_bytecode = True
from bench_run import CLAMP  # noqa: E402
from read_charts import DS, END, action, block, members, second, step, store, transition  # noqa: E402
from run_cycles import HOLD, RELEASE, call_bytes  # noqa: E402

# steps 0 and 1 are active and lead into each other, on input 0 and on input 1; step 1 sets action 0 after 10 ms
SWAP = step(1) * 2 + action(0) + transition([0], [1], on=[0]) + transition([1], [0], on=[1]) + block(1, 0, DS, 10) + END

# name, chart file, the start's clock and line, calls with their lines. Clamp is action 1, power action 2, which the start sets
CASES = [
    ("the clamp, set at 200 ms and reset", CLAMP, 1000, "0 1 4 c", [
        ((1010, {0}), "0 2 4 c"), ((1209, {}), "0 2 4 c 1:199"), ((1210, {}), "0 2 6 c 1:200"), ((1300, {1}), "0 4 6 c"),
        ((1290, {2}), "11 4 6 c"), ((1400, {2}), "0 8 4 c"), ((1500, {3}), "0 1 4 c")]),
    # step 1's counter stands one ms short, whatever the clock, and goes on where it stood; and what is stored stays so under hold
    ("the clamp under hold", CLAMP, 1000, "0 1 4 c", [
        ((1010, {0}), "0 2 4 c"), ((1209, {}), "0 2 4 c 1:199"), (HOLD, "0 2 4 c 1:199"), ((1300, {1}), "0 2 4 c 1:199"),
        (RELEASE, "0 2 4 c 1:199"), ((1300, {}), "0 2 4 c 1:199"), ((1301, {}), "0 2 6 c 1:200"), (HOLD, "0 2 6 c 1:200"),
        ((1400, {1}), "0 2 6 c 1:200"), (RELEASE, "0 2 6 c 1:200"), ((1500, {1}), "0 4 6 c")]),
    ("the clamp in shifts, the second stopped", CLAMP, 1000, "0 1 4 c", [
        ([(1010, {0}), (1209, {}), (1210, {}), (1300, {1})], "0 4 4 6 c"), ([(1400, {2}), (1390, {3}), (1401, {3})], "11 1 8 4 c"), ([], "0 0 8 4 c"),
        ([(1399, {3})], "11 0 8 4 c")]),
    # left in the call in which its step's counter reaches the duration, it is not set
    ("the clamp left at 200 ms", CLAMP, 1000, "0 1 4 c", [((1010, {0}), "0 2 4 c"), ((1210, {1}), "0 4 4 c"), ((1250, {}), "0 4 4 c 2:40")]),
    # a step both left and entered begins anew; a target that stays does not, and sets
    ("edition 2", second(SWAP), 0, "0 3 0 c", [
        ((9, {}), "0 3 0 c 0:9 1:9"), ((10, {0, 1}), "0 3 0 c"), ((19, {}), "0 3 0 c 0:9 1:9"), ((20, {0}), "0 2 1 c 1:10"), ((21, {1}), "0 1 1 c")]),
    ("edition 1", SWAP, 0, "0 3 0 c", [((9, {}), "0 3 0 c 0:9 1:9"), ((10, {0, 1}), "0 3 1 c 0:10 1:10"), ((11, {1}), "0 3 1 c 0:11 1:11")]),
    # the all-zero chart has no edition
    ("no chart", b"", 7, "5 0 0 c", [((8, {}), "5 0 0 c"), (HOLD, "5 0 0 c"), ([(9, {})], "5 0 0 0 c")]),
]


def entry(call):
    """As the head of driver.c has it."""
    if not isinstance(call, list):
        return call_bytes(call)
    clocks, inputs = [clock for clock, _ in call], [members(inputs) for _, inputs in call]
    return struct.pack(f"<BH{2 * len(call)}I", 3, len(call), *clocks, *inputs)


def request(data, clock, calls):
    return struct.pack("<H", len(data)) + data + struct.pack("<IH", clock, len(calls)) + b"".join(entry(call) for call, _ in calls)


if __name__ == "__main__":
    store({
        "tests/stored/stored_runs.in": b"".join(request(data, clock, calls) for _, data, clock, _, calls in CASES),
        "tests/stored/stored_runs.out": "".join(" ".join([first] + [line for _, line in calls]) + "\n" for _, _, _, first, calls in CASES).encode(),
    }, "tests/stored_runs.py")
    print(f"stored_runs: {len(CASES)} cases, {sum(1 + len(calls) for *_, calls in CASES)} calls")
