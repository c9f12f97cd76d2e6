#!/usr/bin/env python3
"""The stored cases of `driver held_calls`: its input, and the output that documents 01 and 02 ask for.

  tests/held_calls.py           write tests/stored/held_calls.in and held_calls.out
  tests/held_calls.py --check   say whether they are what this file says

Each case is an image of a chart, an image of a run and a call, and its line. The lines are derived from documents 01 and 02 by hand;
nothing here runs the engine. tests/cases.rs makes random cases of the same form.

Images, the least byte of each number first: every field of the chart and of the run in full length, as the tables CHART and RUN
have them; the chart's is the struct as it lies, with seven bytes behind the edition that belong to no field and are 0. The call: kind
(0 start, 1 cycle, 2 tally, 3 weighing, 4 writing, 5 shift, 6 hold, 7 release, 8 building an index, 9 cycle by an index, 10 shift by
an index, 11 adding), clock, inputs, number of lent outputs, number of weights, and the weights; of a writing, the clock is the
number of lent bytes; of 9 and 10, the index's 64 words follow; of a shift, the clock's halves are the numbers of clocks and of
inputs, the inputs' lower half that of lent activity words, and its clocks and inputs follow, behind the index if it is by one; of an
adding, the weights are the first list, the clock's lower half is the number of weights in the second, which follow, and the inputs'
lower half that of lent sums. Before the call lent output k holds 1000 + k, lent byte k holds k % 251, activity word k holds
2^32 + k, lent sum k holds 50000 + k % 256, a reason 255, and a word of an index that is built 2^64 - 1.

A line of start or cycle: code, transitions taken, clock, active, activity, stored, latched, good, bad, hold, 64 step counters, 32
action timers, the lent outputs, and of a cycle 64 reasons; of a tally: code, passed, failed, not run; of a weighing: code,
transition, total; of a writing: code, length, the lent bytes; of a shift: code, accepted cycles, then as of a start, and the
activity words; of a hold or a release: code, 0, then as of a start, without the outputs, which are not lent to it; of an index that
is built: code, its 64 words; of an adding: code, step, the lent sums.
"""
import struct
import sys

sys.dont_write_bytecode = True  # leave no folder beside read_charts.py
from read_charts import (  # noqa: E402
    CHART_A, D, DAY, DS, EDITION, END, FULL as FULL_CHART, L, P, P0, P1, SD, SL, action, case, second, step, store,
)

START, CYCLE, TALLY, WEIGHING, WRITING, SHIFT, HOLD, RELEASE, INDEX, CYCLE_BY, SHIFT_BY, ADDING = range(12)
LIMITS = {"steps": 64, "actions": 32, "transitions": 64, "blocks": 256, "cases": 64}

# name, form, how many
CHART = [(count, "Q", 1) for count in LIMITS] + [
    ("initial", "B", 64), ("output", "B", 32), ("value", "i", 32),
    ("sources", "Q", 64), ("targets", "Q", 64), ("on", "Q", 64), ("off", "Q", 64), ("wait", "I", 64),
    ("blockstep", "B", 256), ("blockaction", "B", 256), ("qualifier", "B", 256), ("duration", "I", 256),
    ("casestep", "B", 64), ("signal", "B", 64), ("expected", "B", 64), ("edition", "B", 1), ("unused", "B", 7),
]
RUN = [
    ("clock", "I", 1), ("active", "Q", 1), ("activity", "Q", 1), ("stored", "Q", 1), ("latched", "Q", 1),
    ("counters", "I", 64), ("timers", "I", 32), ("good", "Q", 1), ("bad", "Q", 1), ("hold", "B", 1),
]
# the tables of a record's fields in their order in the file, the form of the body, and the count
KINDS = {
    1: ("steps", "<B", ["initial"]),
    2: ("actions", "<Bi", ["output", "value"]),
    3: ("transitions", "<QQQQI", ["sources", "targets", "on", "off", "wait"]),
    4: ("blocks", "<BBBI", ["blockstep", "blockaction", "qualifier", "duration"]),
    5: ("cases", "<BBB", ["casestep", "signal", "expected"]),
}


def empty(layout):
    """An image of zeros: each field a list, of one number where the field is no table."""
    return {name: [0] * many for name, _, many in layout}


def packed(layout, image):
    return b"".join(struct.pack(f"<{many}{form}", *image[name]) for name, form, many in layout)


def chart_image(data):
    """The image of a valid file; without a record of kind 6 it is edition 1 (document 02, request viii)."""
    image, place = altered(empty(CHART), {"edition": 1}), 0
    while True:
        length, kind = struct.unpack_from("<HH", data, place)
        if kind == 0:
            return image
        if kind == 6:
            image["edition"][0] = data[place + 4]
            place += 4 + length
            continue
        count, form, names = KINDS[kind]
        for name, value in zip(names, struct.unpack_from(form, data, place + 4)):
            image[name][image[count][0]] = value
        image[count][0] += 1
        place += 4 + length


def altered(image, changes):
    """The image with other values: {"steps": 3} in a field that is no table, {("wait", 5): 7} in a table."""
    image = {name: list(values) for name, values in image.items()}
    for field, value in changes.items():
        name, k = field if isinstance(field, tuple) else (field, 0)
        image[name][k] = value
    return image


def request(chart, run, kind, clock=0, inputs=0, lent=32, weights=()):
    call = struct.pack(f"<BIIBB{len(weights)}H", kind, clock, inputs, lent, len(weights), *weights)
    return packed(CHART, chart) + packed(RUN, run) + call


def shift_request(chart, run, clocks, inputs, words, lent=32, index=None):
    lists = struct.pack(f"<{len(clocks)}I{len(inputs)}I", *clocks, *inputs)
    kind, leaving = (SHIFT, b"") if index is None else (SHIFT_BY, index_words(index))
    return request(chart, run, kind, len(clocks) | len(inputs) << 16, words, lent) + leaving + lists


def index_words(index):
    """An index from those of its words that are not 0, by their step."""
    return struct.pack("<64Q", *(index.get(k, 0) for k in range(64)))


def index_of(chart):
    """Document 02, request (ix): "for every step, the set of transitions that have it as a source". Of a chart that is refused it is any index."""
    transitions = range(min(chart["transitions"][0], 64))
    return {k: sum(1 << t for t in transitions if chart["sources"][t] >> k & 1) for k in range(min(chart["steps"][0], 64))}


# Lines

A, STILL = chart_image(CHART_A), empty(RUN)
NONE = {}  # nothing is altered, or driven


def outputs(lent, driven):
    """The lent outputs after a call: untouched (None), or the first 32 at 0 but for those that are driven."""
    if driven is None:
        return [1000 + k for k in range(lent)]
    return [driven.get(k, 0) if k < 32 else 1000 + k for k in range(lent)]


def line(code, taken, run, lent=32, driven=None):
    fields = [run[name][0] for name in ("clock", "active", "activity", "stored", "latched", "good", "bad", "hold")]
    return " ".join(map(str, [code, taken, *fields, *run["counters"], *run["timers"], *outputs(lent, driven)]))


def cycled(code, taken, run, lent=32, driven=None, reasons=()):
    """A cycle's line ends with the reasons of 64 transitions (document 02, request vi)."""
    return " ".join([line(code, taken, run, lent, driven), *map(str, reasons), *["0"] * (64 - len(reasons))])


# Chart A in step 0 at 1000, and in step 1 from 1010 on: "1010 with 1", "1510 with 2"
BEGUN = altered(STILL, {"clock": 1000, "active": 1})
IN_1 = altered(STILL, {"clock": 1010, "active": 2, "activity": 3, "stored": 2})
BACK = altered(STILL, {"clock": 1510, "active": 1, "good": 1})

CASES = []


def start(line, chart=NONE, run=STILL, clock=1000, lent=32):
    CASES.append((request(altered(A, chart), run, START, clock, 0, lent), line))


def cycle(line, chart=NONE, run=BEGUN, clock=1010, inputs=1, lent=32, index=None):
    """By this index; or without one, and by that of the chart, which "gives the same answer throughout" (document 02, request ix)."""
    image = altered(A, chart)
    if index is None:
        CASES.append((request(image, run, CYCLE, clock, inputs, lent), line))
        index = index_of(image)
    CASES.append((request(image, run, CYCLE_BY, clock, inputs, lent) + index_words(index), line))


def refused(code, chart=NONE, run=BEGUN, clock=1010, lent=32, index=None):
    """A refused cycle returns the run it was given, and leaves the outputs; its reasons are 0."""
    cycle(cycled(code, 0, run, lent), chart, run, clock, 1, lent, index)


def tally(line, chart=NONE, run=STILL):
    CASES.append((request(altered(A, chart), run, TALLY), line))


def weighing(line, weights, chart=NONE):
    CASES.append((request(altered(A, chart), STILL, WEIGHING, weights=weights), line))


def writing(code, lent, file=b"", chart=NONE):
    """The file stands at the front of the lent bytes, and those behind it stay; a refusal leaves them all."""
    left = [k % 251 for k in range(lent)]
    text = " ".join(map(str, [code, len(file), *file, *left[len(file):]]))
    CASES.append((request(altered(A, chart), STILL, WRITING, clock=lent), text))


def shift(code, clocks, inputs, words=None, run=BEGUN, chart=NONE, lent=32, found=(), after=None, driven=None, index=None):
    """The activity words found and the run after them; those behind stay. Nothing found leaves run, outputs and words. By an index as a cycle."""
    words = len(clocks) if words is None else words
    left = [*found, *(2**32 + k for k in range(len(found), words))]
    text = " ".join([line(code, len(found), after or run, lent, driven), *map(str, left)])
    image = altered(A, chart)
    if index is None:
        CASES.append((shift_request(image, run, clocks, inputs, words, lent), text))
        index = index_of(image)
    CASES.append((shift_request(image, run, clocks, inputs, words, lent, index), text))


def key(kind, code, run, chart=NONE, clock=1000, lent=32):
    """Accepted, the mark is 1 or 0 and nothing else is changed; refused, nothing is. The clock, the inputs and the outputs play no part."""
    after = run if code else altered(run, {"hold": int(kind == HOLD)})
    CASES.append((request(altered(A, chart), run, kind, clock, 1, lent), line(code, 0, after, 0)))


def building(code, index=NONE, chart=NONE, run=STILL, clock=0, lent=32):
    """The words by hand, of which those that are not named are 0, as all are of a refused chart. The run, the clock and the outputs play no part."""
    image = altered(A, chart)
    assert code or index_words(index) == index_words(index_of(image))
    text = " ".join(map(str, [code, *(index.get(k, 0) for k in range(64))]))
    CASES.append((request(image, run, INDEX, clock, 1, lent), text))


def adding(code, first, second, words=None, step=0, found=(), chart=NONE, run=STILL, base=A, more=0):
    """The sums found, for every step. A refusal leaves the lent words, as many as the first list has where it isn't said. The run and the outputs play
    no part, nor does what is more in the clock and the inputs than the lengths."""
    left = found or [50_000 + k % 256 for k in range(len(first) if words is None else words)]
    call = request(altered(base, chart), run, ADDING, len(second) | more << 16, len(left) | more << 16, 31, first)
    CASES.append((call + struct.pack(f"<{len(second)}H", *second), " ".join(map(str, [code, step, *left]))))


# The printed run of chart A, call by call; step 0 has no active action, step 1 drives output 0 by action 0, value 120
start(line(0, 0, BEGUN, driven=NONE))
cycle(cycled(0, 1, IN_1, driven={0: 120}, reasons=(0, 1)))
cycle(cycled(0, 2, BACK, driven=NONE, reasons=(1, 0)), run=IN_1, clock=1510, inputs=2)
# last clock 1509: no transition, and step 1 has counted 499
cycle(cycled(0, 0, altered(IN_1, {"clock": 1509, ("counters", 1): 499}), driven={0: 120}, reasons=(1, 4)), run=IN_1, clock=1509, inputs=2)
# "an accepted call writes the first 32 and no others"; values are signed
start(line(0, 0, BEGUN, 33, NONE), lent=33)
start(line(0, 0, BEGUN, 255, NONE), lent=255)
cycle(cycled(0, 1, IN_1, 64, {0: -5}, (0, 1)), {("value", 0): -5}, lent=64)
cycle(cycled(0, 1, IN_1, driven={31: -(2**31)}, reasons=(0, 1)), {("output", 0): 31, ("value", 0): -(2**31), ("output", 1): 31})
# "Entries beyond a count play no part."
start(line(0, 0, BEGUN, driven=NONE), {("initial", 2): 255, ("output", 2): 32, ("sources", 2): 2**64 - 1, ("qualifier", 3): 11,
                                       ("duration", 255): 2**32 - 1, ("casestep", 1): 2, ("wait", 63): DAY + 1})
# 15 comes first: "Start tests 15 and then the chart; a cycle tests 15, chart, 12, 11"
start(line(15, 0, STILL, 31), lent=31)
start(line(15, 0, STILL, 0), {"steps": 65}, lent=0)
refused(15, {"steps": 65}, lent=31)
# 4: the chart's counts, at one more than the limit and far above
for count, limit in LIMITS.items():
    start(line(4, 0, STILL), {count: limit + 1})
refused(4, {"steps": 2**64 - 1})
tally("4 0 0 0", {"cases": 2**63})
weighing("4 0 0", [1, 1], {"blocks": 2**32})
# 5: a field outside its range
for field, value in {("initial", 1): 2, ("output", 1): 32, ("sources", 1): 2**63, ("blockstep", 2): 2, ("signal", 0): 34}.items():
    start(line(5, 0, STILL), {field: value})
refused(5, {("qualifier", 0): 3, ("duration", 0): DAY + 1})
# 6: no source, no target, or a step that is both; 7: a signal in both on and off
start(line(6, 0, STILL), {("sources", 0): 0})
refused(6, {("targets", 1): 0})
tally("6 0 0 0", {("targets", 0): 3})
refused(7, {("off", 0): 1})
weighing("7 0 0", [1, 1], {("off", 1): 2})
# 9: no initial step; 8: two timed blocks for one action; 9 comes before 8
start(line(9, 0, STILL), {("initial", 0): 0})
start(line(9, 0, STILL), {"steps": 0, "transitions": 0, "blocks": 0, "cases": 0})
refused(8, {("qualifier", 1): 3, ("qualifier", 2): 8})
tally("9 0 0 0", {("initial", 0): 0, ("qualifier", 1): 3, ("qualifier", 2): 8})
# 12: a run of another chart; 11: elapsed time above 60,000 ms
for field, value in {
    "active": 4, "stored": 2**32, "bad": 2, ("counters", 1): 1, ("counters", 0): DAY + 1, ("timers", 31): 2**32 - 1,
}.items():
    refused(12, run=altered(BEGUN, {field: value}), clock=999)
refused(11, clock=61_001)
refused(11, clock=999)
# a counter stops at 86,400,000, as does a timer; 60,000 ms are accepted, across the clock's turn
FULL = altered(STILL, {"clock": 2**32 - 296, "active": 1, "latched": 1, ("counters", 0): DAY - 59_999, ("timers", 0): DAY})
cycle(cycled(0, 0, altered(FULL, {"clock": 59_704, ("counters", 0): DAY}), driven=NONE, reasons=(3, 1)), run=FULL, clock=59_704, inputs=0)
# the tally by the marks
tally("0 0 0 1")
tally("0 1 0 0", run=BACK)
tally("0 0 1 0", run=altered(BACK, {"bad": 1}))
tally("12 0 0 0", run=altered(BACK, {"bad": 2}))
# the weighing: step 0 is initial, and each transition goes from one step to the other
weighing("0 0 65535", [65535, 65535])
weighing("14 0 0", [1, 2])
weighing("14 1 0", [3, 1, 3], {"steps": 3, ("targets", 0): 4, ("sources", 1): 4, ("targets", 1): 2})
weighing("13 0 0", [1])
weighing("13 0 0", [])
weighing("13 0 0", [1] * 255)

# a chart written back: chart A's 152 bytes, into as many and into more
writing(0, 152, CHART_A)
writing(0, 153, CHART_A)
writing(0, 7000, CHART_A)
# 17 "when the lent bytes are fewer than the chart's length, nothing written", after the chart's own
for lent in (151, 5, 1, 0):
    writing(17, lent)
for code, chart in {
    4: {"blocks": 257}, 5: {("casestep", 0): 2}, 6: {("targets", 1): 0}, 7: {("off", 0): 1}, 9: {("initial", 0): 0},
    8: {("qualifier", 1): 3, ("qualifier", 2): 8},
}.items():
    writing(code, 0, chart=chart)
    writing(code, 152, chart=chart)
# entries beyond a count are not written
writing(0, 160, CHART_A, {("initial", 2): 255, ("output", 2): 32, ("value", 31): -1, ("sources", 2): 2**64 - 1, ("wait", 63): DAY + 1,
                          ("qualifier", 3): 11, ("duration", 255): 2**32 - 1, ("casestep", 1): 2, ("expected", 63): 9})
# a chart of two steps alone, and one with an action and a case more; numbers are little-endian, values signed
FEW = {"actions": 0, "transitions": 0, "blocks": 0, "cases": 0}
writing(0, 14, step(1) + step(0) + END, FEW)
writing(17, 13, chart=FEW)
writing(0, 40, step(1) + step(0) + action(31, -2) + case(1, 32, 0) + END,
        FEW | {"actions": 1, "cases": 1, ("output", 0): 31, ("value", 0): -2, ("signal", 0): 32, ("expected", 0): 0})

# a shift of chart A's two calls, and of the first alone: activity 3 in step 1, none in step 0
shift(0, [1010, 1510], [1, 2], found=[3, 0], after=BACK, driven=NONE)
shift(0, [1010], [1], found=[3], after=IN_1, driven={0: 120})
shift(0, [1010], [1], lent=64, found=[3], after=IN_1, driven={0: 120})
# none is accepted, and leaves all as it was
shift(0, [], [])
# "It stops at the first refused cycle": at the beginning, in the middle, at the end; what follows it would be accepted
shift(11, [999, 1010, 1510], [1, 1, 2])
shift(11, [1010, 1009, 1510], [1, 2, 2], found=[3], after=IN_1, driven={0: 120})
shift(11, [1010, 1510, 61_511], [1, 2, 0], found=[3, 0], after=BACK, driven=NONE)
shift(11, [61_001], [1])
# 4,096 cycles of one millisecond in step 0, without an input, and one more
WAITED = altered(BEGUN, {"clock": 5096, ("counters", 0): 4096})
shift(0, range(1001, 5097), [0] * 4096, found=[0] * 4096, after=WAITED, driven=NONE)
shift(11, [*range(1001, 5096), 5094], [0] * 4096, found=[0] * 4095, after=altered(BEGUN, {"clock": 5095, ("counters", 0): 4095}), driven=NONE)
shift(18, range(1001, 5098), [0] * 4097)
# 18 "when the three lists differ in length", before 11
for many, more, words in ((2, 1, 2), (1, 2, 1), (2, 2, 1), (1, 1, 2), (0, 1, 0), (0, 0, 1), (1, 0, 0)):
    shift(18, [999] * many, [1] * more, words)
# "15, chart, 12, then 18", whatever the lists
OTHER = altered(BEGUN, {"active": 4})
shift(15, [1010], [], run=OTHER, chart={"steps": 65}, lent=31)
shift(4, [1010], [], run=OTHER, chart={"steps": 65})
shift(8, [], [], chart={("qualifier", 1): 3, ("qualifier", 2): 8})
shift(12, [1010], [], run=OTHER)
shift(12, [], [], run=OTHER)
shift(15, [], [], lent=0)

# Document 02, request (vii). Start gives a run that is not held, and refused an all-zero one, whatever mark lay there.
for mark in (0, 1, 2, 255):
    start(line(0, 0, BEGUN, driven=NONE), run=altered(BACK, {"hold": mark}))
    start(line(4, 0, STILL), {"steps": 65}, run=altered(BACK, {"hold": mark}))
# "12 covers the mark too, which must be 0 or 1": 0 stands above; 1 is a run of the chart, in step 1 for 499 ms, marked good before
HELD = altered(IN_1, {"clock": 1509, ("counters", 1): 499, "good": 1, "hold": 1})
# .. in which "no transition is taken and step counters stand still", though else the wait of 500 were over; "reason 7 .. comes first"
cycle(cycled(0, 0, altered(HELD, {"clock": 1510}), driven={0: 120}, reasons=(7, 7)), run=HELD, clock=1510, inputs=2)
cycle(cycled(0, 0, HELD, 64, driven={0: 120}, reasons=(7, 7)), run=HELD, clock=1509, inputs=2, lent=64)
tally("0 1 0 0", run=HELD)
for mark in (2, 255):
    other = altered(HELD, {"hold": mark})
    refused(12, run=other, clock=1510)
    tally("12 0 0 0", run=other)
    shift(12, [1510], [2], run=other)
    key(HOLD, 12, other)
    key(RELEASE, 12, other)
# "a cycle tests 15, chart, 12, 11", the tally chart, 12, a shift "15, chart, 12, then 18", with the mark for 12
MARKED = altered(HELD, {"hold": 2})
refused(15, {"steps": 65}, run=MARKED, lent=31)
refused(5, {("initial", 1): 2}, run=MARKED)
refused(12, run=MARKED, clock=999)
refused(11, run=HELD, clock=1508)
refused(11, run=HELD, clock=61_510)
refused(15, run=HELD, lent=31)
tally("6 0 0 0", {("targets", 0): 3}, run=MARKED)
shift(15, [1510], [], run=MARKED, lent=31)
shift(9, [1510], [], run=MARKED, chart={("initial", 0): 0})
shift(12, [1510], [], run=MARKED)
# a run that is held is refused for its other fields as any
refused(12, run=altered(HELD, {("counters", 0): 1}))
refused(12, run=altered(HELD, {("timers", 31): 1}))
# the key, on a run that is held and on one that is not, with something in every field; that 60,001 ms went by, or no output is lent, is nothing to it
WIDE = altered(STILL, {"clock": 2**32 - 1, "active": 3, "activity": 2, "stored": 1, "latched": 3, "good": 1, "bad": 1,
                       ("counters", 0): DAY, ("counters", 1): 7, ("timers", 0): 8, ("timers", 1): DAY})
for mark in (0, 1):
    for kind in (HOLD, RELEASE):
        key(kind, 0, altered(BEGUN, {"hold": mark}))
        key(kind, 0, altered(WIDE, {"hold": mark}), clock=60_000, lent=0)
# "setting and clearing test chart, then 12, and refused return the run as given": the chart's numbers on a run that is one, and on another
for code, chart in {
    4: {"cases": 65}, 5: {("casestep", 0): 2}, 6: {("sources", 1): 0}, 7: {("off", 0): 1}, 9: {("initial", 0): 0},
    8: {("qualifier", 1): L, ("qualifier", 2): SL},
}.items():
    for kind in (HOLD, RELEASE):
        key(kind, code, altered(WIDE, {"hold": int(kind == RELEASE)}), chart)
        key(kind, code, altered(WIDE, {"hold": 2}), chart)
for field, value in {
    "active": 7, "activity": 4, "stored": 5, "latched": 2**63 + 3, "good": 3, "bad": 2**32, ("counters", 63): 1, ("counters", 1): DAY + 1,
    ("timers", 2): 1, ("timers", 0): DAY + 1,
}.items():
    key(HOLD, 12, altered(WIDE, {field: value}))
    key(RELEASE, 12, altered(WIDE, {field: value, "hold": 1}))
key(HOLD, 0, BEGUN, {("initial", 2): 255, ("sources", 2): 2**64 - 1, ("qualifier", 3): 11, ("casestep", 1): 2})

# "Actions and outputs are worked out as usual", here in step 1, with nothing stored before: S sets; in step 0: R resets; in both: R wins
HELD_1 = altered(STILL, {"clock": 1010, "active": 2, "hold": 1})
cycle(cycled(0, 0, altered(HELD_1, {"clock": 1015, "activity": 3, "stored": 2}), driven={0: 120}, reasons=(7, 7)), run=HELD_1, clock=1015)
RESET_HELD = altered(HELD_1, {"active": 1, "activity": 2, "stored": 2, "latched": 2, ("timers", 1): 9})
cycle(cycled(0, 0, altered(STILL, {"clock": 1015, "active": 1, "hold": 1}), driven=NONE, reasons=(7, 7)), run=RESET_HELD, clock=1015)
BOTH_HELD = altered(HELD_1, {"active": 3, "stored": 2, ("counters", 0): 30})
cycle(cycled(0, 0, altered(BOTH_HELD, {"clock": 1015, "activity": 1, "stored": 0}), driven={0: 120}, reasons=(7, 7)), run=BOTH_HELD, clock=1015)


def qualified(q, duration, before, elapsed, active, after=NONE):
    """A cycle under hold in step 1, whose block for action 1 has this qualifier; N makes action 0 active. Output 1 is action 1's."""
    run = altered(HELD_1, before)
    then = altered(run, {"clock": 1010 + elapsed, "activity": 3 if active else 1} | after)
    chart = {("qualifier", 1): q, ("duration", 1): duration, ("output", 1): 1}
    cycle(cycled(0, 0, then, driven={0: 120, 1: 7} if active else {0: 120}, reasons=(7, 7)), chart, run, 1010 + elapsed)


# L, D and DS go by the counter that stands, however much time goes by
for counter, late in ((99, False), (100, True)):
    for elapsed in (1, 60_000):
        qualified(L, 100, {("counters", 1): counter}, elapsed, not late)
        qualified(D, 100, {("counters", 1): counter}, elapsed, late)
        qualified(DS, 100, {("counters", 1): counter}, elapsed, late, {"stored": 2 if late else 0})
# SD and SL by the timer that runs on, up to 86,400,000; and a fresh latch has timer 0
for q in (SD, SL):
    for timer, elapsed, late in ((40, 59, False), (40, 60, True), (99, 0, False), (0, 60_000, True)):
        qualified(q, 100, {"latched": 2, ("timers", 1): timer}, elapsed, late == (q == SD), {("timers", 1): timer + elapsed})
    for timer in (DAY - 60_000, DAY - 59_999, DAY):
        qualified(q, DAY, {"latched": 2, ("timers", 1): timer, ("counters", 1): DAY - 9}, 60_000, q == SD, {("timers", 1): DAY})
    qualified(q, 0, NONE, 60_000, q == SD, {"latched": 2})
    qualified(q, 100, {("counters", 1): 100}, 60_000, q == SL, {"latched": 2})
# "with nothing entered or left": no pulse, and one that was active ends; but what is stored is active by that
for q in (P, P1, P0):
    qualified(q, 0, NONE, 5, False)
    qualified(q, 0, {"activity": 3}, 5, False)
    qualified(q, 0, {"stored": 2}, 5, True)
# .. also where but for the key step 1 would be left, by input 1 with its wait over: P0 is not active, and no case is marked, expected 0 or 1
RIPE = altered(HELD_1, {("counters", 1): 500})
for expected in (0, 1):
    cycle(cycled(0, 0, altered(RIPE, {"clock": 1015, "activity": 1}), driven={0: 120}, reasons=(7, 7)),
          {("qualifier", 1): P0, ("expected", 0): expected}, RIPE, 1015, inputs=2)
# .. and where it would be entered, by input 0: neither P nor P1 is active; R on step 0 is for action 0 here
HELD_0 = altered(BEGUN, {"hold": 1})
HELD_0_LATER = altered(HELD_0, {"clock": 1010})
for q in (P, P1):
    cycle(cycled(0, 0, HELD_0_LATER, driven=NONE, reasons=(7, 7)), {("qualifier", 1): q, ("blockaction", 2): 0}, HELD_0)
# reasons: 7 for every transition of the chart and 0 beyond, whatever stands there: of none, of one, of 64
cycle(cycled(0, 0, HELD_0_LATER, driven=NONE), {"transitions": 0}, HELD_0)
cycle(cycled(0, 0, HELD_0_LATER, driven=NONE, reasons=(7,)), {"transitions": 1}, HELD_0)
cycle(cycled(0, 0, HELD_0_LATER, driven=NONE, reasons=(7,) * 64),
      {"transitions": 64} | {("sources", t): 1 + t % 2 for t in range(64)} | {("targets", t): 2 - t % 2 for t in range(64)}, HELD_0)
# the clock turns under hold, and 60,000 ms are accepted, one more not
HELD_FULL = altered(FULL, {"hold": 1, ("timers", 0): 5})
cycle(cycled(0, 0, altered(HELD_FULL, {"clock": 59_704, ("timers", 0): 60_005}), driven=NONE, reasons=(7, 7)), run=HELD_FULL, clock=59_704)
refused(11, run=HELD_FULL, clock=59_705)

# a shift that begins under hold is held to its end, and its run is held after it: in step 0, in step 1, and of no cycle
shift(0, [1010, 1510], [1, 2], run=HELD_0, found=[0, 0], after=altered(HELD_0, {"clock": 1510}), driven=NONE)
shift(0, [1510, 1600, 61_600], [2, 3, 2], run=HELD, found=[3] * 3, after=altered(HELD, {"clock": 61_600}), driven={0: 120})
shift(0, [1510], [2], run=HELD, lent=64, found=[3], after=altered(HELD, {"clock": 1510}), driven={0: 120})
shift(0, [], [], run=HELD)
# refused at its beginning, in its middle and at its end under hold
shift(11, [1508, 1510, 1511], [2, 2, 2], run=HELD)
shift(11, [1510, 1509, 1511], [2, 2, 2], run=HELD, found=[3], after=altered(HELD, {"clock": 1510}), driven={0: 120})
shift(11, [1510, 1600, 61_601], [2, 2, 2], run=HELD, found=[3, 3], after=altered(HELD, {"clock": 1600}), driven={0: 120})
shift(18, [1510, 1511], [2], run=HELD)
# SD by its timer, cycle after cycle: latched afresh at 1020, it is over 100 ms later; D by the counter of 99, which stands
SD_CHART = {("qualifier", 1): SD, ("duration", 1): 100}
SD_LATER = altered(HELD_1, {"clock": 1120, "activity": 3, "latched": 2, ("timers", 1): 100})
shift(0, [1020, 1119, 1120], [2, 2, 2], run=HELD_1, chart=SD_CHART, found=[1, 1, 3], after=SD_LATER, driven={0: 120})
D_HELD = altered(HELD_1, {("counters", 1): 99})
shift(0, [1020, 1119, 1120], [2, 2, 2], run=D_HELD, chart={("qualifier", 1): D, ("duration", 1): 100}, found=[1, 1, 1],
      after=altered(D_HELD, {"clock": 1120, "activity": 1}), driven={0: 120})
# and one that begins as that in step 1 did, but for the mark: the wait of 500 is over at 1510
shift(0, [1510, 1600], [2, 0], run=altered(HELD, {"hold": 0}), found=[0, 0],
      after=altered(BACK, {"clock": 1600, ("counters", 0): 90}), driven=NONE)

# Document 02, request (viii): "A held chart says 1 or 2"; 5 "for another edition byte" by every call. A refused call leaves what any refusal leaves.
TWO = {"edition": 2}


def by_every_call(code, chart, run=BEGUN):
    """The chart's number from each of the twelve calls, on a run of chart A at 1000 that with chart A they would accept."""
    start(line(code, 0, STILL), chart, run)
    refused(code, chart, run)
    tally(f"{code} 0 0 0", chart, run)
    weighing(f"{code} 0 0", [1, 1], chart)
    writing(code, 160, chart=chart)
    shift(code, [1010, 1510], [1, 2], run=run, chart=chart)
    key(HOLD, code, run, chart)
    key(RELEASE, code, altered(run, {"hold": 1}), chart)
    building(code, chart=chart)
    adding(code, [1, 2], [3, 4], chart=chart, run=run)


for number in (0, 3, 255):
    by_every_call(5, {"edition": number})
for number in (4, 6, 128, 130, 254):
    refused(5, {"edition": number})
# "tested in a held chart after the cases" (document 01: 4, then records by kind with 5, 6, 7), so 4, 6 and 7 come before it; a case's 5 is the same
for number in (0, 3, 255):
    refused(4, {"cases": 65, "edition": number})
    refused(6, {("targets", 1): 0, "edition": number})
    refused(7, {("off", 0): 1, "edition": number})
    refused(5, {("casestep", 0): 2, "edition": number})
    # .. and 9 and 8 behind it
    refused(5, {("initial", 0): 0, "edition": number})
    refused(5, {("qualifier", 1): L, ("qualifier", 2): SL, "edition": number})
    refused(5, {("initial", 0): 0, ("qualifier", 1): L, ("qualifier", 2): SL, "edition": number})
by_every_call(5, {("initial", 0): 0, ("qualifier", 1): L, ("qualifier", 2): SL, "edition": 3})
start(line(4, 0, STILL), {"steps": 65, "edition": 0})
weighing("6 0 0", [1, 1], {("sources", 0): 0, "edition": 3})
writing(7, 160, chart={("off", 1): 2, "edition": 255})
shift(6, [1010], [1], chart={("targets", 0): 3, "edition": 0})
key(HOLD, 7, BEGUN, {("off", 0): 1, "edition": 3})
# the others in edition 2 as in edition 1
start(line(4, 0, STILL), {"blocks": 257} | TWO)
refused(5, {("casestep", 0): 2} | TWO)
tally("6 0 0 0", {("targets", 0): 3} | TWO)
weighing("7 0 0", [1, 1], {("off", 0): 1} | TWO)
writing(9, 160, chart={("initial", 0): 0} | TWO)
shift(8, [1010], [1], chart={("qualifier", 1): L, ("qualifier", 2): SL} | TWO)
key(HOLD, 9, BEGUN, {("initial", 0): 0, ("qualifier", 1): L, ("qualifier", 2): SL} | TWO)
# an all-zero chart, as a refused reading returns it, says edition 0: 5, where one of no step that says 1 or 2 is 9
NOTHING = dict.fromkeys(["edition", *LIMITS, ("initial", 0)] + [(name, k) for name, _, many in CHART[6:-2] for k in range(min(many, 3))], 0)
assert altered(A, NOTHING) == empty(CHART)
by_every_call(5, NOTHING)
for number in (1, 2):
    start(line(9, 0, STILL), NOTHING | {"edition": number})
    writing(9, 160, chart=NOTHING | {"edition": number})
# 15 comes before it, and 12, 11, 13, 17, 18 and 21 behind it
OTHERS = altered(BEGUN, {"active": 4, "hold": 2})
for number in (0, 3, 255):
    bad = {"edition": number}
    start(line(15, 0, STILL, 31), bad, lent=31)
    refused(15, bad, run=OTHERS, clock=999, lent=31)
    shift(15, [1010], [], run=OTHERS, chart=bad, lent=31)
    refused(5, bad, run=OTHERS, clock=999)
    tally("5 0 0 0", bad, OTHERS)
    weighing("5 0 0", [1], bad)
    weighing("5 0 0", [1, 2], bad)
    writing(5, 0, chart=bad)
    shift(5, [999], [], run=OTHERS, chart=bad)
    key(HOLD, 5, OTHERS, bad)
    key(RELEASE, 5, OTHERS, bad)
    adding(5, [1], [2], 3, chart=bad, run=OTHERS)
    adding(5, [65_535, 0], [1, 0], chart=bad)
# entries beyond a count play no part in edition 2 either
start(line(0, 0, BEGUN, driven=NONE), {("initial", 2): 255, ("sources", 2): 2**64 - 1, ("qualifier", 3): 11, ("casestep", 1): 2} | TWO)

# Chart A in edition 2: the calls of the printed run are the same, since no target is active; 12, 11, 13 and 14 too
start(line(0, 0, BEGUN, driven=NONE), TWO)
start(line(0, 0, BEGUN, 33, NONE), TWO, lent=33)
cycle(cycled(0, 1, IN_1, driven={0: 120}, reasons=(0, 1)), TWO)
cycle(cycled(0, 2, BACK, driven=NONE, reasons=(1, 0)), TWO, run=IN_1, clock=1510, inputs=2)
cycle(cycled(0, 0, altered(IN_1, {"clock": 1509, ("counters", 1): 499}), driven={0: 120}, reasons=(1, 4)), TWO, run=IN_1, clock=1509, inputs=2)
refused(12, TWO, run=altered(BEGUN, {"active": 4}))
refused(12, TWO, run=altered(BEGUN, {"hold": 2}), clock=999)
refused(11, TWO, clock=61_001)
tally("0 1 0 0", TWO, BACK)
tally("0 0 1 0", TWO, altered(BACK, {"bad": 1}))
tally("12 0 0 0", TWO, altered(BACK, {"bad": 2}))
weighing("0 0 65535", [65535, 65535], TWO)
weighing("14 0 0", [1, 2], TWO)
weighing("13 0 0", [1], TWO)
for kind in (HOLD, RELEASE):
    key(kind, 0, WIDE, TWO)
    key(kind, 0, altered(WIDE, {"hold": 1}), TWO)
    key(kind, 12, altered(WIDE, {"hold": 2}), TWO)
    key(kind, 12, altered(WIDE, {"active": 7}), TWO)

# "request (i) holds as it reads": a chart that says 2 is written with the record behind its cases, one that says 1 without; chart A takes 157 bytes
# with it
CHART_A_2 = second(CHART_A)
for lent in (157, 158, 7000):
    writing(0, lent, CHART_A_2, TWO)
for lent in (156, 153, 152, 5, 0):
    writing(17, lent, chart=TWO)
writing(0, 157, CHART_A, {"edition": 1})
writing(0, 19, step(1) + step(0) + EDITION + END, FEW | TWO)
writing(17, 18, chart=FEW | TWO)
writing(0, 160, CHART_A_2, {("initial", 2): 255, ("wait", 63): DAY + 1, ("qualifier", 3): 11, ("casestep", 1): 2, ("expected", 63): 9} | TWO)
# "A chart then has at most 6,441 bytes"
FULL_FILE = second(FULL_CHART + END)
for lent, answer in ((6441, [0, 6441, *FULL_FILE]), (6442, [0, 6441, *FULL_FILE, 6441 % 251]), (6440, [17, 0, *(k % 251 for k in range(6440))])):
    CASES.append((request(chart_image(FULL_FILE), STILL, WRITING, clock=lent), " ".join(map(str, answer))))

# "targets are not tested, and a step both left and entered stays active". Both steps of chart A are active, step 1 for 500 ms; inputs 0 and 1 are on.
# Edition 2 takes both transitions: counters 0, the case on step 1 good (input 1). R on step 0 keeps action 1 from being stored.
BOTH = altered(STILL, {"clock": 1000, "active": 3, ("counters", 0): 7, ("counters", 1): 490})
SWAPPED = altered(STILL, {"clock": 1010, "active": 3, "activity": 1, "good": 1})
cycle(cycled(0, 3, SWAPPED, driven={0: 120}), TWO, BOTH, inputs=3)
# the same chart altered to edition 1 takes none, "a target occupied", and a step counts on
STAYED = altered(BOTH, {"clock": 1010, "activity": 1, ("counters", 0): 17, ("counters", 1): 500})
cycle(cycled(0, 0, STAYED, driven={0: 120}, reasons=(5, 5)), NONE, BOTH, inputs=3)
# .. and under hold both editions take none
BOTH_KEYED = altered(BOTH, {"hold": 1})
for chart in (NONE, TWO):
    cycle(cycled(0, 0, altered(BOTH_KEYED, {"clock": 1010, "activity": 1}), driven={0: 120}, reasons=(7, 7)), chart, BOTH_KEYED, inputs=3)
# one ms before the wait transition 1 is not taken, and 0 leads into a step that is active and not left: it counts on to 499, and S sets again
BEFORE = altered(BOTH, {("counters", 1): 489})
ALONE_1 = altered(STILL, {"clock": 1010, "active": 2, "activity": 3, "stored": 2})
cycle(cycled(0, 1, altered(ALONE_1, {("counters", 1): 499}), driven={0: 120}, reasons=(0, 4)), TWO, BEFORE, inputs=3)
cycle(cycled(0, 0, altered(STAYED, {("counters", 1): 499}), driven={0: 120}, reasons=(5, 4)), NONE, BEFORE, inputs=3)
# its counter stops at 86,400,000 as any
for counter, then in ((DAY - 11, DAY - 1), (DAY - 10, DAY), (DAY, DAY)):
    cycle(cycled(0, 1, altered(ALONE_1, {("counters", 1): then}), driven={0: 120}, reasons=(0, 3)),
          TWO, altered(BOTH, {("counters", 1): counter}), inputs=1)
# the other one alone: input 1 leads back into step 0, which stays and counts on; step 1 is left, its case marked bad if it expects 0
for expected, mark in ((1, "good"), (0, "bad")):
    cycle(cycled(0, 2, altered(STILL, {"clock": 1010, "active": 1, mark: 1, ("counters", 0): 17}), driven=NONE, reasons=(3, 0)),
          {("expected", 0): expected} | TWO, BOTH, inputs=2)
    # .. and left and entered as well
    cycle(cycled(0, 3, altered(SWAPPED, {"good": 0, mark: 1}), driven={0: 120}), {("expected", 0): expected} | TWO, BOTH, inputs=3)


def pulsed(q, run, inputs, taken, after, acts, reasons):
    """Block 1 is on step 1 for action 1, which it alone drives, on output 1; R, on step 0, is for action 0 here."""
    activity = after["activity"][0] | (2 if acts else 0)
    driven = {k: value for k, value in {0: 120, 1: 7}.items() if activity >> k & 1}
    cycle(cycled(0, taken, altered(after, {"activity": activity}), driven=driven, reasons=reasons),
          {("qualifier", 1): q, ("output", 1): 1, ("blockaction", 2): 0} | TWO, run, inputs=inputs)


# P, P1 and P0 on a step that is left and entered act; on a target that is active and not left none does; on one that is entered P and P1; on one
# that is left P0
ENTERED_1 = altered(STILL, {"clock": 1010, "active": 2, "activity": 1})
LEFT_1 = altered(STILL, {"clock": 1010, "active": 1, "good": 1, ("counters", 0): 17})
for q in (P, P1, P0):
    pulsed(q, BOTH, 3, 3, altered(SWAPPED, {"activity": 0}), True, (0, 0))
    pulsed(q, BEFORE, 3, 1, altered(ENTERED_1, {("counters", 1): 499}), False, (0, 4))
    pulsed(q, BEGUN, 1, 1, ENTERED_1, q != P0, (0, 1))
    pulsed(q, BOTH, 2, 2, LEFT_1, q == P0, (3, 0))
# L, D and DS on a step that is left and entered go by the counter 0, and on a target that stays by the one that runs on, here 499
for q, duration, anew, later in ((L, 100, True, False), (L, 0, False, False), (L, 499, True, False), (L, 500, True, True),
                                 (D, 100, False, True), (D, 0, True, True), (D, 499, False, True), (D, 500, False, False),
                                 (DS, 499, False, True), (DS, 500, False, False), (DS, 0, True, True)):
    chart = {("qualifier", 1): q, ("duration", 1): duration, ("output", 1): 1, ("blockaction", 2): 0} | TWO
    anew, later = 2 * anew, 2 * later
    cycle(cycled(0, 3, altered(SWAPPED, {"activity": anew, "stored": anew if q == DS else 0}), driven={1: 7} if anew else NONE),
          chart, BOTH, inputs=3)
    stays = altered(ENTERED_1, {"activity": 1 + later, "stored": later if q == DS else 0, ("counters", 1): 499})
    cycle(cycled(0, 1, stays, driven={0: 120, 1: 7} if later else {0: 120}, reasons=(0, 4)), chart, BEFORE, inputs=3)
# two transitions into one target, step 2: edition 2 takes both, edition 1 the first, "claimed by an earlier one"; action 1 is on no active step then
INTO_2 = {"steps": 3, ("targets", 0): 4, ("targets", 1): 4}
cycle(cycled(0, 3, altered(STILL, {"clock": 1010, "active": 4, "good": 1}), driven=NONE), INTO_2 | TWO, BOTH, inputs=3)
cycle(cycled(0, 1, altered(STILL, {"clock": 1010, "active": 6, "activity": 3, "stored": 2, ("counters", 1): 500}), driven={0: 120}, reasons=(0, 6)),
      INTO_2, BOTH, inputs=3)
# .. and if step 2 is active it stays, with its counter
IN_ALL = altered(BOTH, {"active": 7, ("counters", 2): 30})
cycle(cycled(0, 3, altered(STILL, {"clock": 1010, "active": 4, "good": 1, ("counters", 2): 40}), driven=NONE), INTO_2 | TWO, IN_ALL, inputs=3)
cycle(cycled(0, 0, altered(STAYED, {"active": 7, ("counters", 2): 40}), driven={0: 120}, reasons=(5, 5)), INTO_2, IN_ALL, inputs=3)
# a source that an earlier one uses is still 2: transition 1 from step 0 too
cycle(cycled(0, 1, altered(ALONE_1, {("counters", 1): 500}), driven={0: 120}, reasons=(0, 2)),
      {("sources", 1): 1, ("targets", 1): 2} | TWO, BOTH, inputs=3)

# shifts in edition 2: both at 1010; step 1 waits anew, 499 ms at 1509; at 1510 it is left, and step 0 is active, counts on, and resets action 1
AFTER_500 = altered(STILL, {"clock": 1510, "active": 1, "good": 1, ("counters", 0): 500})
shift(0, [1010, 1509, 1510], [3, 2, 2], run=BOTH, chart=TWO, found=[1, 1, 0], after=AFTER_500, driven=NONE)
shift(0, [1010, 1509, 1510], [3, 2, 2], run=BOTH, found=[1, 1, 1],
      after=altered(BOTH, {"clock": 1510, "activity": 1, ("counters", 0): 517, ("counters", 1): 1000}), driven={0: 120})
shift(0, [1010], [3], run=BOTH, chart=TWO, found=[1], after=SWAPPED, driven={0: 120})
shift(0, [1010], [3], run=BOTH, chart=TWO, lent=64, found=[1], after=SWAPPED, driven={0: 120})
shift(11, [1010, 1509, 1508, 1510], [3, 2, 2, 2], run=BOTH, chart=TWO, found=[1, 1],
      after=altered(SWAPPED, {"clock": 1509, ("counters", 0): 499, ("counters", 1): 499}), driven={0: 120})
shift(11, [999, 1010], [3, 3], run=BOTH, chart=TWO)
shift(0, [], [], run=BOTH, chart=TWO)
shift(18, [1010, 1011], [3], run=BOTH, chart=TWO)
shift(12, [1010], [3], run=altered(BOTH, {"hold": 2}), chart=TWO)
shift(0, [1010, 1510], [1, 2], chart=TWO, found=[3, 0], after=BACK, driven=NONE)
# .. with P0 for action 1 on step 1 in the place of S, and R on step 0 for action 0: active in the calls that leave step 1, the first and the third
shift(0, [1010, 1509, 1510], [3, 2, 2], run=BOTH, chart={("qualifier", 1): P0, ("blockaction", 2): 0} | TWO, found=[2, 0, 2],
      after=altered(AFTER_500, {"activity": 2}), driven={0: 7})
# .. 4,096 cycles, of which each leaves and enters both steps: no wait, and both inputs on
AT_ONCE = {("wait", 1): 0} | TWO
shift(0, range(1001, 5097), [3] * 4096, run=BOTH, chart=AT_ONCE, found=[1] * 4096, after=altered(SWAPPED, {"clock": 5096}), driven={0: 120})
# .. under hold: neither, to the end
shift(0, [1010, 1509, 1510], [3, 2, 3], run=BOTH_KEYED, chart=TWO, found=[1] * 3,
      after=altered(BOTH_KEYED, {"clock": 1510, "activity": 1}), driven={0: 120})

# Document 02, request (ix): "for every step, the set of transitions that have it as a source". Transition 0 of chart A leaves step 0 and transition 1
# step 1, in both editions; building tests nothing but the chart
A_INDEX = {0: 1, 1: 2}
for chart in (NONE, TWO):
    building(0, A_INDEX, chart)
    building(0, A_INDEX, chart, run=OTHERS, clock=61_001, lent=0)
# entries beyond a count play no part, nor do targets, signals, waits, blocks and cases
building(0, A_INDEX, {("sources", 2): 2**64 - 1, ("sources", 63): 1, ("targets", 2): 1})
building(0, A_INDEX, {"steps": 3, ("targets", 0): 6, ("targets", 1): 5, ("on", 0): 0, ("off", 0): 2, ("wait", 1): 0, "blocks": 0, "cases": 0})
# no transition, one alone, one step alone
building(0, NONE, {"transitions": 0})
building(0, {0: 1}, {"transitions": 1})
building(0, NONE, FEW | {"steps": 1})
# a fork from 0 to 1 and 2, and a join back
FORK = {"steps": 3, ("targets", 0): 6, ("sources", 1): 6}
FORK_INDEX = {0: 1, 1: 2, 2: 2}
building(0, FORK_INDEX, FORK)


def moving(*pairs):
    """Transitions by their sources and targets, with no signal and no wait."""
    chart = {"transitions": len(pairs), ("on", 0): 0, ("on", 1): 0, ("wait", 1): 0}
    for t, (sources, targets) in enumerate(pairs):
        chart |= {("sources", t): sources, ("targets", t): targets}
    return chart


# several from one step, 0 to 1, 0 to 2, 1 to 0, 1 and 2 to 0, 0 to 1 and 2; none from step 3
SEVERAL = {"steps": 4} | moving((1, 2), (1, 4), (2, 1), (6, 1), (1, 6))
SEVERAL_INDEX = {0: 1 + 2 + 16, 1: 4 + 8, 2: 8}
building(0, SEVERAL_INDEX, SEVERAL)
building(0, {0: 0x5555_5555_5555_5555, 1: 0xaaaa_aaaa_aaaa_aaaa}, moving(*((1 + t % 2, 2 - t % 2) for t in range(64))))
# 64 steps and 64 transitions: from each step to the next, and from the last to the first; all from the last step; all from every step but 0
RING = {"steps": 64} | moving(*((1 << t, 1 << (t + 1) % 64) for t in range(64)))
FROM_63 = {"steps": 64} | moving(*((2**63, 1 << t % 63) for t in range(64)))
JOINS = {"steps": 64} | moving(*[(2**64 - 2, 1)] * 64)
for edition in (NONE, TWO):
    building(0, {k: 1 << k for k in range(64)}, RING | edition)
    building(0, {63: 2**64 - 1}, FROM_63 | edition)
    building(0, dict.fromkeys(range(1, 64), 2**64 - 1), JOINS | edition)
# "building tests the chart and refused gives all zeros"; the edition's 5 stands above, by every call
REFUSED_CHARTS = [(4, {count: limit + 1}) for count, limit in LIMITS.items()] + [
    (4, {"transitions": 2**64 - 1}), (4, {"steps": 2**63}), (5, {("initial", 1): 2}), (5, {("output", 1): 32}), (5, {("sources", 1): 4 + 2}),
    (5, {("targets", 0): 2**63}), (5, {("on", 1): 2**34}), (5, {("wait", 0): DAY + 1}), (5, {("blockstep", 2): 2}), (5, {("casestep", 0): 2}),
    (6, {("sources", 0): 0}), (6, {("targets", 1): 0}), (6, {("targets", 0): 3}), (7, {("off", 0): 1}), (9, {("initial", 0): 0}),
    (9, NOTHING | {"edition": 1}), (8, {("qualifier", 1): L, ("qualifier", 2): SL}),
]
for code, chart in REFUSED_CHARTS:
    building(code, chart=chart)
    building(code, chart=chart | TWO)
building(4, chart={"steps": 65, ("initial", 0): 0, "edition": 0})
building(9, chart={("initial", 0): 0, ("qualifier", 1): L, ("qualifier", 2): SL})

# "20 when it is not exactly the index of this chart, 0 beyond the last step"
OTHER_INDEXES = [
    # a bit less; a bit more, of a transition that there is, and of one that there is not
    {1: 2}, {0: 1}, {0: 3, 1: 2}, {0: 1, 1: 3}, {0: 5, 1: 2}, {0: 1, 1: 2 + 2**63},
    # something in a word beyond the last step
    A_INDEX | {2: 1}, A_INDEX | {2: 4}, A_INDEX | {63: 2}, A_INDEX | {63: 2**63}, A_INDEX | {32: 2**32},
    # all zeros, all ones, every transition for every step that there is; the targets' index, the words one step on, another chart's index
    NONE, dict.fromkeys(range(64), 2**64 - 1), {0: 3, 1: 3}, {0: 2, 1: 1}, {1: 1, 2: 2}, SEVERAL_INDEX,
]
for index in OTHER_INDEXES:
    for chart, run in ((NONE, BEGUN), (TWO, HELD_0), (TWO, BOTH)):
        refused(20, chart, run, index=index)
    for chart, run in ((NONE, HELD), (TWO, BEGUN)):
        shift(20, [1510, 1600], [1, 2], run=run, chart=chart, index=index)
# .. where there is no transition, no step beyond the last, or an index that is right but for its last bit
refused(20, {"transitions": 0}, index={0: 1})
refused(20, RING, index={k: 1 << k for k in range(63)})
refused(20, RING, index={k: 1 << (k + 1) % 64 for k in range(64)})
refused(20, FROM_63, index={63: 2**63 - 1})
refused(20, FROM_63, index={62: 1, 63: 2**64 - 1})
# .. with other outputs lent, which stay
refused(20, lent=64, index=NONE)
shift(20, [1010], [1], lent=64, index=NONE)
# a chart altered after its index was built: a source more, a source less, a transition more, one less, none, one turned round, two exchanged, and a
# step less
for chart, index in (
    ({"steps": 3, ("sources", 0): 5}, A_INDEX), (FORK | {("sources", 1): 2}, FORK_INDEX),
    ({"transitions": 3, ("sources", 2): 1, ("targets", 2): 2}, A_INDEX), ({"transitions": 1}, A_INDEX), ({"transitions": 0}, A_INDEX),
    ({("sources", 0): 2, ("targets", 0): 1}, A_INDEX), ({("sources", 0): 2, ("targets", 0): 1, ("sources", 1): 1, ("targets", 1): 2}, A_INDEX),
    ({"steps": 2, ("targets", 0): 2, ("sources", 1): 2}, FORK_INDEX),
):
    for edition in (NONE, TWO):
        refused(20, chart | edition, index=index)
        shift(20, [1010, 1510], [1, 2], chart=chart | edition, index=index)

# the index stands where something else was altered: the wait, which is over after 10 ms here; a signal; the target, now step 2; a step more, which
# nothing leaves; blocks; entries beyond a count
AT_10 = altered(BACK, {"clock": 1020})
COUNTED = altered(BEGUN, {"clock": 1010, ("counters", 0): 10})
for edition in (NONE, TWO):
    cycle(cycled(0, 2, AT_10, driven=NONE, reasons=(1, 0)), {("wait", 1): 10} | edition, IN_1, 1020, inputs=2, index=A_INDEX)
    shift(0, [1010, 1020], [1, 2], chart={("wait", 1): 10} | edition, found=[3, 0], after=AT_10, driven=NONE, index=A_INDEX)
    cycle(cycled(0, 0, COUNTED, driven=NONE, reasons=(3, 1)), {("on", 0): 4} | edition, index=A_INDEX)
    cycle(cycled(0, 0, COUNTED, driven=NONE, reasons=(3, 1)), {("off", 0): 2} | edition, inputs=3, index=A_INDEX)
    cycle(cycled(0, 1, altered(STILL, {"clock": 1010, "active": 4}), driven=NONE, reasons=(0, 1)),
          {"steps": 3, ("targets", 0): 4} | edition, index=A_INDEX)
    shift(0, [1010, 1510], [1, 2], chart={"steps": 3, ("targets", 0): 4} | edition, found=[0, 0],
          after=altered(STILL, {"clock": 1510, "active": 4, ("counters", 2): 500}), driven=NONE, index=A_INDEX)
    cycle(cycled(0, 1, IN_1, driven={0: 120}, reasons=(0, 1)), {"steps": 3} | edition, index=A_INDEX)
    cycle(cycled(0, 1, altered(IN_1, {"activity": 0, "stored": 0}), driven=NONE, reasons=(0, 1)), {"blocks": 0} | edition, index=A_INDEX)
    cycle(cycled(0, 1, IN_1, driven={0: 120}, reasons=(0, 1)), {("sources", 2): 2**64 - 1, ("sources", 63): 2} | edition, index=A_INDEX)

# "tested after the chart and before 12": a cycle tests 15, chart, 20, 12, 11; two faults at a time, and the chart's each
refused(15, {"steps": 65}, lent=31, index=A_INDEX)
refused(15, lent=31, index=NONE)
refused(15, TWO, lent=0, index=NONE)
for code, chart in REFUSED_CHARTS:
    refused(code, chart, index={0: 1, 1: 3})
    shift(code, [1010], [1], chart=chart | TWO, index={0: 1, 1: 3})
for number in (0, 3, 255):
    refused(5, {"edition": number}, index=NONE)
for run in (OTHER, altered(BEGUN, {"hold": 2}), altered(BEGUN, {("counters", 1): 1}), altered(BEGUN, {"bad": 2})):
    refused(20, run=run, index=NONE)
    refused(12, run=run, index=A_INDEX)
    refused(12, run=run, clock=999, index=A_INDEX)
    shift(20, [1010], [1], run=run, index=NONE)
    shift(12, [1010], [1], run=run, index=A_INDEX)
    shift(12, [1010], [], run=run, index=A_INDEX)
for clock in (999, 61_001):
    refused(20, clock=clock, index=NONE)
    refused(11, clock=clock, index=A_INDEX)
    shift(20, [clock], [1], index=NONE)
    shift(11, [clock], [1], index=A_INDEX)
    shift(18, [clock], [], index=A_INDEX)
# .. and a shift 15, chart, 20, 12, 18, 11
shift(15, [1010], [1], chart={"steps": 65}, lent=31, index=A_INDEX)
shift(15, [1010], [1], lent=31, index=NONE)
for clocks, inputs, words in (([1010], [], 1), ([1010], [1], 2), ([], [1], 0), (range(1001, 5098), [0] * 4097, 4097)):
    shift(20, clocks, inputs, words, index=NONE)
    shift(18, clocks, inputs, words, index=A_INDEX)
# .. before any cycle, even where there is none
shift(20, [], [], index=NONE)
shift(0, [], [], index=A_INDEX)
# .. all at once, and one less each time
refused(15, {"steps": 65}, OTHER, 999, 31, NONE)
refused(4, {"steps": 65}, OTHER, 999, index=NONE)
refused(20, NONE, OTHER, 999, index=NONE)
shift(15, [999], [], run=OTHER, chart={"steps": 65}, lent=31, index=NONE)
shift(4, [999], [], run=OTHER, chart={"steps": 65}, index=NONE)
shift(20, [999], [], run=OTHER, index=NONE)
shift(12, [999], [], run=OTHER, index=A_INDEX)

# "A cycle that consults only transitions leaving some active step takes the same ones". No step is active: each waits for a source
EMPTY = altered(STILL, {"clock": 1000})
for chart in (NONE, TWO):
    cycle(cycled(0, 0, altered(EMPTY, {"clock": 1010}), driven=NONE, reasons=(1, 1)), chart, EMPTY, inputs=3)
    cycle(cycled(0, 0, altered(EMPTY, {"clock": 1010, "hold": 1}), driven=NONE, reasons=(7, 7)), chart, altered(EMPTY, {"hold": 1}), inputs=3)
# transitions "are taken in number order", not in that of the steps they leave: 0 from step 1, 1 from step 0, both to step 2. Nothing acts here.
BARE = {"blocks": 0, "cases": 0}
RIVALS = BARE | {"steps": 3} | moving((2, 4), (1, 4))
building(0, {0: 2, 1: 1}, RIVALS)
cycle(cycled(0, 1, altered(STILL, {"clock": 1010, "active": 5, ("counters", 0): 17}), driven=NONE, reasons=(0, 6)), RIVALS, BOTH)
cycle(cycled(0, 3, altered(STILL, {"clock": 1010, "active": 4}), driven=NONE), RIVALS | TWO, BOTH)
for edition in (NONE, TWO):
    cycle(cycled(0, 0, altered(BOTH_KEYED, {"clock": 1010}), driven=NONE, reasons=(7, 7)), RIVALS | edition, BOTH_KEYED)
# .. 0 from steps 1 and 2 to 3 on input 0, 1 from steps 0 and 1 to 4 on input 1: the second finds step 1 used, or is taken where input 0 is off; of
# either one source alone is active, or none
SHARED = BARE | {"steps": 5} | moving((6, 8), (3, 16)) | {("on", 0): 1, ("on", 1): 2}
building(0, {0: 2, 1: 3, 2: 1}, SHARED)
for edition in (NONE, TWO):
    cycle(cycled(0, 1, altered(STILL, {"clock": 1010, "active": 9, ("counters", 0): 17}), driven=NONE, reasons=(0, 2)),
          SHARED | edition, IN_ALL, inputs=3)
    cycle(cycled(0, 2, altered(STILL, {"clock": 1010, "active": 20, ("counters", 2): 40}), driven=NONE, reasons=(3, 0)),
          SHARED | edition, IN_ALL, inputs=2)
    for k in range(5):
        one = altered(STILL, {"clock": 1000, "active": 1 << k})
        cycle(cycled(0, 0, altered(one, {"clock": 1010, ("counters", k): 10}), driven=NONE, reasons=(1, 1)), SHARED | edition, one, inputs=3)

# the ring from its last step: 63 transitions are not consulted, and wait for their source
LAST = altered(STILL, {"clock": 1000, "active": 2**63, ("counters", 63): 5})
for edition in (NONE, TWO):
    cycle(cycled(0, 2**63, altered(BEGUN, {"clock": 1010}), driven=NONE, reasons=(1,) * 63 + (0,)), RING | edition, LAST)
# .. from steps 0 and 1: step 1 is occupied in edition 1; in edition 2 it is left and entered, and stores action 1. Input 1 marks its case good.
cycle(cycled(0, 2, altered(STILL, {"clock": 1010, "active": 5, "good": 1, ("counters", 0): 17}), driven=NONE, reasons=(5, 0) + (1,) * 62),
      RING, BOTH, inputs=2)
cycle(cycled(0, 3, altered(IN_1, {"active": 6, "good": 1}), driven={0: 120}, reasons=(0, 0) + (1,) * 62), RING | TWO, BOTH, inputs=2)
# .. from all steps: edition 1 takes none, edition 2 all 64; R on step 0 keeps action 1 from being stored, and input 1 is off
ALL = altered(STILL, {"clock": 1000, "active": 2**64 - 1})
ALL_WAIT = altered(ALL, {"clock": 1003, "activity": 1} | {("counters", k): 3 for k in range(64)})
ALL_MOVED = altered(ALL, {"clock": 1003, "activity": 1, "bad": 1})
cycle(cycled(0, 0, ALL_WAIT, driven={0: 120}, reasons=(5,) * 64), RING, ALL, 1003)
cycle(cycled(0, 2**64 - 1, ALL_MOVED, driven={0: 120}), RING | TWO, ALL, 1003)
shift(0, [1001, 1002, 1003], [0] * 3, run=ALL, chart=RING, found=[1] * 3, after=ALL_WAIT, driven={0: 120})
shift(0, [1001, 1002, 1003], [0] * 3, run=ALL, chart=RING | TWO, found=[1] * 3, after=ALL_MOVED, driven={0: 120})
# .. all transitions from the last step: the first is taken, and step 63 is used then; from step 0 none is consulted
for edition in (NONE, TWO):
    cycle(cycled(0, 1, altered(BEGUN, {"clock": 1010}), driven=NONE, reasons=(0,) + (2,) * 63), FROM_63 | edition, LAST)
    cycle(cycled(0, 0, COUNTED, driven=NONE, reasons=(1,) * 64), FROM_63 | edition)
# .. 63 sources each: all active, and all but the last; step 1 marks its case bad where it is left, and acts where it stays
BUT_0 = altered(STILL, {"clock": 1000, "active": 2**64 - 2})
BUT_63 = altered(STILL, {"clock": 1000, "active": 2**63 - 2})
STAND = altered(BUT_63, {"clock": 1010, "activity": 3, "stored": 2} | {("counters", k): 10 for k in range(1, 63)})
for edition in (NONE, TWO):
    cycle(cycled(0, 1, altered(BEGUN, {"clock": 1010, "bad": 1}), driven=NONE, reasons=(0,) + (2,) * 63), JOINS | edition, BUT_0)
    cycle(cycled(0, 0, STAND, driven={0: 120}, reasons=(1,) * 64), JOINS | edition, BUT_63)

# a shift round the ring, in which each cycle consults another transition: step 1 acts and stores action 1, step 0 resets it; input 1 is off where step
# 1 is left
for edition in (NONE, TWO):
    ring = RING | edition
    shift(0, range(1001, 1065), [0] * 64, chart=ring, found=[3] + [2] * 62 + [0], after=altered(BEGUN, {"clock": 1064, "bad": 1}), driven=NONE)
    shift(0, range(1001, 1064), [0] * 63, chart=ring, found=[3] + [2] * 62,
          after=altered(STILL, {"clock": 1063, "active": 2**63, "activity": 2, "stored": 2, "bad": 1}), driven={0: 7})
    shift(11, [1001, 1002, 1001, 1003], [0] * 4, chart=ring, found=[3, 2],
          after=altered(STILL, {"clock": 1002, "active": 4, "activity": 2, "stored": 2, "bad": 1}), driven={0: 7})
    shift(0, range(1001, 1065), [0] * 64, run=HELD_0, chart=ring, found=[0] * 64, after=altered(HELD_0, {"clock": 1064}), driven=NONE)

# Document 02, request (x): "the sum, step by step, in a third lent list", whether the weights are balanced or not: chart A's two transitions ask for
# equal ones
FULL_64 = chart_image(FULL_CHART + END)
for chart in (NONE, TWO):
    adding(0, [1, 2], [30, 40], found=[31, 42], chart=chart)
    adding(0, [5, 5], [7, 7], found=[12, 12], chart=chart)
    adding(0, [1, 2], [2, 1], found=[3, 3], chart=chart)
    adding(0, [5, 5], [1, 0], found=[6, 5], chart=chart)
    # no run is looked at, and no output is written
    adding(0, [1, 2], [30, 40], found=[31, 42], chart=chart, run=OTHERS, more=61_001)
    adding(0, [1, 2], [30, 40], found=[31, 42], chart=chart, run=altered(WIDE, {"hold": 255, ("counters", 1): DAY + 1}))
    # one step, without a transition
    adding(0, [0], [0], found=[0], chart=FEW | {"steps": 1} | chart)
    adding(0, [300], [77], found=[377], chart=FEW | {"steps": 1} | chart)
    # three steps, of which two have no weight; 64 steps, each with sums of its own, on the ring and on the full chart
    adding(0, [2, 0, 0], [0, 0, 9], found=[2, 0, 9], chart=FORK | chart)
    adding(0, range(64), [100 * k for k in range(64)], found=[101 * k for k in range(64)], chart=RING | chart)
    adding(0, range(1000, 1064), range(64, 0, -1), found=[1064] * 64, base=FULL_64, chart=chart)
    # "no step's sum exceeds 65,535": each step's, that sum made in several ways
    for first in (65_535, 65_534, 32_768, 32_767, 256, 255, 1, 0):
        adding(0, [first, 3], [65_535 - first, 4], found=[65_535, 7], chart=chart)
        adding(0, [3, first], [4, 65_535 - first], found=[7, 65_535], chart=chart)
    adding(0, [65_535] * 64, [0] * 64, found=[65_535] * 64, chart=RING | chart)
    adding(0, [65_535 - k for k in range(64)], range(64), found=[65_535] * 64, base=FULL_64, chart=chart)
# entries beyond a count play no part
adding(0, [1, 2], [30, 40], found=[31, 42], chart={("initial", 2): 255, ("sources", 2): 2**64 - 1, ("qualifier", 3): 11, ("casestep", 1): 2})
# "If both are balanced .., the sum is balanced and its initial total is the sum of both totals": on the fork 2, 1, 1 and 5, 2, 3
weighing("0 0 2", [2, 1, 1], FORK)
weighing("0 0 5", [5, 2, 3], FORK)
adding(0, [2, 1, 1], [5, 2, 3], found=[7, 3, 4], chart=FORK)
weighing("0 0 7", [7, 3, 4], FORK)
# .. of two that are not balanced it may be either, and no adding tests it
weighing("14 0 0", [2, 1, 2], FORK)
adding(0, [2, 1, 2], [2, 2, 1], found=[4, 3, 3], chart=FORK)
weighing("14 0 0", [4, 3, 3], FORK)
adding(0, [2, 1, 2], [2, 1, 0], found=[4, 2, 2], chart=FORK)
weighing("0 0 4", [4, 2, 2], FORK)
# "order and grouping don't matter": the same two the other way round, and with 65,528, 4 and 65,524 as the third, in both groupings
adding(0, [5, 2, 3], [2, 1, 1], found=[7, 3, 4], chart=FORK)
adding(0, [7, 3, 4], [65_528, 4, 65_524], found=[65_535, 7, 65_528], chart=FORK)
adding(0, [5, 2, 3], [65_528, 4, 65_524], found=[65_533, 6, 65_527], chart=FORK)
adding(0, [2, 1, 1], [65_533, 6, 65_527], found=[65_535, 7, 65_528], chart=FORK)
# "and the all-zero weighing changes nothing"
adding(0, [0] * 3, [5, 2, 3], found=[5, 2, 3], chart=FORK)
adding(0, [5, 65_535, 0], [0] * 3, found=[5, 65_535, 0], chart=FORK)
adding(0, [0] * 64, [0] * 64, found=[0] * 64, chart=RING)

# "Refusals: chart; 13 ..; 21 ..": the chart's with a sum that doesn't fit, and with three lengths that are wrong too; the edition's 5 stands above, by
# every call
for code, chart in REFUSED_CHARTS:
    adding(code, [65_535, 2], [1, 4], chart=chart)
    adding(code, [65_535] * 3, [1], 64, chart=chart | TWO, run=OTHERS)
adding(4, [1] * 65, [1] * 65, chart={"steps": 65})
adding(9, [], [], chart=NOTHING | {"edition": 1})
# "13 if any of the three lengths is wrong": shorter, longer and empty, each by itself; 64 are as many as a chart's table has, and the lesser bytes of 256
# and 258 are 0 and 2
for many in (1, 3, 0, 64, 255):
    adding(13, [1] * many, [3, 4], 2)
    adding(13, [1] * many, [3, 4], 2, chart=TWO, run=OTHERS)
for many in (1, 3, 0, 64, 256, 258):
    adding(13, [1, 2], [3] * many)
    adding(13, [1, 2], [3, 4], many)
    adding(13, [1, 2], [3] * many, chart=TWO)
    adding(13, [1, 2], [3, 4], many, chart=TWO)
# .. two of them, and all three alike
for many in (1, 3, 0, 64):
    adding(13, [1, 2], [3] * many, many)
    adding(13, [1] * many, [3, 4], many)
    adding(13, [1] * many, [3] * many, 2)
    adding(13, [1] * many, [3] * many)
# .. of one step, and of 64
for many in (0, 2, 64):
    adding(13, [1] * many, [3], 1, chart=FEW | {"steps": 1})
    adding(13, [1], [3] * many, chart=FEW | {"steps": 1})
    adding(13, [1], [3], many, chart=FEW | {"steps": 1})
for many in (63, 65, 0, 1, 128):
    adding(13, [1] * many, [3] * 64, 64, chart=RING)
    adding(13, [1] * 64, [3] * many, chart=RING)
    adding(13, [1] * 64, [3] * 64, many, chart=RING)
# .. and before 21
for many in (1, 3, 0):
    adding(13, [65_535] * many, [65_535] * 2, 2)
    adding(13, [65_535] * 2, [65_535] * many)
    adding(13, [65_535] * 2, [65_535] * 2, many)
    adding(13, [65_535] * many, [65_535] * many)
# "21 with the first step whose sum doesn't fit, nothing written": 65,536, made in several ways, and more, at step 0, at the last, and at both
for chart in (NONE, TWO):
    for first, other in ((65_535, 1), (1, 65_535), (32_768, 32_768), (256, 65_280), (65_535, 65_535), (40_000, 30_000)):
        adding(21, [first, 3], [other, 4], chart=chart)
        adding(21, [3, first], [4, other], step=1, chart=chart)
        adding(21, [first] * 2, [other] * 2, chart=chart)
    # whatever run it is, and whether balanced or not
    adding(21, [65_535, 65_535], [0, 1], step=1, chart=chart, run=OTHERS, more=61_001)
    adding(21, [65_535], [1], chart=FEW | {"steps": 1} | chart)
    # of 64 steps the last alone, the first alone, one between, the first of several, all; the others have 65,535, or little
    adding(21, [65_535] * 63 + [1], [0] * 63 + [65_535], step=63, base=FULL_64, chart=chart)
    adding(21, [1] * 63 + [65_535], [1] * 64, step=63, chart=RING | chart)
    adding(21, [1] + [65_535] * 63, [65_535] + [0] * 63, base=FULL_64, chart=chart)
    adding(21, [1] * 40 + [65_535] + [1] * 23, [1] * 64, step=40, chart=RING | chart)
    adding(21, [1] * 62 + [65_535] * 2, [65_535] * 62 + [1] * 2, chart=RING | chart)
    adding(21, [1] * 31 + [65_535] * 33, [1] * 64, step=31, base=FULL_64, chart=chart)
    adding(21, [k % 7 for k in range(64)], [65_530] * 64, step=6, chart=RING | chart)
    adding(21, range(64), [65_535 - 32] * 64, step=33, base=FULL_64, chart=chart)
    adding(21, [65_535] * 64, [65_535] * 64, base=FULL_64, chart=chart)

if __name__ == "__main__":
    assert len(CASES[0][0]) == 4560 + 437 + 11
    # the edition stands behind the last case's expected value, and seven bytes of 0 behind it
    assert request(altered(A, {("expected", 63): 7, "edition": 2}), STILL, TALLY)[4551:4560] == b"\7\2" + b"\0" * 7
    assert CASES[0][0][4552] == 1 and chart_image(second(CHART_A)) == altered(A, TWO)
    # the mark is the last byte of the run, in front of the call, and stands between the bad marks and the counters
    image, text = next((image, text) for image, text in CASES if image[4560 + 437] == HOLD)
    assert image[4560 + 436:4560 + 439] == b"\2\6\xe8" and text.split(" ")[:12] == "12 0 1509 2 3 2 0 1 0 2 0 499".split(" ")
    # the first list stands behind its length in one byte, the second behind the first
    image = next(image for image, _ in CASES if image[4560 + 437] == ADDING and image[4552] == 1)
    assert image[4560 + 437:] == b"\x0b\2\0\0\0\2\0\0\0\x1f\2" + b"\1\0\2\0" + b"\x1e\0\x28\0"
    store({
        "tests/stored/held_calls.in": b"".join(case for case, _ in CASES),
        "tests/stored/held_calls.out": "".join(text + "\n" for _, text in CASES).encode(),
    }, "tests/held_calls.py")
    print(f"held_calls: {len(CASES)} cases")
