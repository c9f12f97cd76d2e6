#!/usr/bin/env python3
"""The stored cases of `driver run_cycles`: its input, and the output that document 01 asks for.

  tests/run_cycles.py           write tests/stored/run_cycles.in and run_cycles.out
  tests/run_cycles.py --check   say whether they are what this file says

The lines come from a plain model of document 01's start and cycle, with P as request (ii) of document 02 has it, the reasons of
its request (vi), the hold key of its request (vii) and the second edition of its request (viii); nothing here runs the engine. The
driver makes every cycle by the chart's index too, whose answer must be the same (request ix), and the model knows of no index. Every
case also states facts derived from the documents by hand, and nothing is written unless the model agrees with all of them.
Numbers 1 to 6 in the comments are the numbered rules under "One cycle".
"""
import struct
import sys
from collections import namedtuple

sys.dont_write_bytecode = True  # leave no folder beside read_charts.py
from read_charts import (  # noqa: E402
    CHART_A, D, DAY, DS, END, L, N, P, P0, P1, R, S, SD, SL, action, block, case, members, second, step, store,
    transition,
)

# The chart, taken apart

Step = namedtuple("Step", "initial")
Action = namedtuple("Action", "output value")
Transition = namedtuple("Transition", "sources targets on off wait")
Block = namedtuple("Block", "step action qualifier duration")
Case = namedtuple("Case", "step signal expected")
Edition = namedtuple("Edition", "number")
Chart = namedtuple("Chart", "steps actions transitions blocks cases edition")
KINDS = {1: (Step, "<B"), 2: (Action, "<Bi"), 3: (Transition, "<QQQQI"), 4: (Block, "<BBBI"), 5: (Case, "<BBB"), 6: (Edition, "<B")}
TIMED = (L, D, SD, DS, SL)


def numbers(word):
    return {k for k in range(64) if word >> k & 1}


def parse(data):
    """The chart of a valid file."""
    found, place, kind = {k: [] for k in KINDS}, 0, None
    while kind != 0:
        length, kind = struct.unpack_from("<HH", data, place)
        if kind in KINDS:
            form, layout = KINDS[kind]
            found[kind].append(form(*struct.unpack_from(layout, data, place + 4)))
        place += 4 + length
    assert place == len(data)
    words = [[numbers(t.sources), numbers(t.targets), numbers(t.on), numbers(t.off), t.wait] for t in found[3]]
    edition = found[6][0].number if found[6] else 1  # document 02, request (viii): "absent means edition 1"
    return Chart(found[1], found[2], [Transition(*w) for w in words], found[4], found[5], edition)


def check_valid(chart):
    """Document 01's refusals 4 to 9, so that no case has a chart that the engine would refuse."""
    steps, actions = set(range(len(chart.steps))), set(range(len(chart.actions)))
    signals = set(range(32)) | {32 + k for k in actions}
    assert all(len(entries) <= limit for entries, limit in zip(chart[:5], (64, 32, 64, 256, 64))) and chart.edition in (1, 2)
    assert any(s.initial for s in chart.steps) and all(a.output < 32 for a in chart.actions)
    for t in chart.transitions:
        assert t.sources and t.targets and not t.sources & t.targets and not t.on & t.off
        assert t.sources | t.targets <= steps and t.on | t.off <= signals and t.wait <= DAY
    for b in chart.blocks:
        assert b.step in steps and b.action in actions and b.qualifier <= 10
        assert b.duration <= (DAY if b.qualifier in TIMED else 0)
    timed = [b.action for b in chart.blocks if b.qualifier in TIMED]
    assert len(timed) == len(set(timed))
    assert all(c.step in steps and c.signal in signals and c.expected <= 1 for c in chart.cases)


# The model: counters holds the active steps only, timers the latched actions only

Run = namedtuple("Run", "clock active activity stored latched good bad hold counters timers")
Answer = namedtuple("Answer", "code taken run outputs reasons")


def start(chart, clock):
    initial = {k for k, s in enumerate(chart.steps) if s.initial}
    run = Run(clock, initial, set(), set(), set(), set(), set(), 0, {k: 0 for k in initial}, {})
    return act(chart, run, set(), entered=initial, left=set(), reasons=[])


def cycle(chart, run, lent, clock, inputs):
    elapsed = (clock - run.clock) % 2**32
    if elapsed > 60_000:
        return Answer(11, set(), run, lent, [])
    if run.hold:
        return held_cycle(chart, run, clock, elapsed)
    signals = set(inputs) | {32 + k for k in run.activity}
    grown = run._replace(clock=clock, counters=grow(run.counters, elapsed), timers=grow(run.timers, elapsed))
    taken, left, targets, reasons = take(chart, grown, signals)
    assert taken == {t for t, reason in enumerate(reasons) if reason == 0}
    entered = {k for k in targets if k not in run.active or k in left}  # request (viii); in edition 1 every target was inactive
    moved = mark(chart, move(grown, left, targets, entered), signals, left)
    return act(chart, moved, taken, entered, left, reasons)


def held_cycle(chart, run, clock, elapsed):  # document 02, request (vii): counters stand still, timers run on, nothing is entered or left
    later = run._replace(clock=clock, timers=grow(run.timers, elapsed))
    return act(chart, later, set(), entered=set(), left=set(), reasons=[7] * len(chart.transitions))


def turn(run, lent, hold):  # request (vii): "one call to set it and one to clear it", on a run of the chart
    return Answer(0, set(), run._replace(hold=hold), lent, [])


def grow(times, elapsed):  # rule 1
    return {k: min(time + elapsed, DAY) for k, time in times.items()}


def take(chart, run, signals):  # rule 2; request (viii): "targets are not tested"
    taken, left, targets, reasons = set(), set(), set(), []
    for number, t in enumerate(chart.transitions):
        reasons.append(why(chart.edition, t, run, signals, left, targets))
        sources_free = t.sources <= run.active and not t.sources & left
        told = t.on <= signals and not t.off & signals
        targets_free = chart.edition == 2 or not t.targets & run.active and not t.targets & targets
        if sources_free and told and targets_free and all(run.counters[k] >= t.wait for k in t.sources):
            taken.add(number)
            left |= t.sources
            targets |= t.targets
    return taken, left, targets, reasons


def why(edition, t, run, signals, left, targets):  # document 02, request (vi): the first that speaks against it
    if t.sources - run.active:
        return 1
    if t.sources & left:
        return 2
    if t.on - signals or t.off & signals:
        return 3
    if min(run.counters[k] for k in t.sources) < t.wait:
        return 4
    if edition == 2:
        return 0
    if t.targets & run.active:
        return 5
    return 6 if t.targets & targets else 0


def move(run, left, targets, entered):  # rule 3, steps; request (viii): "a step both left and entered stays active"
    active = (run.active - left) | targets
    return run._replace(active=active, counters={k: 0 if k in entered else run.counters[k] for k in active})


def mark(chart, run, signals, left):  # rule 3, cases
    good, bad = set(run.good), set(run.bad)
    for number, c in enumerate(chart.cases):
        if c.step in left:
            equal = (c.signal in signals) == (c.expected == 1)
            (good if equal else bad).add(number)
    return run._replace(good=good, bad=bad)


def act(chart, run, taken, entered, left, reasons):
    run, reset = remember(chart, run)
    activity = {
        number for number in range(len(chart.actions))
        if number not in reset
        and (number in run.stored or any(drives(b, run, entered, left) for b in chart.blocks if b.action == number))
    }
    return Answer(0, taken, run._replace(activity=activity), outputs_of(chart, activity), reasons)


def remember(chart, run):  # rule 4
    here = [b for b in chart.blocks if b.step in run.active]
    reset = {b.action for b in here if b.qualifier == R}
    stored, latched = run.stored - reset, run.latched - reset
    for b in here:
        late = b.qualifier == DS and run.counters[b.step] >= b.duration
        if b.action not in reset and (b.qualifier == S or late):
            stored = stored | {b.action}
        if b.action not in reset and b.qualifier in (SD, SL):
            latched = latched | {b.action}
    timers = {k: run.timers.get(k, 0) for k in latched}
    return run._replace(stored=stored, latched=latched, timers=timers), reset


def drives(b, run, entered, left):  # rule 5, one block; R, S and DS act through rule 4 alone
    here, latched = b.step in run.active, b.action in run.latched
    return (
        (b.qualifier == N and here)
        or (b.qualifier == L and here and run.counters[b.step] < b.duration)
        or (b.qualifier == D and here and run.counters[b.step] >= b.duration)
        or (b.qualifier == SD and latched and run.timers[b.action] >= b.duration)
        or (b.qualifier == SL and latched and run.timers[b.action] < b.duration)
        or (b.qualifier in (P1, P) and b.step in entered)  # P by document 02, request (ii)
        or (b.qualifier == P0 and b.step in left)
    )


def outputs_of(chart, activity):  # rule 6
    outputs = [0] * 32
    for number in sorted(activity, reverse=True):  # the first in the table writes last
        outputs[chart.actions[number].output] = chart.actions[number].value
    return outputs


# The line of a call, and the comparison with the facts

def line(answer):
    run = answer.run
    words = [answer.code, members(answer.taken), run.clock]
    words += [members(s) for s in (run.active, run.activity, run.stored, run.latched, run.good, run.bad)] + [run.hold]
    words += ["c"] + [f"{k}:{v}" for k, v in sorted(run.counters.items()) if v]
    words += ["t"] + [f"{k}:{v}" for k, v in sorted(run.timers.items()) if v]
    words += ["o"] + answer.outputs + ["w"] + [f"{t}:{reason}" for t, reason in enumerate(answer.reasons) if reason]
    return " ".join(map(str, words))


def facts_of(answer):
    """Sets as they are; counters, timers, outputs and reasons without those that are 0."""
    facts = {"code": answer.code, "taken": answer.taken, **answer.run._asdict()}
    facts["outputs"], facts["reasons"] = dict(enumerate(answer.outputs)), dict(enumerate(answer.reasons))
    for name in ("counters", "timers", "outputs", "reasons"):
        facts[name] = {k: v for k, v in facts[name].items() if v != 0}
    return facts


def compare(name, answers, expect):
    for number, facts in expect.items():
        model = facts_of(answers[number])
        for fact, value in facts.items():
            said = set(value) if isinstance(model[fact], set) else value
            if said != model[fact]:
                sys.exit(f"{name}, call {number}, {fact}: by hand {said}, by the model {model[fact]}")


# The cases. A call is a cycle, its milliseconds since the start and its inputs as a set, or a turn of the key; the start is call 0.

CASES = []
HOLD, RELEASE = "hold", "release"


def show(name, chart, calls, expect=None, start=5000, **by_call):
    """A case with its facts by hand: expect has them for some calls, by_call a list of one fact for all, the start's first."""
    assert all(len(values) == 1 + len(calls) for values in by_call.values()), name
    columns = {number: dict(zip(by_call, row)) for number, row in enumerate(zip(*by_call.values()))}
    assert bool(expect) != bool(columns), name
    calls = [call if call in (HOLD, RELEASE) else ((start + call[0]) % 2**32, call[1]) for call in calls]
    CASES.append((name, chart, start, calls, expect or columns))


def steps(count, initial=(0,)):
    return b"".join(step(k in initial) for k in range(count))


def actions(count):
    return b"".join(action(k, 10 + k) for k in range(count))


def net(count, initial, *moves):
    """Steps, and transitions written as what transition() takes."""
    return steps(count, initial) + b"".join(transition(*move) for move in moves) + END


def swing(count, *rest):
    """Step 0 to step 1 on input 0 and back on input 1, with some actions."""
    return steps(2) + actions(count) + THERE + BACK + b"".join(rest) + END


def path(count, *rest):
    """Step 0 to step 1 on input 0 and on to step 2 on input 1, with some actions."""
    return steps(3) + actions(count) + THERE + ON + b"".join(rest) + END


def swapped(*rest):
    """Steps 0 and 1, both initial, lead into each other on input 0, with nine actions."""
    return steps(2, [0, 1]) + actions(9) + b"".join(transition(*move) for move in TOLD_SWAP) + b"".join(rest) + END


THERE, BACK, ON = transition([0], [1], on=[0]), transition([1], [0], on=[1]), transition([1], [2], on=[1])
ALONE = steps(1) + END
TURN = 4_294_967_000

# "Chart A": its trace; "last clock 1509: no transition, activity 3, case not run"; "output 0 is 120, by table order"
show("chart A", CHART_A, [(10, {0}), (510, {1})], {
    0: dict(taken={}, active={0}, activity={}, outputs={}),
    1: dict(taken={0}, active={1}, activity={0, 1}, stored={1}, counters={}, outputs={0: 120}),
    2: dict(taken={1}, active={0}, activity={}, stored={}, good={0}, bad={}, outputs={}, clock=1510),
}, start=1000)
show("chart A, last clock 1509", CHART_A, [(10, {0}), (509, {1})], {
    2: dict(taken={}, active={1}, activity={0, 1}, good={}, bad={}, counters={1: 499}, outputs={0: 120}),
}, start=1000)

# 1: elapsed time is the new reading minus the last, modulo 2^32
show("the clock turns: elapsed 496", ALONE, [(496, {})], clock=[TURN, 200], counters=[{}, {0: 496}], start=TURN)
show("the last reading before the turn", ALONE, [(1, {})], clock=[2**32 - 1, 0], counters=[{}, {0: 1}], start=2**32 - 1)
show("elapsed 0", ALONE, [(0, {}), (7, {}), (7, {})], code=[0, 0, 0, 0], counters=[{}, {}, {0: 7}, {0: 7}])
# 1: "Every step counter of an active step and every timer of a latched action", and no other
show("counters and timers grow", steps(3, [0, 1]) + actions(2) + block(1, 1, SL, 5) + block(2, 0, SL, 5) + END,
     [(3, {}), (13, {})], counters=[{}, {0: 3, 1: 3}, {0: 13, 1: 13}], timers=[{}, {1: 3}, {1: 13}], latched=[{1}] * 3)
# 11: "elapsed 60,000 accepted; 60,001 refused 11; clock one back refused 11"; a refused cycle returns the run it was given
show("elapsed 60,000", ALONE, [(60_000, {})], code=[0, 0], counters=[{}, {0: 60_000}])
show("elapsed 60,001, and the run goes on", ALONE, [(60_001, {}), (60_000, {}), (120_001, {}), (120_000, {})],
     code=[0, 11, 0, 11, 0], clock=[5000, 5000, 65_000, 65_000, 125_000],
     counters=[{}, {}, {0: 60_000}, {0: 60_000}, {0: 120_000}])
show("clock one back, and the run goes on", ALONE, [(-1, {}), (1, {}), (0, {}), (1, {}), (3, {})],
     code=[0, 11, 0, 11, 0, 0], clock=[5000, 5000, 5001, 5001, 5001, 5003],
     counters=[{}, {}, {0: 1}, {0: 1}, {0: 1}, {0: 3}])
show("one back from 0", ALONE, [(-1, {})], code=[0, 11], clock=[0, 0], start=0)
show("half a turn", ALONE, [(2**31, {}), (2**31 - 1, {})], code=[0, 11, 11], clock=[5000] * 3)
show("the limit over the turn", ALONE, [(60_001, {}), (60_000, {})], code=[0, 11, 0], clock=[TURN, TURN, 59_704], start=TURN)
KEPT = dict(code=11, taken={}, clock=5010, active={1}, activity={0, 1}, good={}, timers={0: 10}, outputs={0: 10, 1: 11})
show("a refused cycle takes, marks and writes nothing", swing(2, block(0, 0, SD, 9), block(1, 1, N), case(1, 1, 1)),
     [(10, {0}), (70_000, {1}), (9, {1}), (11, {1})], {
         1: {**KEPT, "code": 0, "taken": {0}}, 2: KEPT, 3: KEPT,
         4: dict(code=0, taken={1}, clock=5011, active={0}, activity={0}, good={0}, timers={0: 11}, outputs={0: 10})})
# 1: "stopping at 86,400,000". Step 1 is entered 1 ms after the latches, so call 1441 stands at timer DAY and counter DAY - 1,
# and call 1442 stops both. In call 1444 the transition finds its wait of DAY still reached.
LONGEST = {0: 86_400_000, 3: 86_400_000}
show("the longest counter and timer",
     steps(3) + actions(4) + THERE + transition([1], [2], on=[1], wait=DAY)
     + block(0, 0, SD, DAY) + block(1, 1, D, DAY) + block(1, 2, L, DAY) + block(0, 3, SL, DAY) + END,
     [(1, {0})] + [(60_000 * k, {1}) for k in range(1, 1441)]
     + [(86_460_000, {}), (86_520_000, {}), (86_520_000, {1}), (86_520_009, {})], {
         1: dict(taken={0}, counters={}, timers={0: 1, 3: 1}, activity={2, 3}),
         1440: dict(taken={}, counters={1: 86_339_999}, timers={0: 86_340_000, 3: 86_340_000}, activity={2, 3}),
         1441: dict(taken={}, counters={1: 86_399_999}, timers=LONGEST, activity={0, 2}),
         1442: dict(taken={}, counters={1: 86_400_000}, timers=LONGEST, activity={0, 1}),
         1443: dict(taken={}, counters={1: 86_400_000}, timers=LONGEST, activity={0, 1}),
         1444: dict(taken={1}, counters={}, timers=LONGEST, activity={0}),
         1445: dict(taken={}, counters={2: 9}, timers=LONGEST, activity={0})})

# 2: "in number order"; sources "are not a source of one already taken"
show("two rivals for a source", net(3, [0], ([0], [1]), ([0], [2])), [(10, {})], taken=[{}, {0}], active=[{0}, {1}])
show("a rival that is not told does not block", steps(3) + THERE + transition([0], [2]) + END, [(10, {})],
     taken=[{}, {1}], active=[{0}, {2}])
show("a rival whose target is active does not block", net(3, [0, 1], ([0], [1]), ([0], [2])), [(10, {})],
     taken=[{}, {1}], active=[{0, 1}, {1, 2}])
show("{a}, {a, b}, {b}: the first and the third", net(5, [0, 1], ([0], [2]), ([0, 1], [3]), ([1], [4])), [(10, {})],
     taken=[{}, {0, 2}], active=[{0, 1}, {2, 4}])
show("{a, b}, {a}, {b}: the first alone", net(5, [0, 1], ([0, 1], [3]), ([0], [2]), ([1], [4])), [(10, {})],
     taken=[{}, {0}], active=[{0, 1}, {3}])
# 2: "each target was inactive at the beginning and is not a target of one already taken"
show("two rivals for a target", net(3, [0, 1], ([0], [2]), ([1], [2])), [(10, {}), (20, {})],
     taken=[{}, {0}, {}], active=[{0, 1}, {1, 2}, {1, 2}])
show("two rivals for a target, the first not told", net(3, [0, 1], ([0], [2], [0]), ([1], [2])), [(10, {})],
     taken=[{}, {1}], active=[{0, 1}, {0, 2}])
show("one target of two is claimed", net(5, [0, 1], ([0], [2, 3]), ([1], [3, 4])), [(10, {})],
     taken=[{}, {0}], active=[{0, 1}, {1, 2, 3}])
show("one target of two is active", net(3, [0, 2], ([0], [1, 2])), [(10, {})], taken=[{}, {}], active=[{0, 2}, {0, 2}])
# "A target so tested lets a step left in this cycle be entered in it": in both orders of the two
show("a target that is left", net(3, [0, 1], ([0], [1]), ([1], [2])), [(10, {}), (20, {}), (30, {})],
     taken=[{}, {1}, {0}, {}], active=[{0, 1}, {0, 2}, {1, 2}, {1, 2}])
show("a target that an earlier one has left", net(3, [0, 1], ([1], [2]), ([0], [1])), [(10, {}), (20, {})],
     taken=[{}, {0}, {1}], active=[{0, 1}, {0, 2}, {1, 2}])
show("two steps do not change places", net(2, [0, 1], ([0], [1]), ([1], [0])), [(10, {})],
     taken=[{}, {}], active=[{0, 1}, {0, 1}])
# "Testing a source against the half-updated step set: a chain of steps then runs through in one cycle"
show("a chain of steps", net(4, [0], ([0], [1]), ([1], [2]), ([2], [3])), [(1, {}), (2, {}), (3, {}), (4, {})],
     taken=[{}, {0}, {1}, {2}, {}], active=[{0}, {1}, {2}, {3}, {3}])
show("the chain numbered backwards", net(4, [0], ([2], [3]), ([1], [2]), ([0], [1])), [(1, {}), (2, {}), (3, {})],
     taken=[{}, {2}, {1}, {0}], active=[{0}, {1}, {2}, {3}])
# 2: "all its sources were active at the cycle's beginning"
show("fork and join", net(4, [0], ([0], [1, 2]), ([1, 2], [3]), ([3], [0])), [(1, {}), (2, {}), (3, {})],
     taken=[{}, {0}, {1}, {2}], active=[{0}, {1, 2}, {3}, {0}])
show("a source that is not active", net(3, [0], ([0, 1], [2])), [(1, {})], taken=[{}, {}], active=[{0}, {0}])
show("a source that becomes active", net(4, [0, 1], ([1], [2]), ([0, 2], [3])), [(1, {}), (2, {})],
     taken=[{}, {0}, {1}], active=[{0, 1}, {0, 2}, {3}])
# 2: "every 'on' signal is 1 and every 'off' signal 0"
show("inputs on and off", net(2, [0], ([0], [1], [0, 31], [5])),
     [(1, {}), (2, {0}), (3, {31}), (4, {0, 5, 31}), (5, {0, 7, 31})], taken=[{}, {}, {}, {}, {}, {0}])
show("every input in use", net(2, [0], ([0], [1], range(0, 32, 2), range(1, 32, 2))),
     [(1, range(32)), (2, {*range(0, 32, 2), 31}), (3, range(0, 30, 2)), (4, range(0, 32, 2))], taken=[{}, {}, {}, {}, {0}])
# "signal 32+k is the activity of action k as the previous call left it"
show("an activity on", steps(2) + actions(1) + transition([0], [1], on=[32]) + block(0, 0, D, 10) + END,
     [(9, range(32)), (10, range(32)), (10, {})], taken=[{}, {}, {}, {0}], activity=[{}, {}, {0}, {}])
show("an activity off", steps(2) + actions(2) + transition([0], [1], off=[33]) + block(0, 1, L, 10) + END,
     [(9, {}), (10, {}), (11, {})], taken=[{}, {}, {}, {0}], activity=[{1}, {1}, {}, {}])
show("the activity of action 31", steps(2) + actions(32) + transition([0], [1], on=[63], off=[62]) + block(0, 31, P1) + END,
     [(1, {})], taken=[{}, {0}], activity=[{31}, {}])
show("an activity after refused cycles", steps(2) + actions(1) + transition([0], [1], on=[32]) + block(0, 0, P1) + END,
     [(60_001, {}), (-1, {}), (5, {})], code=[0, 11, 11, 0], taken=[{}, {}, {}, {0}], activity=[{0}, {0}, {0}, {}])
# 2: "each source's counter has reached the wait"
for wait, reached in {0: {0, 1, 2, 499, 500, 501}, 1: {1, 2, 499, 500, 501}, 500: {500, 501}}.items():
    chart = steps(2) + transition([0], [1], wait=wait) + END
    for ms in (0, 1, 2, 499, 500, 501):
        show(f"wait {wait} at {ms}", chart, [(ms, {})], taken=[{}, {0} if ms in reached else {}])
show("two sources with different counters", net(4, [0, 1], ([1], [2], [0]), ([0, 2], [3], [], [], 100)),
     [(50, {0}), (100, {}), (149, {}), (150, {})],
     taken=[{}, {0}, {}, {}, {1}], counters=[{}, {0: 50}, {0: 100, 2: 50}, {0: 149, 2: 99}, {}])
# document 02, request (v): each source counts, wherever it stands among them, and no other step does
for late in (5, 31, 63):
    show(f"of three sources step {late} is the last to reach the wait",
         net(64, {0, 5, 31, 63} - {late}, ([0], [late], [0]), ([5, 31, 63], [1], [], [], 100)),
         [(50, {0}), (100, {}), (149, {}), (150, {})], taken=[{}, {0}, {}, {}, {1}],
         counters=[{}] + [{k: ms - 50 * (k == late) for k in (5, 31, 63) if (k, ms) != (late, 50)} for ms in (50, 100, 149)] + [{}])
show("a step that is no source has not reached the wait", net(4, [0, 1], ([0], [2], [0]), ([1], [3], [], [], 100)),
     [(50, {0}), (99, {}), (100, {})], taken=[{}, {0}, {}, {1}], counters=[{}, {1: 50}, {1: 99, 2: 49}, {2: 50}])
show("the wait begins anew on entering", net(2, [0], ([0], [1]), ([1], [0], [], [], 100)),
     [(50, {}), (149, {}), (150, {}), (160, {}), (259, {}), (260, {})], taken=[{}, {0}, {}, {1}, {0}, {}, {1}])

# 3: "A step entered or inactive has counter 0", and the others go on
show("counters of steps entered and left", steps(3, [0, 2]) + THERE + BACK + END, [(40, {0}), (50, {}), (60, {1}), (65, {})],
     active=[{0, 2}, {1, 2}, {1, 2}, {0, 2}, {0, 2}], counters=[{}, {2: 40}, {1: 10, 2: 50}, {2: 60}, {0: 5, 2: 65}])
# 3: "For each case on a left step, the signal of this cycle is compared": case 0 is on step 1, which input 1 leaves
INPUT_5 = swing(0, case(1, 5, 1))
show("good", INPUT_5, [(10, {0}), (20, {1, 5})], good=[{}, {}, {0}], bad=[{}, {}, {}])
show("bad", INPUT_5, [(10, {0}), (20, {1})], good=[{}, {}, {}], bad=[{}, {}, {0}])
show("expected 0", swing(0, case(1, 5, 0)), [(10, {0}), (20, {1})], good=[{}, {}, {0}], bad=[{}, {}, {}])
show("expected 0, bad", swing(0, case(1, 5, 0)), [(10, {0}), (20, {1, 5})], good=[{}, {}, {}], bad=[{}, {}, {0}])
show("left twice, good and then bad", INPUT_5, [(10, {0}), (20, {1, 5}), (30, {0}), (40, {1})],
     good=[{}, {}, {0}, {0}, {0}], bad=[{}, {}, {}, {}, {0}])
show("left twice, bad and then good", INPUT_5, [(10, {0}), (20, {1}), (30, {0}), (40, {1, 5})],
     good=[{}, {}, {}, {}, {0}], bad=[{}, {}, {0}, {0}, {0}])
show("left twice, good both times", INPUT_5, [(10, {0}), (20, {1, 5}), (30, {0}), (40, {1, 5})],
     good=[{}, {}, {0}, {0}, {0}], bad=[{}] * 5)
# "Counting a step that is still active as passed"
show("entered and never left", INPUT_5, [(10, {0, 5}), (20, {5}), (30, {})], good=[{}] * 4, bad=[{}] * 4)
# "Reading a case from the cycle after the step was left", or from the one before
show("not the next cycle's signal", INPUT_5, [(10, {0}), (20, {1}), (30, {5})], good=[{}] * 4, bad=[{}, {}, {0}, {0}])
show("not the signal of the cycle before", INPUT_5, [(10, {0}), (15, {5}), (20, {1})], good=[{}] * 4, bad=[{}, {}, {}, {0}])
show("four cases on two steps", swing(0, case(1, 5, 1), case(1, 5, 0), case(1, 6, 0), case(0, 0, 1)),
     [(10, {0}), (20, {1, 5})], good=[{}, {3}, {0, 2, 3}], bad=[{}, {}, {1}])
show("cases on both sources of a join and on its target",
     steps(3, [0, 1]) + transition([0, 1], [2]) + case(0, 9, 1) + case(1, 9, 0) + case(2, 9, 1) + END,
     [(1, {9})], good=[{}, {0}], bad=[{}, {1}])
# the activity is the previous call's: action 0 becomes active as step 0 is left, and inactive as step 1 is
show("cases on an activity", swing(1, block(1, 0, N), case(1, 32, 1), case(0, 32, 0)), [(10, {0}), (20, {1})],
     activity=[{}, {0}, {}], good=[{}, {1}, {0, 1}], bad=[{}, {}, {}])

# 4 and 5: each timed qualifier on both sides of its duration; the times of counter or timer at which it is active
SOON, LATE = {0: [], 1: [0], 100: [0, 1, 2, 99]}, {0: [0, 1, 2, 99, 100, 101], 1: [1, 2, 99, 100, 101], 100: [100, 101]}
for q, active_at in {L: SOON, SL: SOON, D: LATE, SD: LATE, DS: LATE}.items():
    for duration in (0, 1, 100):
        chart = steps(1) + actions(1) + block(0, 0, q, duration) + END
        at = {ms: {0} if ms in active_at[duration] else {} for ms in (0, 1, 2, 99, 100, 101)}
        show(f"qualifier {q}, {duration} ms", chart, [(ms, {}) for ms in (1, 2, 99, 100, 101)], activity=list(at.values()),
             stored=list(at.values()) if q == DS else [{}] * 6, latched=[{0} if q in (SD, SL) else {}] * 6)
        for ms in at:
            show(f"qualifier {q}, {duration} ms, {ms} at once", chart, [(ms, {})], activity=[at[0], at[ms]])
# 3 and 4: all five on a step entered later (0 L, 1 D, 2 DS, 3 SD, 4 SL, 100 ms): the entering cycle's own time counts for none
FIVE = swing(5, *[block(1, k, q, 100) for k, q in enumerate((L, D, DS, SD, SL))])
show("timed qualifiers, the step entered, left and entered again", FIVE,
     [(100, {0}), (199, {}), (200, {}), (250, {1}), (300, {0}), (399, {}), (400, {})],
     activity=[{}, {0, 4}, {0, 4}, {1, 2, 3}, {2, 3}, {0, 2, 3}, {0, 2, 3}, {1, 2, 3}],
     counters=[{}, {}, {1: 99}, {1: 100}, {}, {}, {1: 99}, {1: 100}],
     timers=[{}] + [{3: ms, 4: ms} if ms else {} for ms in (0, 99, 100, 150, 200, 299, 300)])
# 4: "from the steps now active": L ends, and DS comes too late, in the cycle that leaves the step; the latches stay
show("timed qualifiers, the step left before the time", FIVE, [(10, {0}), (50, {1}), (109, {}), (110, {}), (150, {})],
     activity=[{}, {0, 4}, {4}, {4}, {3}, {3}], stored=[{}] * 6, latched=[{}] + [{3, 4}] * 5)
show("timed qualifiers, the step left at the time", FIVE, [(10, {0}), (109, {}), (110, {1}), (111, {})],
     activity=[{}, {0, 4}, {0, 4}, {3}, {3}], stored=[{}] * 5)
# 1: "one is never handed over for the other": SD by the timer (100 at 100 ms), D by the counter (100 at 160 ms)
show("counter and timer apart", swing(2, block(0, 0, SD, 100), block(1, 1, D, 100)),
     [(60, {0}), (99, {}), (100, {}), (159, {}), (160, {})], activity=[{}, {}, {}, {0}, {0}, {0, 1}],
     counters=[{}, {}, {1: 39}, {1: 40}, {1: 99}, {1: 100}], timers=[{}, {0: 60}, {0: 99}, {0: 100}, {0: 159}, {0: 160}])
show("two timed actions, two durations, two timers", swing(2, block(0, 1, SL, 50), block(1, 0, SL, 20)),
     [(15, {0}), (34, {}), (35, {}), (49, {}), (50, {})], activity=[{1}, {0, 1}, {0, 1}, {1}, {1}, {}],
     timers=[{}, {1: 15}, {0: 19, 1: 34}, {0: 20, 1: 35}, {0: 34, 1: 49}, {0: 35, 1: 50}])
# "Restarting SL when its step is entered again: only a reset clears the latch"
AGAIN = [(10, {0}), (50, {1}), (90, {0}), (109, {}), (110, {}), (200, {1}), (300, {0})]
RUNS_ON = [{}, {}, {0: 40}, {0: 80}, {0: 99}, {0: 100}, {0: 190}, {0: 290}]
show("SL entered again", swing(1, block(1, 0, SL, 100)), AGAIN, activity=[{}] + [{0}] * 4 + [{}] * 3, timers=RUNS_ON)
show("SD entered again", swing(1, block(1, 0, SD, 100)), AGAIN, activity=[{}] * 5 + [{0}] * 3, timers=RUNS_ON)
# 4: "With reset, stored and latch are cleared and the timer is 0"; "a fresh latch has timer 0"
RESET = [(10, {0}), (60, {1}), (65, {}), (70, {0}), (169, {}), (170, {})]
FRESH = dict(latched=[{}, {0}, {}, {}, {0}, {0}, {0}], timers=[{}, {}, {}, {}, {}, {0: 99}, {0: 100}])
show("SL latched afresh", swing(1, block(1, 0, SL, 100), block(0, 0, R)), RESET,
     activity=[{}, {0}, {}, {}, {0}, {0}, {}], **FRESH)
show("SD latched afresh", swing(1, block(1, 0, SD, 100), block(0, 0, R)), RESET,
     activity=[{}, {}, {}, {}, {}, {}, {0}], **FRESH)
# the latching step 0 stays active while R comes (step 2) and goes (step 1)
show("reset while latched",
     steps(3, [0, 1]) + actions(1) + transition([1], [2], on=[0]) + transition([2], [1], on=[1])
     + block(0, 0, SL, 100) + block(2, 0, R) + END,
     [(50, {}), (60, {0}), (80, {}), (90, {1}), (189, {}), (190, {})], activity=[{0}, {0}, {}, {}, {0}, {0}, {}],
     latched=[{0}, {0}, {}, {}, {0}, {0}, {0}], timers=[{}, {0: 50}, {}, {}, {}, {0: 99}, {0: 100}])

# 5: "an active step has an N block"; 4: S and DS set stored, which stays until R
GO = [(1, {0}), (2, {}), (3, {1}), (4, {})]
show("N", swing(1, block(1, 0, N)), GO, activity=[{}, {0}, {0}, {}, {}], stored=[{}] * 5)
show("S stays when its step is left", swing(1, block(1, 0, S)), GO,
     activity=[{}] + [{0}] * 4, stored=[{}] + [{0}] * 4, outputs=[{}] + [{0: 10}] * 4)
show("S, then R, then neither", path(1, block(0, 0, S), block(1, 0, R)), [(1, {}), (2, {0}), (3, {1})],
     activity=[{0}, {0}, {}, {}], stored=[{0}, {0}, {}, {}])
show("R alone", swing(1, block(0, 0, R)), [(1, {})], activity=[{}, {}], stored=[{}, {}], latched=[{}, {}])
show("R is over as its step is left", swing(1, block(0, 0, R), block(1, 0, S)), [(1, {0}), (2, {1})],
     activity=[{}, {0}, {}], stored=[{}, {0}, {}])
show("DS stays when its step is left", swing(1, block(1, 0, DS, 100)),
     [(10, {0}), (109, {}), (110, {}), (120, {1}), (130, {0})],
     activity=[{}, {}, {}, {0}, {0}, {0}], stored=[{}, {}, {}, {0}, {0}, {0}])
show("DS, then R", path(1, block(1, 0, DS, 5), block(2, 0, R)), [(10, {0}), (15, {}), (20, {1})],
     activity=[{}, {}, {0}, {}], stored=[{}, {}, {0}, {}])
# 5: P1 "and the step was entered", P0 "and the step was left"; document 02, request (ii): "P is now active only in the call that enters the
# step, like P1"; start: "active and entered, none left"
PULSES = swing(6, block(0, 0, P), block(0, 1, P1), block(0, 2, P0), block(1, 3, P), block(1, 4, P1), block(1, 5, P0))
show("pulses", PULSES, [(10, {}), (20, {0}), (30, {}), (30, {}), (40, {1}), (50, {})],
     activity=[{0, 1}, {}, {2, 3, 4}, {}, {}, {0, 1, 5}, {}])
show("pulses in one call after the other", PULSES, [(10, {0}), (20, {1}), (30, {0})],
     activity=[{0, 1}, {2, 3, 4}, {0, 1, 5}, {2, 3, 4}])
show("pulses around a refused cycle", PULSES, [(60_001, {0}), (5, {})], code=[0, 11, 0], activity=[{0, 1}, {0, 1}, {}])
# 5: "A reset action is inactive", whatever drives it; "Letting S win over R in one cycle"
# Action q has qualifier q on step 0; step 1 resets them all, at start beside step 0 and at 20 ms as step 0 is left.
AGAINST_R = [block(0, q, q, 100 if q in (L, SL) else 0) for q in range(11) if q != R] + [block(1, q, R) for q in range(11)]
show("each qualifier against R",
     steps(3, [0, 1]) + actions(11) + transition([1], [2], on=[0]) + transition([0], [1], on=[1]) + b"".join(AGAINST_R) + END,
     [(10, {0}), (20, {1})], taken=[{}, {0}, {1}], activity=[{}, {N, S, L, D, SD, DS, SL}, {}],
     stored=[{}, {S, DS}, {}], latched=[{}, {SD, SL}, {}], timers=[{}, {}, {}])
show("S and R for one action in one cycle",
     steps(4, [0, 2]) + actions(1) + THERE + transition([2], [3], on=[1]) + block(1, 0, S) + block(2, 0, R) + END,
     [(1, {0}), (2, {1})], activity=[{}, {}, {0}], stored=[{}, {}, {0}])
show("S and R on one step, R first", swing(2, block(1, 0, R), block(1, 0, S), block(1, 1, S)), [(1, {0})],
     activity=[{}, {1}], stored=[{}, {1}])
# 4 and 5: "some active step": an action driven by two blocks
show("N on two steps", swing(1, block(0, 0, N), block(1, 0, N)), [(1, {0}), (2, {1})], activity=[{0}, {0}, {0}])
show("L and N", swing(1, block(0, 0, L, 9), block(1, 0, N)), [(9, {}), (20, {0}), (30, {1})], activity=[{0}, {}, {0}, {0}])
show("SL and S: R clears both", path(1, block(0, 0, SL, 10), block(1, 0, S), block(2, 0, R)), [(10, {}), (20, {0}), (30, {1})],
     activity=[{0}, {}, {0}, {}], stored=[{}, {}, {0}, {}], latched=[{0}, {0}, {0}, {}], timers=[{}, {0: 10}, {0: 20}, {}])
show("an action without blocks", swing(1), [(1, {0})], activity=[{}, {}])

# 6: "Each output gets the value of its first active action in the table, else 0"; the blocks stand in the other order
SHARED = steps(3) + action(3, 111) + action(3, -222) + THERE + ON
show("two actions on one output", SHARED + block(0, 1, N) + block(0, 0, N) + block(1, 1, N) + END, [(1, {0}), (2, {1})],
     activity=[{0, 1}, {1}, {}], outputs=[{3: 111}, {3: -222}, {}])
show("an action that loses its output stays stored", SHARED + block(0, 1, S) + block(1, 0, N) + END, [(1, {0}), (2, {1})],
     stored=[{1}, {1}, {1}], activity=[{1}, {0, 1}, {1}], outputs=[{3: -222}, {3: 111}, {3: -222}])
show("R resets the action, not the output", SHARED + block(0, 0, S) + block(1, 0, R) + block(1, 1, N) + END, [(1, {0})],
     activity=[{0}, {1}], outputs=[{3: 111}, {3: -222}])
show("the first active action has value 0", steps(1) + action(0, 0) + action(0, 5) + block(0, 0, P1) + block(0, 1, N) + END,
     [(1, {})], activity=[{0, 1}, {1}], outputs=[{}, {0: 5}])
EXTREME = {31: -(2**31), 0: 2**31 - 1, 16: -1, 15: 1}
show("extreme values", steps(2) + b"".join(action(k, v) for k, v in EXTREME.items()) + THERE + BACK
     + b"".join(block(1, k, N) for k in range(4)) + END, [(1, {0}), (2, {1})], outputs=[{}, EXTREME, {}])

# "A chart has 1 to 64 steps, 0 to 32 actions, 0 to 64 transitions, 0 to 256 blocks and 0 to 64 cases": full charts.
# A ring of 64 steps on inputs 0..31 twice over, from step 63. Block 255 alone drives action 31. Step k < 63 drives k, k + 1,
# k + 2 and k + 3 modulo 31, because 63 is 1 modulo 31; so k - 32 is inactive when step k is left, and cases 32..62 are bad.
show("a full chart, each step in turn",
     steps(64, [63]) + actions(32) + b"".join(transition([k], [(k + 1) % 64], on=[k % 32]) for k in range(64))
     + b"".join(block(k % 63, k % 31, N) for k in range(255)) + block(63, 31, N)
     + b"".join(case(k, k, 1) for k in range(64)) + END,
     [(10 * k, {(k - 2) % 32}) for k in range(1, 66)], {
         0: dict(active={63}, activity={31}, outputs={31: 41}),
         **{k + 2: dict(taken={k}, active={k + 1}) for k in range(62)},
         1: dict(taken={63}, active={0}, activity={0, 1, 2, 3, 4}, good={63}, bad={}),
         64: dict(taken={62}, active={63}, activity={31}, good={*range(32), 63}, bad=range(32, 63), outputs={31: 41}),
         65: dict(taken={63}, active={0}, activity={0, 1, 2, 3, 4}, good={*range(32), 63}, bad=range(32, 63))})
# Even steps, then odd ones, then even ones. Step k has N, S, P1 and P0 blocks for action k // 2: all 32 are always active.
EVEN, ODD, ALL, WIDE = range(0, 64, 2), range(1, 64, 2), range(32), {31 - k: k - 2**31 for k in range(32)}
show("a full chart, 32 steps at once",
     steps(64, EVEN) + b"".join(action(31 - k, k - 2**31) for k in range(32))
     + b"".join(transition([k], [(k + 1) % 64], wait=10) for k in range(64))
     + b"".join(block(k // 4, k // 8, (N, S, P1, P0)[k % 4]) for k in range(256))
     + b"".join(case(k, 32 + k // 2, 1) for k in range(64)) + END,
     [(10, {}), (19, {}), (20, {})], taken=[{}, EVEN, {}, ODD], active=[EVEN, ODD, ODD, EVEN],
     activity=[ALL] * 4, stored=[ALL] * 4, good=[{}, EVEN, EVEN, range(64)], bad=[{}] * 4, outputs=[WIDE] * 4,
     counters=[{}, {}, {k: 9 for k in ODD}, {}])
show("64 initial steps", net(64, range(64)), [(3, {})], active=[range(64)] * 2, counters=[{}, {k: 3 for k in range(64)}])
RIVALS = steps(2) + THERE * 63 + transition([0], [1], on=[1]) + END
show("the last of 64 rivals", RIVALS, [(1, {1})], taken=[{}, {63}])
show("the first of 64 rivals", RIVALS, [(1, {0, 1})], taken=[{}, {0}])
show("R is the last of 256 blocks", steps(1) + actions(32) + block(0, 31, S) * 255 + block(0, 31, R) + END, [(1, {})],
     activity=[{}, {}], stored=[{}, {}])
for q, before, after in ((L, {31}, {}), (D, {}, {31}), (DS, {}, {31}), (SD, {}, {31}), (SL, {31}, {})):
    show(f"qualifier {q} is the last of 256 blocks",
         steps(64, [63]) + actions(32) + block(0, 0, N) * 255 + block(63, 31, q, 100) + END, [(99, {}), (100, {})],
         activity=[before, before, after], counters=[{}, {63: 99}, {63: 100}])

# Document 02, request (vi), each reason by itself: 1 a source not active, 2 used by an earlier one, 3 a signal, 4 a wait, 5 a target occupied,
# 6 claimed by an earlier one; none of a start, of a refused cycle, and of what is taken
show("reasons of chart A", CHART_A, [(10, {0}), (509, {1}), (61_000, {1}), (510, {1})], reasons=[{}, {1: 1}, {0: 1, 1: 4}, {}, {0: 1}], start=1000)
show("reason 2", net(3, [0], ([0], [1]), ([0], [2])), [(1, {})], taken=[{}, {0}], reasons=[{}, {1: 2}])
show("reason 3, on and off", net(2, [0], ([0], [1], [0]), ([0], [1], (), [1])), [(1, {1})], reasons=[{}, {0: 3, 1: 3}])
show("reason 5", net(2, [0, 1], ([0], [1])), [(1, {})], reasons=[{}, {0: 5}])
show("reason 5 of a target that is left", net(3, [0, 1], ([1], [2]), ([0], [1])), [(1, {})], taken=[{}, {0}], reasons=[{}, {1: 5}])
show("reason 6", net(3, [0, 1], ([0], [2]), ([1], [2])), [(1, {})], taken=[{}, {0}], reasons=[{}, {1: 6}])
# and of two that hold the first in this order; a transition that waits uses and claims nothing
show("1 before 2", net(4, [0], ([0], [1]), ([0, 2], [3])), [(1, {})], reasons=[{}, {1: 1}])
show("2 before 3", net(3, [0], ([0], [1]), ([0], [2], [0])), [(1, {})], reasons=[{}, {1: 2}])
show("3 before 4", net(2, [0], ([0], [1], [0], (), 5)), [(4, {}), (4, {0}), (5, {}), (5, {0})], reasons=[{}, {0: 3}, {0: 4}, {0: 3}, {}])
show("4 before 5", net(2, [0, 1], ([0], [1], (), (), 5)), [(4, {}), (5, {})], reasons=[{}, {0: 4}, {0: 5}])
show("5 before 6", net(4, [0, 1, 3], ([0], [2]), ([1], [2, 3])), [(1, {})], reasons=[{}, {1: 5}])
show("a rival that waits", net(3, [0, 1], ([0], [2], [0]), ([0], [2]), ([1], [2])), [(1, {})], taken=[{}, {1}], reasons=[{}, {0: 3, 2: 6}])
show("64 reasons", RIVALS, [(1, {}), (2, {1})], reasons=[{}, {k: 3 for k in range(64)}, {k: 3 for k in range(63)}])

# Document 02, request (vii): "In a cycle under hold no transition is taken and step counters stand still, while action timers run on." The key has
# no clock: a cycle that finds the mark set is under hold with all its elapsed time. First a wait: the 140 ms under hold do not count for it.
WAIT_100, TOLD_100 = net(2, [0], ([0], [1], (), (), 100)), net(2, [0], ([0], [1], [0], (), 100))
show("hold in the middle of a wait", WAIT_100, [(60, {}), HOLD, (90, {}), (200, {}), RELEASE, (239, {}), (240, {})],
     taken=[{}] * 7 + [{0}], hold=[0, 0, 1, 1, 1, 0, 0, 0], clock=[5000, 5060, 5060, 5090, 5200, 5200, 5239, 5240],
     counters=[{}] + [{0: 60}] * 5 + [{0: 99}, {}], reasons=[{}, {0: 4}, {}, {0: 7}, {0: 7}, {}, {0: 4}, {}])
show("hold one ms before the wait", TOLD_100, [(99, {0}), HOLD, (5000, {0}), RELEASE, (5000, {0}), (5001, {0})], taken=[{}] * 6 + [{0}],
     counters=[{}] + [{0: 99}] * 5 + [{}], reasons=[{}, {0: 4}, {}, {0: 7}, {}, {0: 4}, {}])
show("hold as the wait is over", TOLD_100, [(100, {}), HOLD, (100, {0}), (110, {0}), RELEASE, (110, {0})], taken=[{}] * 6 + [{0}],
     counters=[{}] + [{0: 100}] * 5 + [{}], reasons=[{}, {0: 3}, {}, {0: 7}, {0: 7}, {}, {}])
show("hold, two sources with different counters", net(4, [0, 1], ([1], [2], [0]), ([0, 2], [3], [], [], 100)),
     [(50, {0}), HOLD, (500, {}), RELEASE, (549, {}), (599, {}), (600, {})], taken=[{}, {0}, {}, {}, {}, {}, {}, {1}],
     counters=[{}] + [{0: 50}] * 4 + [{0: 99, 2: 49}, {0: 149, 2: 99}, {}])
show("64 counters stand", net(64, range(64)), [(3, {}), HOLD, (9, {}), RELEASE, (10, {})],
     counters=[{}] + [{k: 3 for k in range(64)}] * 4 + [{k: 4 for k in range(64)}])
show("32 timers run on", steps(1) + actions(32) + b"".join(block(0, k, SL, 9) for k in range(32)) + END, [(3, {}), HOLD, (8, {}), (9, {})],
     timers=[{}] + [{k: ms for k in range(32)} for ms in (3, 3, 8, 9)], activity=[ALL] * 4 + [{}])
# L, D and DS go by the counter that stands: at 50, below the duration, and then at 100. SD and SL go by the timer that runs on.
for q, before, after in ((L, {0}, {}), (D, {}, {0}), (DS, {}, {0})):
    show(f"hold in the middle of qualifier {q}", steps(1) + actions(1) + block(0, 0, q, 100) + END,
         [(50, {}), HOLD, (99, {}), (100, {}), (1000, {}), RELEASE, (1049, {}), (1050, {}), HOLD, (1100, {})],
         activity=[before] * 8 + [after] * 3, stored=([{}] * 8 + [{0}] * 3) if q == DS else [{}] * 11,
         counters=[{}] + [{0: 50}] * 6 + [{0: 99}] + [{0: 100}] * 3)
for q, before, after in ((SD, {}, {0}), (SL, {0}, {})):
    chart = steps(1) + actions(1) + block(0, 0, q, 100) + END
    show(f"hold in the middle of qualifier {q}, whose time ends under it", chart, [(50, {}), HOLD, (99, {}), (100, {}), RELEASE, (110, {})],
         activity=[before] * 4 + [after] * 3, latched=[{0}] * 7, counters=[{}] + [{0: 50}] * 5 + [{0: 60}],
         timers=[{}, {0: 50}, {0: 50}, {0: 99}, {0: 100}, {0: 100}, {0: 110}])
    show(f"hold in the middle of qualifier {q}, whose time ends after it", chart, [(50, {}), HOLD, (80, {}), RELEASE, (99, {}), (100, {})],
         activity=[before] * 6 + [after], counters=[{}] + [{0: 50}] * 4 + [{0: 69}, {0: 70}],
         timers=[{}, {0: 50}, {0: 50}, {0: 80}, {0: 80}, {0: 99}, {0: 100}])
show("hold in the middle of all five", FIVE, [(10, {0}), (59, {}), HOLD, (109, {}), (110, {}), RELEASE, (160, {}), (161, {})],
     activity=[{}] + [{0, 4}] * 4 + [{0, 3}] * 3 + [{1, 2, 3}], stored=[{}] * 8 + [{2}],
     counters=[{}, {}] + [{1: 49}] * 5 + [{1: 99}, {1: 100}],
     timers=[{}, {}] + [{3: ms, 4: ms} for ms in (49, 49, 99, 100, 100, 150, 151)])
show("a latch whose step was left runs on under hold", swing(1, block(0, 0, SD, 100)),
     [(10, {0}), HOLD, (99, {1}), (100, {1}), RELEASE, (101, {1})], active=[{0}] + [{1}] * 5 + [{0}],
     activity=[{}] * 4 + [{0}] * 3, outputs=[{}] * 4 + [{0: 10}] * 3, timers=[{}, {0: 10}, {0: 10}, {0: 99}, {0: 100}, {0: 100}, {0: 101}])
show("an output changes under hold", SHARED + block(0, 0, SL, 100) + block(0, 1, N) + END, [HOLD, (99, {0}), (100, {0})],
     activity=[{0, 1}, {0, 1}, {0, 1}, {1}], outputs=[{3: 111}, {3: 111}, {3: 111}, {3: -222}])
# "Actions and outputs are worked out as usual": S sets and R resets again, S not where R does; a latch that R clears stays clear.
# held_calls.py has runs in which what they set and reset was not so before.
show("S and R under hold",
     steps(2, [0, 1]) + actions(3) + block(0, 0, S) + block(0, 1, S) + block(0, 2, SL, 100) + block(1, 1, R) + block(1, 2, R) + END,
     [HOLD, (10, {}), RELEASE, (20, {})], activity=[{0}] * 5, stored=[{0}] * 5, latched=[{}] * 5, timers=[{}] * 5, outputs=[{0: 10}] * 5)
show("S, hold, then R and hold", path(1, block(0, 0, S), block(1, 0, R)), [HOLD, (5, {0}), RELEASE, (6, {0}), HOLD, (7, {1})],
     taken=[{}, {}, {}, {}, {0}, {}, {}], activity=[{0}] * 4 + [{}] * 3, stored=[{0}] * 4 + [{}] * 3)
show("reset under hold, latched afresh behind it",
     steps(3, [0, 1]) + actions(1) + transition([1], [2], on=[0]) + transition([2], [1], on=[1]) + block(0, 0, SL, 100) + block(2, 0, R) + END,
     [(50, {}), (60, {0}), HOLD, (80, {1}), RELEASE, (90, {1}), (189, {}), (190, {})],
     activity=[{0}, {0}, {}, {}, {}, {}, {0}, {0}, {}], latched=[{0}, {0}, {}, {}, {}, {}, {0}, {0}, {0}],
     timers=[{}, {0: 50}, {}, {}, {}, {}, {}, {0: 99}, {0: 100}])
# "with nothing entered or left": a pulse lasts one call, and none begins; a turn of the key leaves activity and outputs as they are
show("pulses and hold", PULSES, [HOLD, (10, {0}), (20, {0}), RELEASE, (30, {0}), HOLD, (40, {1}), RELEASE, (40, {1}), (50, {})],
     taken=[{}] * 5 + [{0}] + [{}] * 3 + [{1}, {}], active=[{0}] * 5 + [{1}] * 4 + [{0}] * 2,
     activity=[{0, 1}, {0, 1}, {}, {}, {}, {2, 3, 4}, {2, 3, 4}, {}, {}, {0, 1, 5}, {}],
     outputs=[{0: 10, 1: 11}] * 2 + [{}] * 3 + [{2: 12, 3: 13, 4: 14}] * 2 + [{}] * 2 + [{0: 10, 1: 11, 5: 15}, {}])
ON_PULSE = steps(2) + actions(1) + transition([0], [1], on=[32]) + block(0, 0, P1) + END
show("an activity through the key", ON_PULSE, [HOLD, RELEASE, (5, {})], taken=[{}, {}, {}, {0}], activity=[{0}, {0}, {0}, {}])
show("an activity that ended under hold", ON_PULSE, [HOLD, (5, {}), RELEASE, (6, {})], taken=[{}] * 5, activity=[{0}, {0}, {}, {}, {}],
     reasons=[{}, {}, {0: 7}, {}, {0: 3}])
# a case is compared as its step is left, after the release, with the signal of that cycle
show("a case under hold, bad after it", INPUT_5, [(10, {0}), HOLD, (20, {1, 5}), RELEASE, (30, {1})],
     taken=[{}, {0}, {}, {}, {}, {1}], good=[{}] * 6, bad=[{}] * 5 + [{0}])
show("a case under hold, good after it", INPUT_5, [(10, {0}), HOLD, (20, {1}), RELEASE, (30, {1, 5})],
     taken=[{}, {0}, {}, {}, {}, {1}], good=[{}] * 5 + [{0}], bad=[{}] * 6)
show("what hold kept is not made up for", net(4, [0], ([0], [1]), ([1], [2]), ([2], [3])),
     [HOLD, (1, {}), (2, {}), (3, {}), RELEASE, (4, {}), (5, {})], taken=[{}] * 6 + [{0}, {1}],
     active=[{0}] * 6 + [{1}, {2}])
# 11 as in any cycle: the run, held, is as it was, and so are the outputs; its reasons are 0
show("refused cycles under hold, and the run goes on", net(2, [0], ([0], [1])),
     [HOLD, (60_001, {}), (-1, {}), (60_000, {}), (59_999, {}), RELEASE, (120_001, {}), (120_000, {})],
     code=[0, 0, 11, 11, 0, 11, 0, 11, 0], hold=[0] + [1] * 5 + [0] * 3, clock=[5000] * 4 + [65_000] * 4 + [125_000],
     counters=[{}] * 9, taken=[{}] * 8 + [{0}], reasons=[{}] * 4 + [{0: 7}] + [{}] * 4)
KEPT_HELD = {**KEPT, "hold": 1, "reasons": {}}
show("a refused cycle under hold takes, marks and writes nothing", swing(2, block(0, 0, SD, 9), block(1, 1, N), case(1, 1, 1)),
     [(10, {0}), HOLD, (70_000, {1}), (9, {1}), (11, {1})], {
         1: {**KEPT, "code": 0, "taken": {0}, "hold": 0}, 2: {**KEPT_HELD, "code": 0}, 3: KEPT_HELD, 4: KEPT_HELD,
         5: dict(code=0, taken={}, clock=5011, active={1}, activity={0, 1}, good={}, bad={}, hold=1, counters={}, timers={0: 11},
                 outputs={0: 10, 1: 11}, reasons={0: 7, 1: 7})})
# the clock is kept as usual, over its turn too
show("hold as the clock turns", steps(1) + actions(1) + block(0, 0, SL, 500) + END, [HOLD, (496, {}), (500, {}), RELEASE, (503, {})],
     clock=[TURN, TURN, 200, 204, 204, 207], counters=[{}] * 5 + [{0: 3}], activity=[{0}] * 3 + [{}] * 3,
     timers=[{}, {}, {0: 496}, {0: 500}, {0: 500}, {0: 503}], start=TURN)
show("hold and the limit over the turn", ALONE, [HOLD, (60_001, {}), (60_000, {}), RELEASE, (60_001, {})], code=[0, 0, 11, 0, 0, 0],
     clock=[TURN, TURN, TURN, 59_704, 59_704, 59_705], counters=[{}] * 5 + [{0: 1}], start=TURN)
# the mark is set or not: it does not count turns
show("held twice, released once", WAIT_100, [HOLD, (40, {}), HOLD, HOLD, (50, {}), RELEASE, (149, {}), (150, {})],
     code=[0] * 9, hold=[0, 1, 1, 1, 1, 1, 0, 0, 0], counters=[{}] * 7 + [{0: 99}, {}], taken=[{}] * 8 + [{0}])
show("released without hold", WAIT_100, [RELEASE, (40, {}), RELEASE, (99, {}), RELEASE, RELEASE, (100, {})],
     code=[0] * 8, hold=[0] * 8, counters=[{}, {}, {0: 40}, {0: 40}, {0: 99}, {0: 99}, {0: 99}, {}], taken=[{}] * 7 + [{0}])
show("held and released between two cycles", WAIT_100, [(40, {}), HOLD, RELEASE, (99, {}), HOLD, HOLD, RELEASE, (100, {})],
     hold=[0, 0, 1, 0, 0, 1, 1, 0, 0], counters=[{}] + [{0: 40}] * 3 + [{0: 99}] * 4 + [{}], taken=[{}] * 8 + [{0}])
# "reason 7 of request (vi) is "hold" and comes first": before each other one, and where there is none; beyond the last transition it is 0
show("7 before all reasons",
     net(7, [0, 1, 4], ([0], [2]), ([5], [6]), ([0], [3]), ([1], [3], [0]), ([1], [3], (), (), 100), ([1], [4]), ([1], [2])),
     [HOLD, (10, {}), RELEASE, (20, {})], taken=[{}] * 4 + [{0}],
     reasons=[{}, {}, {k: 7 for k in range(7)}, {}, {k: k for k in range(1, 7)}])
show("reasons of chart A and hold", CHART_A, [(10, {0}), HOLD, (509, {1}), (510, {1}), (61_000, {1}), RELEASE, (1009, {1}), (1010, {1})],
     code=[0] * 5 + [11] + [0] * 3, taken=[{}, {0}] + [{}] * 6 + [{1}], activity=[{}] + [{0, 1}] * 7 + [{}], good=[{}] * 8 + [{0}],
     reasons=[{}, {1: 1}, {}, {0: 7, 1: 7}, {0: 7, 1: 7}, {}, {}, {0: 1, 1: 4}, {0: 1}], start=1000)
show("no transition, and hold", steps(1) + actions(1) + block(0, 0, N) + END, [HOLD, (10, {}), RELEASE, (20, {})],
     code=[0] * 5, taken=[{}] * 5, activity=[{0}] * 5, reasons=[{}] * 5, clock=[5000, 5000, 5010, 5010, 5020], counters=[{}] * 4 + [{0: 10}])
# start: "all else 0", whatever run lay there before: the driver starts the second of these where the first, held, lies
show("64 reasons under hold", RIVALS, [HOLD, (1, {1}), (2, {0, 1})], hold=[0, 1, 1, 1], taken=[{}] * 4,
     reasons=[{}, {}, {k: 7 for k in range(64)}, {k: 7 for k in range(64)}])
show("a start behind a held run", RIVALS, [(1, {1})], hold=[0, 0], taken=[{}, {63}])

# Document 02, request (viii): "targets are not tested, and a step both left and entered stays active". Two active steps that lead into each other:
# edition 1 takes neither transition; edition 2 both, and each step is left and entered, so that its counter is 0.
SWAP = net(2, [0, 1], ([0], [1]), ([1], [0]))
show("two steps that lead into each other, edition 1", SWAP, [(10, {}), (25, {})], taken=[{}] * 3, active=[{0, 1}] * 3,
     counters=[{}, {0: 10, 1: 10}, {0: 25, 1: 25}], reasons=[{}, {0: 5, 1: 5}, {0: 5, 1: 5}])
show("two steps that lead into each other, edition 2", second(SWAP), [(10, {}), (25, {})], taken=[{}, {0, 1}, {0, 1}], active=[{0, 1}] * 3,
     counters=[{}] * 3, reasons=[{}] * 3)
# with input 0 only, so that time goes by in between
TOLD_SWAP = ([0], [1], [0]), ([1], [0], [0])
show("a swap that is told", second(net(2, [0, 1], *TOLD_SWAP)), [(10, {}), (25, {0}), (31, {})], taken=[{}, {}, {0, 1}, {}],
     active=[{0, 1}] * 4, counters=[{}, {0: 10, 1: 10}, {}, {0: 6, 1: 6}], reasons=[{}, {0: 3, 1: 3}, {}, {0: 3, 1: 3}])
show("a swap that is told, edition 1", net(2, [0, 1], *TOLD_SWAP), [(10, {}), (25, {0}), (31, {})], taken=[{}] * 4,
     counters=[{}, {0: 10, 1: 10}, {0: 25, 1: 25}, {0: 31, 1: 31}], reasons=[{}, {0: 3, 1: 3}, {0: 5, 1: 5}, {0: 3, 1: 3}])
# A step left and entered: P0 acts as it was left, P and P1 as it was entered, in one call; N goes on; its cases are marked; L and D begin anew, with
# the counter, and end 50 ms after the call at 60. Actions 0 to 5 are on step 0 (P, P1, P0, N, L, D), 6 to 8 on step 1 (P, P1, P0).
BOTH_EDGES = swapped(*[block(0, k, q, 50 if q in (L, D) else 0) for k, q in enumerate((P, P1, P0, N, L, D))],
                     *[block(1, 6 + k, q) for k, q in enumerate((P, P1, P0))], case(0, 0, 1), case(1, 0, 0))
EDGE_CALLS = [(49, {}), (50, {}), (60, {0}), (61, {}), (109, {}), (110, {})]
show("a step left and entered", second(BOTH_EDGES), EDGE_CALLS, taken=[{}] * 3 + [{0, 1}] + [{}] * 3, active=[{0, 1}] * 7,
     activity=[{0, 1, 3, 4, 6, 7}, {3, 4}, {3, 5}, {0, 1, 2, 3, 4, 6, 7, 8}, {3, 4}, {3, 4}, {3, 5}],
     counters=[{}, {0: 49, 1: 49}, {0: 50, 1: 50}, {}, {0: 1, 1: 1}, {0: 49, 1: 49}, {0: 50, 1: 50}],
     good=[{}] * 3 + [{0}] * 4, bad=[{}] * 3 + [{1}] * 4, outputs=[{k: 10 + k for k in active} for active in (
         (0, 1, 3, 4, 6, 7), (3, 4), (3, 5), (0, 1, 2, 3, 4, 6, 7, 8), (3, 4), (3, 4), (3, 5))])
show("a step neither left nor entered, edition 1", BOTH_EDGES, EDGE_CALLS, taken=[{}] * 7, active=[{0, 1}] * 7,
     activity=[{0, 1, 3, 4, 6, 7}, {3, 4}, {3, 5}, {3, 5}, {3, 5}, {3, 5}, {3, 5}], good=[{}] * 7, bad=[{}] * 7,
     counters=[{}] + [{0: ms, 1: ms} for ms in (49, 50, 60, 61, 109, 110)])
# twice in one call after the other: each call leaves and enters it
show("a step left and entered twice", second(BOTH_EDGES), [(10, {0}), (20, {0}), (30, {})],
     activity=[{0, 1, 3, 4, 6, 7}, {0, 1, 2, 3, 4, 6, 7, 8}, {0, 1, 2, 3, 4, 6, 7, 8}, {3, 4}], counters=[{}] * 3 + [{0: 10, 1: 10}],
     good=[{}, {0}, {0}, {0}], bad=[{}, {1}, {1}, {1}])
# .. DS goes by the counter that began anew; SL and SD by the timer, which "only a reset" begins anew; R holds on, and S too
show("a step left and entered, DS", second(swapped(block(0, 0, DS, 100))), [(60, {0}), (100, {}), (159, {}), (160, {})],
     stored=[{}] * 4 + [{0}], activity=[{}] * 4 + [{0}], counters=[{}, {}] + [{0: ms, 1: ms} for ms in (40, 99, 100)])
show("a step left and entered, SL and SD", second(swapped(block(0, 0, SL, 100), block(1, 1, SD, 100))), [(60, {0}), (99, {}), (100, {}), (101, {0})],
     latched=[{0, 1}] * 5, activity=[{0}] * 3 + [{1}] * 2, timers=[{}] + [{0: ms, 1: ms} for ms in (60, 99, 100, 101)],
     counters=[{}, {}, {0: 39, 1: 39}, {0: 40, 1: 40}, {}])
show("a step left and entered, S and R", second(swapped(block(0, 0, S), block(1, 1, S), block(0, 1, R))), [(60, {0}), (61, {})],
     stored=[{0}] * 3, activity=[{0}] * 3)
# .. and the wait of a transition from it begins anew: transition 2 finds its source used at 60, and 100 ms later it is taken. Step 0 counts on.
show("the wait of a step left and entered", second(net(3, [0, 1], *TOLD_SWAP, ([1], [2], (), (), 100))),
     [(60, {0}), (100, {}), (159, {}), (160, {})], taken=[{}, {0, 1}, {}, {}, {2}], active=[{0, 1}] * 4 + [{0, 2}],
     counters=[{}, {}, {0: 40, 1: 40}, {0: 99, 1: 99}, {0: 100}],
     reasons=[{}, {2: 2}, {0: 3, 1: 3, 2: 4}, {0: 3, 1: 3, 2: 4}, {0: 3, 1: 3}])

# "a step counts as entered if it is a target and was inactive or left; then its counter is 0, otherwise it runs on": a target that is active and
# not left is not entered
INTO_ACTIVE = net(2, [0, 1], ([0], [1]))
show("a target that is active and not left", second(INTO_ACTIVE), [(10, {}), (20, {})], taken=[{}, {0}, {}], active=[{0, 1}, {1}, {1}],
     counters=[{}, {1: 10}, {1: 20}], reasons=[{}, {}, {0: 1}])
show("a target that is active and not left, edition 1", INTO_ACTIVE, [(10, {}), (20, {})], taken=[{}] * 3, active=[{0, 1}] * 3,
     counters=[{}, {0: 10, 1: 10}, {0: 20, 1: 20}], reasons=[{}, {0: 5}, {0: 5}])
# .. P, P1 and P0 do not act there, nor is its case marked; L, D and DS go by the counter that runs on. Case 1 is on step 0, which is left.
NOT_ENTERED = (steps(2, [0, 1]) + actions(6) + THERE + b"".join(block(1, k, q) for k, q in enumerate((P, P1, P0)))
               + b"".join(block(1, 3 + k, q, 50) for k, q in enumerate((L, D, DS))) + case(1, 0, 1) + case(0, 0, 1) + END)
show("nothing begins at a target that is active and not left", second(NOT_ENTERED), [(30, {0}), (49, {}), (50, {})], taken=[{}, {0}, {}, {}],
     active=[{0, 1}, {1}, {1}, {1}], activity=[{0, 1, 3}, {3}, {3}, {4, 5}], stored=[{}] * 3 + [{5}],
     counters=[{}, {1: 30}, {1: 49}, {1: 50}], good=[{}, {1}, {1}, {1}], bad=[{}] * 4)
# .. and a wait on it is over 100 ms after the start, whatever came in between
show("the wait of a target that is active and not left", second(net(3, [0, 1], ([0], [1], [0]), ([1], [2], (), (), 100))),
     [(60, {0}), (99, {}), (100, {})], taken=[{}, {0}, {}, {1}], active=[{0, 1}, {1}, {1}, {2}], counters=[{}, {1: 60}, {1: 99}, {}],
     reasons=[{}, {1: 4}, {0: 1, 1: 4}, {0: 1}])
show("a counter that runs on in the same cycle reaches the wait", second(net(3, [0, 1], ([0], [1], [0]), ([1], [2], (), (), 100))),
     [(100, {0})], taken=[{}, {0, 1}], active=[{0, 1}, {1, 2}], counters=[{}, {}])
# one target of a fork is active, the other not: P1 and P act at the one entered (actions 0 and 1), not at the other (2 and 3)
show("a fork into an active step and another",
     second(steps(3, [0, 2]) + actions(4) + transition([0], [1, 2], on=[0])
            + b"".join(block(1 + k // 2, k, (P1, P)[k % 2]) for k in range(4)) + END),
     [(7, {0}), (9, {})], taken=[{}, {0}, {}], active=[{0, 2}, {1, 2}, {1, 2}], activity=[{2, 3}, {0, 1}, {}],
     counters=[{}, {2: 7}, {1: 2, 2: 9}], reasons=[{}, {}, {0: 1}])
# a step that is entered where another stays, both targets of one transition, and one of them left by another transition
show("a fork into a step that is left and one that stays", second(net(4, [0, 1, 2], ([0], [1, 2]), ([1], [3]))), [(5, {}), (6, {})],
     taken=[{}, {0, 1}, {1}], active=[{0, 1, 2}, {1, 2, 3}, {2, 3}], counters=[{}, {2: 5}, {2: 6, 3: 1}], reasons=[{}, {}, {0: 1}])

# two transitions into one target: both are taken, and the step is entered once; where it was active and stays, not at all
INTO_ONE = [(10, {}), (20, {})]
show("two into one target", second(net(3, [0, 1], ([0], [2]), ([1], [2]))), INTO_ONE, taken=[{}, {0, 1}, {}], active=[{0, 1}, {2}, {2}],
     counters=[{}, {}, {2: 10}], reasons=[{}, {}, {0: 1, 1: 1}])
show("two into one active target", second(net(3, [0, 1, 2], ([0], [2]), ([1], [2]))), INTO_ONE, taken=[{}, {0, 1}, {}],
     active=[{0, 1, 2}, {2}, {2}], counters=[{}, {2: 10}, {2: 20}])
show("two into one target that is left", second(net(4, [0, 1, 2], ([0], [2]), ([1], [2]), ([2], [3]))), INTO_ONE, taken=[{}, {0, 1, 2}, {2}],
     active=[{0, 1, 2}, {2, 3}, {3}], counters=[{}, {}, {3: 10}])
show("two into targets of which they share one", second(net(5, [0, 1], ([0], [2, 3]), ([1], [3, 4]))), [(10, {})], taken=[{}, {0, 1}],
     active=[{0, 1}, {2, 3, 4}], counters=[{}, {}])
show("63 into one target", second(net(64, range(63), *[([k], [63]) for k in range(63)])), [(10, {}), (20, {})], taken=[{}, range(63), {}],
     active=[range(63), {63}, {63}], counters=[{}, {}, {63: 10}], reasons=[{}, {}, {k: 1 for k in range(63)}])
# "a target that is left" above, in edition 2: both at once, and in both orders of the two
show("a target that is left, edition 2", second(net(3, [0, 1], ([0], [1]), ([1], [2]))), [(10, {}), (20, {}), (30, {})],
     taken=[{}, {0, 1}, {1}, {}], active=[{0, 1}, {1, 2}, {2}, {2}], counters=[{}, {}, {2: 10}, {2: 20}], reasons=[{}, {}, {0: 1}, {0: 1, 1: 1}])
show("a target that an earlier one has left, edition 2", second(net(3, [0, 1], ([1], [2]), ([0], [1]))), [(10, {}), (20, {}), (30, {})],
     taken=[{}, {0, 1}, {0}, {}], active=[{0, 1}, {1, 2}, {2}, {2}], counters=[{}, {}, {2: 10}, {2: 20}], reasons=[{}, {}, {1: 1}, {0: 1, 1: 1}])

# sources as before: one that an earlier transition uses is 2, though it is entered again; one that becomes active is none at the cycle's beginning
show("a source used by an earlier one, edition 2", second(net(3, [0], ([0], [1]), ([0], [2]))), [(1, {})], taken=[{}, {0}], active=[{0}, {1}],
     reasons=[{}, {1: 2}])
show("a source that is used and entered again", second(net(3, [0, 1], *[([0], [1]), ([1], [0])] * 2, ([0], [2]))), [(4, {})],
     taken=[{}, {0, 1}], active=[{0, 1}] * 2, counters=[{}, {}], reasons=[{}, {2: 2, 3: 2, 4: 2}])
show("a source used beside one that is free", second(net(4, [0, 1, 2], ([0], [1]), ([0], [2]), ([1, 2], [0]))), [(1, {})],
     taken=[{}, {0, 2}], active=[{0, 1, 2}, {0, 1}], counters=[{}, {}], reasons=[{}, {1: 2}])
show("a target is no source in the same cycle, edition 2", second(net(3, [0, 2], ([0], [1]), ([1], [2]))), [(1, {}), (2, {}), (3, {})],
     taken=[{}, {0}, {1}, {}], active=[{0, 2}, {1, 2}, {2}, {2}], counters=[{}, {2: 1}, {2: 2}, {2: 3}], reasons=[{}, {1: 1}, {0: 1}, {0: 1, 1: 1}])
# the reasons that are left, in their order: where edition 1 says 5 or 6, edition 2 takes it
show("4, then taken", second(net(2, [0, 1], ([0], [1], (), (), 5))), [(4, {}), (5, {})], taken=[{}, {}, {0}], reasons=[{}, {0: 4}, {}],
     counters=[{}, {0: 4, 1: 4}, {1: 5}])
show("3, then 4, then taken", second(net(2, [0, 1], ([0], [1], [0], (), 5))), [(4, {}), (4, {0}), (5, {}), (5, {0})], taken=[{}] * 4 + [{0}],
     reasons=[{}, {0: 3}, {0: 4}, {0: 3}, {}])
show("a target active and another claimed, edition 2", second(net(4, [0, 1, 3], ([0], [2]), ([1], [2, 3]))), [(1, {})], taken=[{}, {0, 1}],
     active=[{0, 1, 3}, {2, 3}], counters=[{}, {3: 1}], reasons=[{}, {}])
# "reason 7 .. comes first", and then each reason of edition 2: what was 5 above is taken, so that its rival behind it has its source used
show("7 before all reasons, edition 2",
     second(net(7, [0, 1, 4], ([0], [2]), ([5], [6]), ([0], [3]), ([1], [3], [0]), ([1], [3], (), (), 100), ([1], [4]), ([1], [2]))),
     [HOLD, (10, {}), RELEASE, (20, {})], taken=[{}] * 4 + [{0, 5}], active=[{0, 1, 4}] * 4 + [{2, 4}], counters=[{}] * 4 + [{4: 10}],
     reasons=[{}, {}, {k: 7 for k in range(7)}, {}, {1: 1, 2: 2, 3: 3, 4: 4, 6: 2}])
# the key: nothing is left and entered while it is turned, and counters stand; no pulse, no mark
show("the key and a step left and entered", second(BOTH_EDGES), [(5, {}), HOLD, (10, {0}), RELEASE, (20, {0}), HOLD, (30, {0}), RELEASE, (40, {})],
     taken=[{}] * 5 + [{0, 1}] + [{}] * 4, active=[{0, 1}] * 10, hold=[0, 0, 1, 1, 0, 0, 1, 1, 0, 0],
     activity=[{0, 1, 3, 4, 6, 7}] + [{3, 4}] * 4 + [{0, 1, 2, 3, 4, 6, 7, 8}] * 2 + [{3, 4}] * 3,
     counters=[{}] + [{0: 5, 1: 5}] * 4 + [{}] * 4 + [{0: 10, 1: 10}], good=[{}] * 5 + [{0}] * 5, bad=[{}] * 5 + [{1}] * 5,
     reasons=[{}, {0: 3, 1: 3}, {}, {0: 7, 1: 7}, {}, {}, {}, {0: 7, 1: 7}, {}, {0: 3, 1: 3}])
show("the key and a target that is active and not left", second(net(2, [0, 1], ([0], [1], [0]))),
     [(5, {}), HOLD, (50, {0}), RELEASE, (60, {0}), (61, {0})],
     taken=[{}] * 5 + [{0}, {}], active=[{0, 1}] * 5 + [{1}] * 2, counters=[{}] + [{0: 5, 1: 5}] * 4 + [{1: 15}, {1: 16}],
     reasons=[{}, {0: 3}, {}, {0: 7}, {}, {}, {0: 1}])
# a refused cycle changes nothing, and the next one leaves and enters both
show("a refused cycle between, edition 2", second(SWAP), [(10, {}), (60_011, {}), (9, {}), (60_010, {})], code=[0, 0, 11, 11, 0],
     taken=[{}, {0, 1}, {}, {}, {0, 1}], clock=[5000, 5010, 5010, 5010, 65_010], counters=[{}] * 5, reasons=[{}] * 5)
# A ring of 64 active steps: each is left and entered in every cycle that finds the wait over. Step k has P, P1 and P0 blocks for action k // 2; a
# case on each step expects that action inactive in the call before, which holds at 10, as at 9 there was no edge, and not at 20.
RING = (steps(64, range(64)) + actions(32) + b"".join(transition([k], [(k + 1) % 64], wait=10) for k in range(64))
        + b"".join(block(k // 4, k // 8, (P, P1, P0, P0)[k % 4]) for k in range(256)) + b"".join(case(k, 32 + k // 2, 0) for k in range(64)) + END)
show("a full chart, 64 steps left and entered", second(RING), [(9, {}), (10, {}), (20, {}), (29, {})], taken=[{}, {}, range(64), range(64), {}],
     active=[range(64)] * 5, activity=[ALL, {}, ALL, ALL, {}], counters=[{}, {k: 9 for k in range(64)}, {}, {}, {k: 9 for k in range(64)}],
     good=[{}, {}] + [range(64)] * 3, bad=[{}] * 3 + [range(64)] * 2, reasons=[{}, {k: 4 for k in range(64)}, {}, {}, {k: 4 for k in range(64)}])
show("a full chart, 64 steps occupied, edition 1", RING, [(9, {}), (10, {}), (20, {})], taken=[{}] * 4, active=[range(64)] * 4,
     activity=[ALL, {}, {}, {}], good=[{}] * 4, bad=[{}] * 4, reasons=[{}, {k: 4 for k in range(64)}] + [{k: 5 for k in range(64)}] * 2,
     counters=[{}] + [{k: ms for k in range(64)} for ms in (9, 10, 20)])
# the step with the greatest number, as a target that stays and as one that is left, beside the first
show("steps 0 and 63 lead into each other", second(net(64, [0, 63], ([0], [63], [0]), ([63], [0], [1]))),
     [(5, {0, 1}), (8, {0}), (9, {1}), (12, {0})],
     taken=[{}, {0, 1}, {0}, {1}, {0}], active=[{0, 63}, {0, 63}, {63}, {0}, {63}], counters=[{}, {}, {63: 3}, {}, {}])


# Document 02, request (ix): driver.c makes every cycle by the chart's index too, and its answer must be this one. Here the order of the steps and the
# "number order" of the transitions that leave them are opposite: for a target, for a source, and for neither
TO_2 = net(3, [0, 1], ([1], [2]), ([0], [2]))
show("a later step's transition comes first", TO_2, [(10, {}), (20, {})], taken=[{}, {0}, {}], active=[{0, 1}, {0, 2}, {0, 2}],
     reasons=[{}, {1: 6}, {0: 1, 1: 5}])
show("a later step's transition beside it in edition 2", second(TO_2), [(10, {}), (20, {})], taken=[{}, {0, 1}, {}], active=[{0, 1}, {2}, {2}],
     reasons=[{}, {}, {0: 1, 1: 1}])
show("a later step's transition uses a source", net(5, [0, 1, 2], ([1, 2], [3]), ([0, 1], [4])), [(10, {}), (20, {})],
     taken=[{}, {0}, {}], active=[{0, 1, 2}, {0, 3}, {0, 3}], reasons=[{}, {1: 2}, {0: 1, 1: 1}])
show("steps left in the opposite order", net(6, [0, 1, 2], ([2], [3]), ([1], [4]), ([0], [5])), [(10, {})],
     taken=[{}, {0, 1, 2}], active=[{0, 1, 2}, {3, 4, 5}], reasons=[{}, {}])
# .. a transition with one source active, or with none; a step that no transition leaves
show("each source by itself", net(4, [1], ([0, 1], [3]), ([0, 2], [3]), ([1], [0])), [(10, {}), (20, {})],
     taken=[{}, {2}, {}], active=[{1}, {0}, {0}], reasons=[{}, {0: 1, 1: 1}, {0: 1, 1: 1, 2: 1}])
show("nothing leaves the active step", net(3, [2], ([0], [1]), ([1], [2])), [(10, {})], taken=[{}, {}], active=[{2}, {2}], reasons=[{}, {0: 1, 1: 1}])
# .. 64 steps and transitions: round and on, each cycle by another one of them; all from the last step, and none from the first
show("round 64 steps by 64 transitions", net(64, [62], *(([k], [(k + 1) % 64]) for k in range(64))), [(k, {}) for k in range(1, 67)],
     taken=[{}] + [{(62 + k) % 64} for k in range(66)], active=[{(62 + k) % 64} for k in range(67)])
show("64 transitions from the last step", net(64, [63], *(([63], [k % 63]) for k in range(64))), [(10, {}), (20, {})], {
    1: dict(taken={0}, active={0}, reasons={k: 2 for k in range(1, 64)}),
    2: dict(taken={}, active={0}, reasons={k: 1 for k in range(64)}),
})


def answers_of(name, data, clock, calls, expect):
    chart = parse(data)
    check_valid(chart)
    answers = [start(chart, clock)]
    for call in calls:
        run, lent = answers[-1].run, answers[-1].outputs
        answers.append(turn(run, lent, int(call == HOLD)) if call in (HOLD, RELEASE) else cycle(chart, run, lent, *call))
    compare(name, answers, expect)
    return answers


# All cases above that edition 1 shows with no target that kept a transition: there the target test is "the only difference", so the answers are the
# same in edition 2, and so are the facts by hand. That of 1,445 calls is left out.
def in_edition_2(name, data, clock, calls, expect):
    """Such a case in edition 2; None if the case is none."""
    answers = answers_of(name, data, clock, calls, expect)
    if parse(data).edition == 2 or len(calls) > 100 or any(reason in (5, 6) for answer in answers for reason in answer.reasons):
        return None
    assert [line(answer) for answer in answers_of(name, second(data), clock, calls, expect)] == [line(answer) for answer in answers], name
    return f"{name}, in edition 2", second(data), clock, calls, expect


BY_HAND = len(CASES)
CASES += [made for made in [in_edition_2(*shown) for shown in CASES] if made]


def call_bytes(call):
    """As the head of driver.c has it."""
    if call in (HOLD, RELEASE):
        return b"\1" if call == HOLD else b"\2"
    return struct.pack("<BII", 0, call[0], members(call[1]))


def request(data, clock, calls):
    head = struct.pack("<H", len(data)) + data + struct.pack("<IH", clock, len(calls))
    return head + b"".join(map(call_bytes, calls))


if __name__ == "__main__":
    lines = [line(answer) for shown in CASES for answer in answers_of(*shown)]
    files = {
        "tests/stored/run_cycles.in": b"".join(request(data, clock, calls) for _, data, clock, calls, _ in CASES),
        "tests/stored/run_cycles.out": "".join(text + "\n" for text in lines).encode(),
    }
    # the two forms by hand: chart A's input, and its calls at 1010 and 1509
    assert files["tests/stored/run_cycles.in"].startswith(
        b"\x98\0" + CHART_A + b"\xe8\3\0\0" + b"\2\0" + b"\0\xf2\3\0\0\1\0\0\0" + b"\0\xe6\5\0\0\2\0\0\0")
    assert lines[1] == "0 1 1010 2 3 2 0 0 0 0 c t o 120" + " 0" * 31 + " w 1:1"
    assert lines[5] == "0 0 1509 2 3 2 0 0 0 0 c 1:499 t o 120" + " 0" * 31 + " w 0:1 1:4"
    # and those of the key: a case held at its start, and chart A held in step 1
    held = b"\x88\x13\0\0" + b"\3\0" + b"\1" + b"\0\x89\x13\0\0\2\0\0\0" + b"\0\x8a\x13\0\0\3\0\0\0"
    by_name = {name: case for name, *case in CASES}
    assert request(*by_name["64 reasons under hold"][:3]).endswith(RIVALS + held) and call_bytes(RELEASE) == b"\2"
    assert "0 0 1010 2 3 2 0 0 0 1 c t o 120" + " 0" * 31 + " w" in lines
    # a name stands for one case, and edition 2 gives neither 5 nor 6
    assert len(by_name) == len(CASES)
    assert not any(reason in (5, 6) for shown in CASES if parse(shown[1]).edition == 2 for a in answers_of(*shown) for reason in a.reasons)
    store(files, "tests/run_cycles.py")
    print(f"run_cycles: {len(CASES)} cases, {BY_HAND} of them by themselves, {len(lines)} calls")
