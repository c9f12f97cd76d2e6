#!/usr/bin/env python3
"""The program weigh_page, run on charts and weights and compared with the page that it is to print.

  tests/weigh_page.py                   write what `rt ci` runs it on: crates/weigh_page/stdin, stdout and data/chart.bin
  tests/weigh_page.py --check           say whether they are what this file says
  tests/weigh_page.py --run [PROGRAM]   run the built program on every case, or another by its path from the root

Short pages, and how each text of weights is read, are written out by hand. The long pages come from the plain model below; nothing here gets an
expected line from the program. Weights are lines of decimal digits, one for each step; `#` begins a comment, and bytes 9, 13 and 32 are blanks at
either end of a line. The first of these is printed: the chart's refusal, that the text is too long, its first faulty line, 13, or the page, which
ends with 14 where a transition is unequal.
"""
import random
import sys
from itertools import combinations

sys.dont_write_bytecode = True
import run_cycles as model  # noqa: E402
from bench_run import CASES as PRINTED_RUNS  # noqa: E402
from programs import main, text  # noqa: E402
from read_charts import CHART_A, END, FULL, ONE, TWO, second, step, transition  # noqa: E402
from sources import SOURCES  # noqa: E402

TOO_LONG, WRONG_NUMBER = ["refused weights too long"], ["refused weights 13"]


def written(weights):
    return "".join(f"{weight}\n" for weight in weights).encode()


def shown(given):
    return repr(given) if len(given) < 50 else f"{given[:25]!r} .. {given[-15:]!r}, {len(given)} bytes"


# Steps 0 idle, 1 pressurising, 2 venting, 3 recording, 4 recorded
CELL = (step(1) + step(0) * 4 + transition([0], [1, 3]) + transition([1], [2]) + transition([3], [4]) + transition([2, 4], [0]) + END)
CELL_TEXT = b"# the cell's chart: what each step weighs\n3\t# idle\n2\t# pressurising\n2\t# venting\n\n1\t# recording\n1\t# recorded\n"
CELL_PAGE = [
    "transition 0 from 0 weighing 3 to 1 3 weighing 3 equal",
    "transition 1 from 1 weighing 2 to 2 weighing 2 equal",
    "transition 2 from 3 weighing 1 to 4 weighing 1 equal",
    "transition 3 from 2 4 weighing 3 to 0 weighing 3 equal",
    "initial 0 weighing 3",
    "never together 0 1 weighing 5",
    "never together 0 2 weighing 5",
    "never together 0 3 weighing 4",
    "never together 0 4 weighing 4",
    "never together 1 2 weighing 4",
]
# document 01: "Fork 0→{1,2}, weights 2,1,1, 0 initial: total 2, so 0 and 1 are never together; weights 2,1,2 refused 14, transition 0"
FORK = step(1) + step(0) * 2 + transition([0], [1, 2]) + END
FORK_PAGE = ["transition 0 from 0 weighing 2 to 1 2 weighing 2 equal", "initial 0 weighing 2", "never together 0 1 weighing 3",
             "never together 0 2 weighing 3"]
A_PAGE = ["transition 0 from 0 weighing 3 to 1 weighing 3 equal", "transition 1 from 1 weighing 3 to 0 weighing 3 equal", "initial 0 weighing 3",
          "never together 0 1 weighing 6"]

# name, chart, weights, page
PAGES = [
    ("the cell", CELL, (3, 2, 2, 1, 1), CELL_PAGE),
    ("the cell, the last two unequal", CELL, (3, 2, 2, 1, 2), CELL_PAGE[:2] + [
        "transition 2 from 3 weighing 1 to 4 weighing 2 unequal", "transition 3 from 2 4 weighing 4 to 0 weighing 3 unequal",
        "refused weights 14 transition 2"]),
    ("the cell, the first and the last unequal", CELL, (4, 2, 2, 1, 1), [
        "transition 0 from 0 weighing 4 to 1 3 weighing 3 unequal", *CELL_PAGE[1:3], "transition 3 from 2 4 weighing 3 to 0 weighing 4 unequal",
        "refused weights 14 transition 0"]),
    ("the fork", FORK, (2, 1, 1), FORK_PAGE),
    ("the fork, unequal", FORK, (2, 1, 2), ["transition 0 from 0 weighing 2 to 1 2 weighing 3 unequal", "refused weights 14 transition 0"]),
    ("the fork without weight", FORK, (0, 0, 0), ["transition 0 from 0 weighing 0 to 1 2 weighing 0 equal", "initial 0 weighing 0"]),
    # a sum of two weighings, 2, 1, 1 and 5, 2, 3 (document 02, request x)
    ("the fork, a sum", FORK, (7, 3, 4), ["transition 0 from 0 weighing 7 to 1 2 weighing 7 equal", "initial 0 weighing 7",
                                          "never together 0 1 weighing 10", "never together 0 2 weighing 11"]),
    ("a join", step(0) + step(1) * 2 + transition([1, 2], [0]) + END, (2, 1, 1), [
        "transition 0 from 1 2 weighing 2 to 0 weighing 2 equal", "initial 1 2 weighing 2", "never together 0 1 weighing 3",
        "never together 0 2 weighing 3"]),
    ("chart A", CHART_A, (3, 3), A_PAGE),
    ("chart A in edition 2", second(CHART_A), (3, 3), A_PAGE),
    ("chart A, both unequal", CHART_A, (1, 2), [
        "transition 0 from 0 weighing 1 to 1 weighing 2 unequal", "transition 1 from 1 weighing 2 to 0 weighing 1 unequal",
        "refused weights 14 transition 0"]),
    ("chart A without weight", CHART_A, (0, 0), [
        "transition 0 from 0 weighing 0 to 1 weighing 0 equal", "transition 1 from 1 weighing 0 to 0 weighing 0 equal", "initial 0 weighing 0"]),
    # no transition; "more than the initial total", not as much; a step that alone weighs more, beside one without weight
    ("one step", ONE + END, (65_535,), ["initial 0 weighing 65535"]),
    ("two initial steps", step(1) * 2 + END, (65_535, 65_535), ["initial 0 1 weighing 131070"]),
    ("two steps, as much as the total", TWO + END, (65_535, 0), ["initial 0 weighing 65535"]),
    ("two steps, more by one", TWO + END, (65_535, 1), ["initial 0 weighing 65535", "never together 0 1 weighing 65536"]),
    ("two steps, more than 16 bits", TWO + END, (65_535, 65_535), ["initial 0 weighing 65535", "never together 0 1 weighing 131070"]),
    ("a step that alone weighs more", step(0) + step(1) + step(0) + END, (5, 2, 0), [
        "initial 1 weighing 2", "never together 0 1 weighing 7", "never together 0 2 weighing 5"]),
    ("an initial step without weight", step(0) * 2 + step(1) + END, (0, 1, 0), [
        "initial 2 weighing 0", "never together 0 1 weighing 1", "never together 1 2 weighing 1"]),
    # 65,536 is not 0: of targets, of the initial steps, of sources and targets alike
    ("a sum of 65,536 beside 0", FORK, (0, 65_535, 1), ["transition 0 from 0 weighing 0 to 1 2 weighing 65536 unequal",
                                                        "refused weights 14 transition 0"]),
    ("a total of 65,536", step(1) * 2 + step(0) + END, (65_535, 1, 1), ["initial 0 1 weighing 65536"]),
    ("65,536 on both sides", step(1) * 2 + step(0) * 2 + transition([0, 1], [2, 3]) + END, (65_535, 1, 32_768, 32_768), [
        "transition 0 from 0 1 weighing 65536 to 2 3 weighing 65536 equal", "initial 0 1 weighing 65536",
        "never together 0 2 weighing 98303", "never together 0 3 weighing 98303"]),
    # steps of two digits in number order; signals and waits are no part of a page
    ("steps of two digits", step(1) + step(0) * 63 + transition([63, 9, 10], [32, 0], on=[3], off=[4], wait=500) + END, (0,) * 64, [
        "transition 0 from 9 10 63 weighing 0 to 0 32 weighing 0 equal", "initial 0 weighing 0"]),
]


# The model

def page(data, weights):
    """The page of a valid chart and as many weights."""
    chart = model.parse(data)
    model.check_valid(chart)
    assert len(weights) == len(chart.steps) and all(weight in range(65_536) for weight in weights)

    def together(steps):
        return sum(weights[k] for k in steps)

    def weighed(steps):
        return f"{' '.join(map(str, sorted(steps)))} weighing {together(steps)}"

    unequal = [number for number, t in enumerate(chart.transitions) if together(t.sources) != together(t.targets)]
    lines = [f"transition {number} from {weighed(t.sources)} to {weighed(t.targets)} {'unequal' if number in unequal else 'equal'}"
             for number, t in enumerate(chart.transitions)]
    if unequal:
        return lines + [f"refused weights 14 transition {unequal[0]}"]
    initial = [k for k, s in enumerate(chart.steps) if s.initial]
    pairs = [pair for pair in combinations(range(len(weights)), 2) if together(pair) > together(initial)]
    return lines + ["initial " + weighed(initial)] + [f"never together {i} {j} weighing {together((i, j))}" for i, j in pairs]


assert all(page(chart, weights) == lines for _, chart, weights, lines in PAGES)

# Long pages: 64 steps, 64 transitions, sums above 16 bits, pairs by the thousand
SIXTY_FOUR, HEAVY = step(1) + step(0) * 63, (65_535,) * 64
RING = SIXTY_FOUR + b"".join(transition([k], [(k + 1) % 64]) for k in range(64)) + END
# one half of the steps to the other, another half in each transition
HALVES = [{(t + k) % 64 for k in range(32)} for t in range(64)]
WIDE = SIXTY_FOUR + b"".join(transition(half, set(range(64)) - half) for half in HALVES) + END
LONG_PAGES = [
    ("a ring of 64 steps, each with any other never together", RING, HEAVY),
    ("32 steps to 32 others, 64 times", WIDE, HEAVY),
    ("32 steps to 32 others, one of them of less weight", WIDE, (65_534,) + HEAVY[1:]),
    ("63 steps to one, 64 times", SIXTY_FOUR + transition(range(1, 64), [0]) * 64 + END, HEAVY),
    ("63 steps to one that weighs as much", SIXTY_FOUR + transition(range(1, 64), [0]) * 64 + END, (63 * 1040,) + (1040,) * 63),
    ("the last transition alone unequal", SIXTY_FOUR + transition([0], [1]) * 63 + transition([0], [1, 63]) + END, HEAVY),
    ("64 initial steps, 4,194,240", step(1) * 64 + END, HEAVY),
    ("64 initial steps and as many transitions in 6,436 bytes", FULL + END, HEAVY),
    ("the same in edition 2", second(FULL + END), HEAVY),
    ("steps that alone weigh more than the total", SIXTY_FOUR + END, (7,) + tuple(range(64, 1, -1))),
    ("no transition, 63 steps that alone weigh more", SIXTY_FOUR + END, (1,) + HEAVY[1:]),
    ("some of the pairs", b"".join(step(k in (40, 50)) for k in range(64)) + END, tuple(range(64))),
    ("few of the pairs", b"".join(step(k in (0, 61, 62)) for k in range(64)) + END, tuple(range(64))),
    ("no pair of 64", SIXTY_FOUR + END, (65_535,) + (0,) * 63),
    ("the last pair alone", SIXTY_FOUR + END, (1,) + (0,) * 61 + (1, 1)),
]
for name, chart, weights in LONG_PAGES[:2]:
    assert len(text(page(chart, weights))) > 65_536 and len(page(chart, weights)) == 64 + 1 + 64 * 63 // 2, name
# the charts of the source documents, with each step weighing 1
LONG_PAGES += [(name, chart, (1,) * len(model.parse(chart).steps)) for name, chart, _, _ in SOURCES]


def random_page(rng):
    """Transitions between steps of like weight, which are equal, but now and then for one; few different weights."""
    steps, few = rng.randrange(2, 65), [rng.randrange(65_536) for _ in range(rng.randrange(1, 5))]
    weights = [rng.choice(few) for _ in range(steps)]
    alike = [pair for pair in combinations(range(steps), 2) if weights[pair[0]] == weights[pair[1]]]
    moves = []
    for _ in range(rng.randrange(65)):
        sources, targets = set(), set()
        for pair in rng.sample(alike, min(len(alike), rng.randrange(1, 9))):
            if not {*pair} & (sources | targets):
                left, entered = rng.sample(pair, 2)
                sources.add(left)
                targets.add(entered)
        if rng.random() < 0.01:
            targets.add(rng.randrange(steps))
            targets -= sources
        if sources and targets:
            moves.append(transition(sources, targets))
    chart = b"".join(step(k == 0 or rng.random() < 0.03) for k in range(steps)) + b"".join(moves) + END
    return chart if rng.random() < 0.5 else second(chart), weights


def dressed(rng, weights):
    """The weights as somebody may write them: with blanks, comments, empty lines and leading zeros, of which no page says anything."""
    blanks = ["", "", " ", "\t", "  \t", "\r"]
    lines = []
    for k, weight in enumerate(weights):
        lines += [rng.choice(["", "# nothing", " #1", "\t", "\r"]) for _ in range(rng.randrange(4) // 2)]
        lines.append(f"{rng.choice(blanks)}{'0' * (rng.randrange(9) // 3)}{weight}{rng.choice(blanks)}{rng.choice(['', '', f'# step {k}', '#7'])}")
    return (rng.choice(["\n", "\r\n"]).join(lines) + rng.choice(["", "\n", "\r\n"])).encode()


CASES = [("the cell as it is stored", CELL, CELL_TEXT, CELL_PAGE)]
CASES += [(name, chart, written(weights), lines) for name, chart, weights, lines in PAGES]
CASES += [(name, chart, written(weights), page(chart, weights)) for name, chart, weights in LONG_PAGES]
for seed in range(20):
    dice = random.Random(seed)
    made, its_weights = random_page(dice)
    CASES.append((f"random page {seed}", made, dressed(dice, its_weights), page(made, its_weights)))

# 1: "The chart is refused, as bench_run's is", whatever the text: right, empty, faulty, too long
REFUSED = {chart: (name, lines) for name, chart, _, lines in PRINTED_RUNS if lines[0].startswith("refused chart")}
assert {lines[0] for _, lines in REFUSED.values()} == {f"refused chart {number}" for number in range(1, 11)}
CASES += [(name, chart, CELL_TEXT, lines) for chart, (name, lines) in REFUSED.items()]
for given in (b"", b"x", b"1\n" * 300, b"x" * 70_000):
    CASES.append((f"1, and {shown(given)}", b"", given, ["refused chart 1"]))
    CASES.append((f"10, and {shown(given)}", CELL + b"\0", given, ["refused chart 10"]))

# 2: "An input of 65,536 bytes or more is too long", whatever it has: right weights, none, too many, a faulty line, a transition that is unequal
for name, given in {
    "the cell and blanks": CELL_TEXT.ljust(65_536), "the cell and line ends": CELL_TEXT.ljust(65_536, b"\n"),
    "the cell and a comment": (CELL_TEXT + b"#").ljust(65_536, b"x"), "unequal weights": b"3\n2\n2\n1\n2\n".ljust(65_536, b"\n"),
    "line ends": b"\n" * 65_536, "weights": b"1\n" * 32_768, "a number": b"0" * 65_535 + b"3", "a faulty line": b"x\n" * 32_768,
    "a faulty last line": b"\n" * 65_535 + b"x", "70,000 bytes": CELL_TEXT.ljust(70_000), "131,072 bytes": CELL_TEXT.ljust(131_072, b"\n"),
    "ten megabytes": b"3\n" * 5_000_000,
}.items():
    CASES.append((f"too long, {name}", CELL, given, TOO_LONG))
# .. and 65,535 bytes are not
for name, given in {
    "blanks": CELL_TEXT.ljust(65_535), "line ends": CELL_TEXT.ljust(65_535, b"\n"), "a comment": (CELL_TEXT + b"#").ljust(65_535, b"x"),
    "carriage returns": CELL_TEXT.ljust(65_535, b"\r"), "line ends in front": CELL_TEXT.rjust(65_535, b"\n"),
    "blanks in front": CELL_TEXT.rjust(65_535, b"\t"), "zeros in front": CELL_TEXT[CELL_TEXT.index(b"3"):].rjust(65_535, b"0"),
}.items():
    assert len(given) == 65_535
    CASES.append((f"65,535 bytes, {name}", CELL, given, CELL_PAGE))
CASES += [
    ("65,535 bytes of one number", ONE + END, b"7".rjust(65_535, b"0"), ["initial 0 weighing 7"]),
    ("65,535 digits that are too many", ONE + END, b"1".ljust(65_535, b"0"), ["refused weights line 1"]),
    ("65,535 line ends", ONE + END, b"\n" * 65_535, WRONG_NUMBER),
    ("32,768 weights", ONE + END, b"1\n" * 32_767 + b"1", WRONG_NUMBER),
    ("65,535 bytes, the last of them faulty", ONE + END, b"1".ljust(65_534) + b"x", ["refused weights line 1"]),
    ("65,535 lines, the last of them faulty", ONE + END, b"\n" * 65_534 + b"x", ["refused weights line 65535"]),
]

# 3: what a line may be, on one step, whose weight the page has
for given, weight in {
    # "Lines end in byte 10; the last line may lack it"; "blanks at either end: bytes 9, 13 and 32"
    b"7\n": 7, b"7": 7, b"7\r\n": 7, b"7\r": 7, b"\r7": 7, b"\t7\t\n": 7, b" 1 ": 1, b" \t\r\r 7 \r\t\t ": 7, b" " * 300 + b"7" + b"\t" * 300: 7,
    # "a `#` and everything behind it in that line is a comment"
    b"1#2": 1, b"1 # 2\n": 1, b"1##\n": 1, b"1#\r\n": 1, b"1\t#-1\n": 1, b"1#\r2": 1, b"7 #" + bytes({*range(256)} - {10}) + b"\n": 7,
    b"7#" + b"#" * 5000: 7,
    # "If nothing else is left, the line gives no weight"
    b"\n7": 7, b"\n\n\n7\n\n\n": 7, b" \n\t\n\r\n7\n \n\t\n\r": 7, b"#\n7": 7, b"# 1\n7\n": 7, b" # 1\n7\n\t#2": 7, b"7\n#": 7, b"7\n# 65536\n": 7,
    b"#x\n7\n": 7, b"\r\n\r\n7\r\n\r\n": 7, b"#\n" * 5000 + b"7\n" + b"\n" * 5000: 7,
    # "whose number is at most 65,535 (leading zeros are allowed, any number of digits)"
    b"0": 0, b"00": 0, b"007\n": 7, b"10": 10, b"12345": 12_345, b"65534": 65_534, b"65535": 65_535, b"065535\n": 65_535, b"0" * 100: 0,
    b"0" * 99 + b"9": 9, b"0" * 95 + b"65535": 65_535, b" " + b"0" * 5000 + b"65535 #": 65_535, b"8\n": 8, b"9": 9,
}.items():
    CASES.append((shown(given), ONE + END, given, [f"initial 0 weighing {weight}"]))

FAULTY = [
    # above 65,535, also where the number's last 16, 32, 64 or 128 bits are 7, or where it overflows at a digit
    b"65536", b"65537", b"65540", b"65543", b"65600", b"66000", b"70000", b"99999", b"100000", b"655350", b"131071", b"4294967296", b"4294967303",
    b"18446744073709551615", b"18446744073709551616", b"18446744073709551623", b"340282366920938463463374607431768211463", b"9" * 100,
    b"1" + b"0" * 99, b"0" * 95 + b"65536", b"0" * 5000 + b"65536",
    # not digits alone
    b"-1", b"+1", b"1.5", b"0x1", b"1 2", b"1\t2", b"1\r2", b"1,2", b"1,", b"1;", b"1e1", b"1_0", b"-0", b"- 1", b"-", b"+", b".", b"a", b"1a", b"a1",
    b"seven", b'"1"', b"x#1", b"1 x # 2", b"1 2 # 3", b"/", b":", b"1/", b"1:", b"//", b"\xef\xbb\xbf1", b"\xd9\xa1", b"\xb2", b"1\xa0", b"\\n",
]
# bytes that some take for blanks, and others beside those that have a meaning: alone, and at either end of a number
for byte in (0, 8, 11, 12, 14, 31, 33, 34, 36, 127, 128, 133, 160, 255):
    FAULTY += [bytes([byte]), bytes([byte]) + b"1", b"1" + bytes([byte])] if byte in (0, 11, 12, 255) else [bytes([byte])]
for given in FAULTY:
    CASES.append((f"faulty, {shown(given)}", ONE + END, given + b"\n", ["refused weights line 1"]))
# "the number of the first faulty line, the first line being line 1", before 13 and 14; lines that give no weight are lines too
for number, given in [
    (1, b"x"), (1, b"x\n" * 5), (1, b"x\n1\n65536\n"), (2, b"1\nx\n-1\n"), (2, b"1\r\nx"), (1, b"1\rx\n"), (4, b"\n\n\nx"), (4, b"1\n#\n\nx\n"),
    (3, b"# 1\n# 2\n3 4\n# x"), (3, b"1\r\n2\r\n3x\r\n4\r\n"), (5, b"3\n2\n2\n1\n65536"), (6, b"3\n2\n2\n1\n1\n-\n"),
    (5, CELL_TEXT.replace(b"\n\n", b"\n+\n")),
] + [(lines, b"\n" * (lines - 1) + b"?\n!\n") for lines in (9, 10, 99, 100, 255, 256, 257, 999, 1000, 9999, 10_000, 32_768, 65_532)]:
    CASES.append((f"line {number}, {shown(given)}", CELL, given, [f"refused weights line {number}"]))
CASES += [
    ("line 66, behind 65 weights", RING, b"1\n" * 65 + b"x", ["refused weights line 66"]),
    ("line 65, behind 64 weights", RING, b"1\n" * 64 + b"1.0\n" + b"1\n" * 300, ["refused weights line 65"]),
    ("line 301, behind 300 weights", FORK, b"1\n" * 300 + b"\0", ["refused weights line 301"]),
    ("line 4, behind weights that are unequal", FORK, b"2\n1\n2\n2 1", ["refused weights line 4"]),
]

# 4: 13, before 14; 44 and 1 are what a byte has of 300 and 257
for name, chart, given in [
    ("empty", ONE + END, b""), ("a line end", ONE + END, b"\n"), ("a comment", ONE + END, b"#"), ("a comment with a number", ONE + END, b"# 1\n"),
    ("a comment with a number behind a return", ONE + END, b"#\r1\n"), ("a blank", ONE + END, b" "), ("empty, five steps", CELL, b""),
    ("four of five", CELL, written((3, 2, 2, 1))), ("six for five", CELL, written((3, 2, 2, 1, 1, 0))), ("two for one", ONE + END, b"1\n1"),
    ("one of 64", RING, b"1"), ("63 of 64", RING, written(HEAVY[1:])), ("65 for 64", RING, written(HEAVY + (1,))),
    ("65 for one", ONE + END, b"1\n" * 65),
    ("300 for 64", RING, b"1\n" * 300), ("300 for 44", ONE * 44 + END, b"1\n" * 300), ("257 for one", ONE + END, b"1\n" * 257),
    ("256 for one", ONE + END, b"1\n" * 256), ("20,000 for five", CELL, b"1\r\n" * 20_000), ("unequal, and one more", FORK, written((2, 1, 2, 0))),
    ("unequal, and one less", FORK, written((2, 1))),
]:
    CASES.append((f"13, {name}", chart, given, WRONG_NUMBER))

if __name__ == "__main__":
    main("weigh_page", CASES, (WIDE, written(HEAVY)))
