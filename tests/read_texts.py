#!/usr/bin/env python3
"""The stored cases of `driver read_texts` and `driver text_runs`: their input, and the output that docs/GRAMMAR.md and documents 01 and 02 ask for.

  tests/read_texts.py           write their .in and .out in tests/stored
  tests/read_texts.py --check   say whether they are what this file says

A case of read_texts is a text and its line: number, place, the counts of steps, actions, transitions, blocks and cases, the edition, and of an
accepted text the chart's file in hex. All are by hand, and nothing here reads a text: a `~` stands in front of the byte that a refusal names, or
at the end, and is taken out; an accepted text has beside it the records of its chart. A case of text_runs is a text, the same chart by its records,
and calls; its lines come from the plain model of start and cycle in run_cycles.py, with facts by hand.
"""
import struct
import sys

sys.dont_write_bytecode = True
import run_cycles as model  # noqa: E402
from read_charts import D, DAY, DS, END, L, N, P, P0, P1, R, S, SD, SL, action, block, step, store, transition  # noqa: E402

QUALIFIERS = {"N": N, "R": R, "S": S, "L": L, "D": D, "P": P, "SD": SD, "DS": DS, "SL": SL, "P1": P1, "P0": P0}
TIMED = ("L", "D", "SD", "DS", "SL")
UNTIMED = ("N", "R", "S", "P", "P1", "P0")
BLANKS = "\t\n\v\f\r "  # bytes 9 to 13 and 32
CASES = {}  # a text's bytes, and its line


def file_of(steps, actions=0, transitions=(), blocks=()):
    """A chart's file. Each step is 1 or 0 for initial or not, and action k drives output k with 1."""
    return b"".join([step(int(one)) for one in steps] + [action(k, 1) for k in range(actions)] + [*transitions, *blocks, END])


def chart(steps, actions=0, transitions=(), blocks=()):
    """The line of a text that says this chart: no cases, edition 1."""
    return f"0 0 {len(steps)} {actions} {len(transitions)} {len(blocks)} 0 1 {file_of(steps, actions, transitions, blocks).hex()}"


def case(text, line):
    """One more; the same text may come again, with the same line."""
    assert CASES.setdefault(text.encode("latin-1"), line) == line, text


def at_mark(number, text):
    """A text refused by this number at its mark."""
    before, behind = text.split("~")
    case(before + behind, f"{number} {len(before)} 0 0 0 0 0 0")


def no(text):
    """No text, from the marked byte on; with the mark at its end, a text that ends too early."""
    at_mark(19, text)


def odd(text):
    """A text with a step that is not named by its number; the first is marked."""
    at_mark(25, text)


def fault(number, text):
    """A text whose chart has a fault, with place 0."""
    case(text, f"{number} 0 0 0 0 0 0 0")


def yes(text, line):
    case(text, line)


# Parts of texts

def many(count, initial=(0,), inside=""):
    """The steps S0, S1 and so on."""
    heads = [f"{'INITIAL_STEP' if k in initial else 'STEP'} S{k}: " for k in range(count)]
    return " ".join(head + inside + "END_STEP" for head in heads)


def within(inside):
    """A step with this inside."""
    return f"INITIAL_STEP S0: {inside} END_STEP"


def associated(inside):
    """A step with one association, and this within its brackets."""
    return within(f"A0({inside});")


def lasting(duration):
    return associated(f"L,{duration}")


def go(sources="S0", targets="S1", condition="TRUE"):
    return f" TRANSITION FROM {sources} TO {targets} := {condition}; END_TRANSITION"


def moved(transition):
    """Steps S0 to S3, and this behind them."""
    return many(4) + " " + transition


def leaving(sources):
    return moved(f"TRANSITION FROM {sources} TO S3 := TRUE; END_TRANSITION")


def entering(targets):
    return moved(f"TRANSITION FROM S3 TO {targets} := TRUE; END_TRANSITION")


def told(condition):
    return moved(f"TRANSITION FROM S0 TO S1 := {condition}; END_TRANSITION")


ONE = "INITIAL_STEP S0: END_STEP"
TWO = many(2)
GO = transition([0], [1])
FOUR = "1000"


def acted(actions, *blocks):
    return chart("1", actions, blocks=blocks)


def left(sources):
    return chart(FOUR, transitions=[transition(sources, [3])])


def entered(targets):
    return chart(FOUR, transitions=[transition([3], targets)])


def asked(on=(), off=()):
    return chart(FOUR, transitions=[transition([0], [1], on, off)])


# "| Text | Answer |", the table under Answers
no("~")
no("~STEP S0: END_STEP")
no("INITIAL_STEP S6~4: END_STEP")
no("INITIAL_STEP S0~0: END_STEP")
no("INITIAL_STEP S0: END_STE~X")
no("INITIAL_STEP S0: END_STE~")
odd("INITIAL_STEP ~S1: END_STEP")
no("INITIAL_STEP S1: END_STEP S~")
fault(5, "INITIAL_STEP S0: A1(L,T#99999999999999999999ms); END_STEP")
yes("INITIAL_STEP S0: END_STEP", chart("1"))
# the page's example: it is a text, and names steps that it does not have; with them it is accepted; and what is in no text
EXAMPLE = "INITIAL_STEP S0:END_STEP{} TRANSITION FROM(S0,S1)TO(S2,S3):=NOT X0;END_TRANSITION"
fault(5, EXAMPLE.format(""))
yes(EXAMPLE.format(" STEP S1:END_STEP STEP S2:END_STEP STEP S3:END_STEP"), chart(FOUR, transitions=[transition([0, 1], [2, 3], off=[0])]))
no("INITIAL_STEP S0:END_STEP~STEP S1:END_STEP")
no("INITIAL_STEP S~ 0:END_STEP")
no(moved("TRANSITION FROM S0 TO S1:~ =TRUE;END_TRANSITION"))
no(lasting("T#~ 5ms"))
# "| In no text | Since |"
no(within("A1~;"))
yes(within("A1();"), acted(2, block(0, 1, N)))
no(within("A1(D~);"))
no(within("A1(N~,T#0ms);"))
no(leaving("(S0~)"))
no(entering("(S0~)"))
no(told("NOT ~NOT X0"))
no(told("TRUE ~AND X0"))
no(told("NOT ~TRUE"))
no("INITIAL_STEP S0~1: END_STEP")
no(within("A3~2();"))
no(told("X0~32"))
no(lasting("T#0~07ms"))
no(lasting("T#1~.5ms"))
no(lasting("T#1~_000ms"))
no(lasting("T#5~s"))
yes("INITIAL_STEP S0: END_STEP STEP S1: END_STEP INITIAL_STEP S2: END_STEP STEP S3: END_STEP INITIAL_STEP S4: END_STEP", chart("10101"))
no(TWO + go() + " ~STEP S2: END_STEP")
no("~initial_step S0: END_STEP")
no("INITIAL_STEP ~s0: END_STEP")
no(told("~true"))
no(lasting("~t#5ms"))
# "What the standard admits and this leaves out", row by row
no(TWO + go() + " ~INITIAL_STEP S2: END_STEP")
no(ONE + " ~ACTION A0: END_ACTION")
no(TWO + go() + " ~ACTION A0: END_ACTION")
no("INITIAL_STEP ~IDLE: END_STEP")
no("INITIAL_STEP S0: ~CLAMP(N); END_STEP")
no("INITIAL_STEP S~_0: END_STEP")
no(associated("N~,X0"))
no(associated("L,T#5ms~,X0"))
no(associated("~,X0"))
no(lasting("~X0"))
no(lasting("T#~-5ms"))
no(lasting("T#1~d"))
no(lasting("T#1~s500ms"))
no(lasting("~time#5ms"))
no(lasting("T~ime#5ms"))
no(moved("TRANSITION ~T1 FROM S0 TO S1 := TRUE; END_TRANSITION"))
no(moved("TRANSITION ~(PRIORITY := 1) FROM S0 TO S1 := TRUE; END_TRANSITION"))
no(moved("TRANSITION FROM S0 TO S1:~ X0; END_TRANSITION"))
no(told("~LD X0"))
for operator in ("~OR", "~XOR", "~&", "~=", "~<>", "~EQ"):
    no(told(f"X0 {operator} X1"))
no(told("X0~&X1"))
no(told("~FALSE"))
no(told("X0 AND ~TRUE"))
no(told("~(X0)"))
no(told("X0 AND ~(X1)"))
no(told("NOT ~(X0)"))
no("~(* a comment *) INITIAL_STEP S0: END_STEP")
no("INITIAL_STEP ~(* a comment *) S0: END_STEP")
no("INITIAL_STEP S0 ~(* a comment *): END_STEP")
no("INITIAL_STEP S0: ~(* a comment *) END_STEP")
no("INITIAL_STEP S0: A0 (~* a comment *)(N); END_STEP")
no(leaving("(~* a comment *) S0"))
no(ONE + " ~(* a comment *)")
no(ONE + " ~// a comment")
no("~{ a pragma } INITIAL_STEP S0: END_STEP")
no(ONE + " ~{ a pragma }")
no("~PROGRAM P0 INITIAL_STEP S0: END_STEP END_PROGRAM")
no(ONE + " ~END_PROGRAM")

# text = initial { initial | step } { transition }
no(" ~")
no(BLANKS * 3 + "~")
no(BLANKS + "~STEP S0: END_STEP")
no("~TRANSITION FROM S0 TO S1 := TRUE; END_TRANSITION")
no("~END_STEP")
no("~S0: END_STEP")
no("~A0();")
no("~\0" + ONE)
no("~\xef\xbb\xbf" + ONE)
no(ONE + "~\0")
no(ONE + " ~\x1a")
no(ONE + "~;")
no(ONE + " ~;")
no(ONE + " ~A0();")
no(ONE + " ~X")
no(ONE + " ~END_STEP")
no(ONE + " ~END_TRANSITION")
no(ONE + " ~FROM S0 TO S1 := TRUE; END_TRANSITION")
no(TWO + go() + " ~X")
no(TWO + go() + "~;")
no(TWO + go() + " ~END_TRANSITION")
no(TWO + go() + go("S1", "S0") + " ~STEP S2: END_STEP")
no(ONE + " I~")
no(ONE + " IN~STEP S1: END_STEP")
no(ONE + " ST~")
no(ONE + " T~")
no(ONE + " TR~UE")
no(ONE + " S~1: END_STEP")
no(TWO + go() + " T~")
yes(ONE + " ", chart("1"))
yes(BLANKS + ONE + BLANKS, chart("1"))
yes(many(2, initial=(0, 1)), chart("11"))
yes(many(3, initial=(0, 2)), chart("101"))
yes(TWO, chart("10"))
yes(TWO + go(), chart("10", transitions=[GO]))
yes(TWO + go() + go("S1", "S0"), chart("10", transitions=[GO, transition([1], [0])]))
yes(TWO + go("S1", "S0") + go(), chart("10", transitions=[transition([1], [0]), GO]))
yes(TWO + go() * 3, chart("10", transitions=[GO] * 3))
# chart A of document 01, as far as a text says it: values 1, waits 0, no case, and the blocks in the steps' order
CHART_A = """
INITIAL_STEP S0:
  A1(R);
END_STEP

STEP S1:
  A0(N);
  A1(S);
END_STEP

TRANSITION FROM S0 TO S1 := X0; END_TRANSITION
TRANSITION FROM S1 TO S0 := X1; END_TRANSITION
"""
RECORDS_A = ("10", 2, [transition([0], [1], on=[0]), transition([1], [0], on=[1])], [block(0, 1, R), block(1, 0, N), block(1, 1, S)])
yes(CHART_A, chart(*RECORDS_A))
yes(CHART_A.replace("\n", "\r\n"), chart(*RECORDS_A))
yes(CHART_A.replace("(N)", "()"), chart(*RECORDS_A))

# initial, step: keywords, the name, the colon, what stands inside
no("INITIAL_STEP~: END_STEP")
no("INITIAL_STEP ~: END_STEP")
no("INITIAL_STEP S~: END_STEP")
no("INITIAL_STEP S0 ~END_STEP")
no("INITIAL_STEP S0~; END_STEP")
no("INITIAL_STEP S0:~= END_STEP")
no("INITIAL_STEP S0:~: END_STEP")
no("INITIAL_STEP S0: ~; END_STEP")
no("INITIAL_STEP S0~, S1: END_STEP")
no("INITIAL_STEP S0 ~S1: END_STEP")
no("INITIAL_STEP ~(S0,S1): END_STEP")
no("INITIAL_STEP ~A0: END_STEP")
no("INITIAL_STEP ~X0: END_STEP")
no("INITIAL_STEP ~0: END_STEP")
no("INITIAL~ STEP S0: END_STEP")
no("INITIAL~STEP S0: END_STEP")
no("INITIAL_~ STEP S0: END_STEP")
no("INITIAL_STEP~_S0: END_STEP")
no("INITIAL_STEP~S S0: END_STEP")
no("INITIAL_STEP~S0: END_STEP")
no("INITIAL_STEP S~TEP S0: END_STEP")
no("INITIAL_STEP ~INITIAL_STEP S0: END_STEP")
no("INITIAL_STEP S0: ~STEP S1: END_STEP")
no("INITIAL_STEP S0: ~INITIAL_STEP S1: END_STEP")
no("INITIAL_STEP S0: ~TRANSITION FROM S0 TO S1 := TRUE; END_TRANSITION")
no("INITIAL_STEP S0: END_~TRANSITION")
no("INITIAL_STEP S0: END_~INITIAL_STEP")
no("INITIAL_STEP S0: END~STEP")
no("INITIAL_STEP S0: END~ STEP")
no("INITIAL_STEP S0: E~")
no("INITIAL_STEP S0:~")
no("INITIAL_STEP S0~")
no("INITIAL_STEP S~")
no("INITIAL_STEP ~")
no(ONE + "~S")
no(ONE + " STEP~S1: END_STEP")
no(ONE + " STEP~: END_STEP")
no(ONE + " STEP~_S1: END_STEP")
no(ONE + " STEP S1 ~END_STEP")
no(ONE + " STEP S1:~= END_STEP")
no(ONE + " STEP S1: END_~TRANSITION")
no(ONE + "~INITIAL_STEP S1: END_STEP")
no(ONE + "~TRANSITION FROM S0 TO S1 := TRUE; END_TRANSITION")
yes("INITIAL_STEP S0:END_STEP", chart("1"))
yes("INITIAL_STEP  S0  :  END_STEP", chart("1"))
# names at 0, 9, 10 and their limit, and beyond; numbers without leading zero. Each in a head is another fault if it is not the step's number
for name in ("S9", "S10", "S19", "S60", "S62", "S63"):
    odd(f"INITIAL_STEP ~{name}: END_STEP")
for name in ("S6~4", "S6~9", "S7~0", "S9~9", "S10~0", "S63~0", "S0~0", "S0~9", "S0~63", "S~-1", "S~+1", "S~ 1", "S~_1", "S1~_0", "S0~x",
             "S~S0", "S~A0", "S~\xb2", "S0~.0", "S0~#"):
    no(f"INITIAL_STEP {name}: END_STEP")
    no(moved(f"TRANSITION FROM {name} TO S1 := TRUE; END_TRANSITION"))
    no(moved(f"TRANSITION FROM S0 TO (S1,{name}) := TRUE; END_TRANSITION"))
for name in ("A3~2", "A3~9", "A4~0", "A9~9", "A10~0", "A31~0", "A0~0", "A0~1", "A0~31", "A~", "A~-1", "A~ 1", "A~_1", "A1~_0", "A0~x", "A~A0", "A~X0",
             "~a0"):
    no(within(f"{name}();"))
for name in ("X3~2", "X3~9", "X4~0", "X9~9", "X10~0", "X31~0", "X0~0", "X0~1", "X0~31", "X~", "X~-1", "X~ 1", "X~_1", "X1~_0", "X0~x", "X~X0", "X~A0",
             "~x0"):
    no(told(name))
    no(told(f"X1 AND NOT {name}"))
for k in (0, 1, 9, 10, 19, 20, 29, 30, 31):
    yes(within(f"A{k}();"), acted(k + 1, block(0, k, N)))
    yes(told(f"X{k}"), asked(on=[k]))
    yes(told(f"NOT X{k}"), asked(off=[k]))
ALL = many(64)
for k in (1, 9, 10, 19, 20, 59, 60, 62, 63):
    yes(ALL + go("S0", f"S{k}"), chart("1" + "0" * 63, transitions=[transition([0], [k])]))
    yes(ALL + go(f"S{k}", "S0"), chart("1" + "0" * 63, transitions=[transition([k], [0])]))
# a digit that does not belong to a name behind white space
no(within("A1 ~0();"))
no("INITIAL_STEP S0 ~0: END_STEP")
no(leaving("S1 ~0"))
no(entering("S1 ~0"))
no(told("X1 ~0"))

# association and qualifier: each, and a missing one
yes(associated(""), acted(1, block(0, 0, N)))
yes(associated(" \t "), acted(1, block(0, 0, N)))
for q in UNTIMED:
    yes(associated(q), acted(1, block(0, 0, QUALIFIERS[q])))
    yes(associated(f" {q}\n"), acted(1, block(0, 0, QUALIFIERS[q])))
    no(associated(f"{q}~,T#0ms"))
    no(associated(f"{q}~,"))
    no(associated(f"{q} ~T#5ms"))
    no(associated(f"{q} ~{q}"))
    no(associated(f"{q}~_"))
for q in TIMED:
    yes(associated(f"{q},T#0ms"), acted(1, block(0, 0, QUALIFIERS[q])))
    yes(associated(f" {q} , T#5ms "), acted(1, block(0, 0, QUALIFIERS[q], 5)))
    yes(associated(f"{q},TIME#86400000ms"), acted(1, block(0, 0, QUALIFIERS[q], DAY)))
    fault(5, associated(f"{q},T#86400001ms"))
    no(associated(f"{q}~"))
    no(associated(f"{q} ~"))
    no(associated(f"{q},~"))
    no(associated(f"{q},~,T#5ms"))
    no(associated(f"{q} ~T#5ms"))
    no(associated(f"{q}~T#5ms"))
    no(associated(f"{q},T#5ms~,T#5ms"))
    no(associated(f"{q},T#5ms~,"))
    no(associated(f"{q},T#5ms ~T#5ms"))
    no(associated(f"{q},~N"))
for inside in ("~Q", "~n", "~r", "~s", "~p", "~l,T#5ms", "~d,T#5ms", "S~d,T#5ms", "D~s,T#5ms", "S~l,T#5ms", "P~2", "P~P", "P1~0", "P0~1", "P ~1",
               "P ~0", "P1~P", "N~N", "N~1", "N~R", "N~S", "R~S", "R~0", "S~N", "S~R", "S~S", "S~P", "S~1", "S~0", "L~S,T#5ms", "L~D,T#5ms",
               "D~L,T#5ms", "D~D,T#5ms", "D~1", "SD~S,T#5ms", "SD~L,T#5ms", "DS~D,T#5ms", "SL~D,T#5ms", "SL~L,T#5ms", "S ~D,T#5ms", "D ~S,T#5ms",
               "S ~L,T#5ms", "~1P", "~T#5ms", "~T#5ms,L", "~,L", "~,", "~A0", "~X0", "~(", "~()", "~;", "~:", "~0"):
    no(associated(inside))
no(within("A0 ~END_STEP"))
no(within("A0~N;"))
no(within("A0~[N];"))
no(within("A0~);"))
no(within("A0~:(N);"))
no(within("A0(N)~)"))
no(within("A0(N)~,A1(N);"))
no(within("A0(N) ~A1(N);"))
no(within("A0(N)~A1(N);"))
no("INITIAL_STEP S0: A0(N) ~END_STEP")
no(within("A0(N);~;"))
no(within("A0(N);A~"))
no(within("A0(N~;"))
no("INITIAL_STEP S0: A0(N ~END_STEP")
no("INITIAL_STEP S0: A0~")
no(within("~N(A0);"))
no(within("~S0();"))
no(within("~X0();"))
no(within("~P();"))
no(within("~(A0);"))
no(within("A0(N)~:"))
no("INITIAL_STEP S0: A0(N)~END_STEP")
no("INITIAL_STEP S0: A0(N);~")
no("INITIAL_STEP S0: A0(~")
no("INITIAL_STEP S0: A0(L,T#5ms~")
# blocks in the text's order, with their steps, and the actions up to the highest one named
yes(within("A0();A0(N);A0(R);A0(S);"), acted(1, block(0, 0, N), block(0, 0, N), block(0, 0, R), block(0, 0, S)))
yes(within("A5(N);A2(S);"), acted(6, block(0, 5, N), block(0, 2, S)))
yes(within("A2(N);A5(S);A0(R);"), acted(6, block(0, 2, N), block(0, 5, S), block(0, 0, R)))
yes(within("A31(SL,T#7ms);"), acted(32, block(0, 31, SL, 7)))
yes("INITIAL_STEP S0: A3(P); END_STEP STEP S1: END_STEP STEP S2: A1(P0); A3(D,T#1ms); END_STEP",
    chart("100", 4, blocks=[block(0, 3, P), block(2, 1, P0), block(2, 3, D, 1)]))
yes("INITIAL_STEP S0: END_STEP INITIAL_STEP S1: A0(P1); A1(DS,T#2ms); END_STEP INITIAL_STEP S2: A0(R); A1(); END_STEP",
    chart("111", 2, blocks=[block(1, 0, P1), block(1, 1, DS, 2), block(2, 0, R), block(2, 1, N)]))
yes(within("".join(f"A{k}({q}{',T#%dms' % k if q in TIMED else ''});" for k, q in enumerate(QUALIFIERS))),
    acted(11, *(block(0, k, QUALIFIERS[q], k if q in TIMED else 0) for k, q in enumerate(QUALIFIERS))))
yes(within("".join(f"A{k}(D,T#{k}ms);" for k in range(31, -1, -1))), acted(32, *(block(0, k, D, k) for k in range(31, -1, -1))))

# duration: one token; the unit in either case; any number of digits
for unit in ("ms", "Ms", "mS", "MS"):
    yes(lasting(f"T#5{unit}"), acted(1, block(0, 0, L, 5)))
    yes(lasting(f"TIME#500{unit}"), acted(1, block(0, 0, L, 500)))
for duration in ("~5", "~5ms", "T~5ms", "T~", "~#5ms", "T#~", "T#~ms", "T#5~", "T#5m~", "T#5~s", "T#5~sm", "T#5m~m", "T#5m~ms", "T#5ms~s", "T#5ms~ec",
                 "T#5ms~5", "T#5ms~_", "T#5ms ~5ms", "T#5~us", "T#5~ns", "T#5~h", "T#5~d", "T#5~D", "T#5m~5s", "TI~#5ms", "TIM~#5ms", "TIME~5ms",
                 "TIME~S#5ms", "T~TIME#5ms", "TIME#~", "TIME#~ms", "TIME#0~0ms", "T~ #5ms", "T~ IME#5ms", "TIME~ #5ms", "TIME#~ 5ms", "T#5~ ms",
                 "T#5m~ s", "T#1~ 0ms", "T#~+5ms", "T#~#5ms", "T#1~,000ms", "T#0~x5ms", "T#1~e3ms", "T#0~0ms", "T#0~5ms",
                 "T#0~0000000000000000000005ms", "T#~_5ms", "T#5~_ms", "T#~T#5ms", "~LTIME#5ms", "~D#5ms", "~IME#5ms", "~(T#5ms)", "~NOT", "T#5ms~;",
                 "T#5ms~:", "T#5ms~(", "T#" + "9" * 3000 + "~x", "T#" + "1" * 3000 + "~"):
    no(lasting(duration))
UP_TO = (0, 1, 9, 10, 99, 100, 255, 256, 65_535, 65_536, 8_640_000, 9_999_999, 10_000_000, 80_000_000, 86_399_999, DAY)
ABOVE = (DAY + 1, 86_400_009, 86_400_010, 90_000_000, 99_999_999, 100_000_000, 864_000_000, 2**31 - 1, 2**31, 2**32 - 1, 2**32, 2**32 + 5,
         2**32 + DAY, 42_949_672_960, 42_949_672_965, 10**10, 10**10 + 5, 2**63, 2**64 - 1, 2**64, 2**64 + 5, 2**64 + DAY, 10**19, 10**20, 2**65,
         10 * 2**64, 2**128, 2**128 + 5)
for ms in UP_TO:
    yes(lasting(f"T#{ms}ms"), acted(1, block(0, 0, L, ms)))
for ms in ABOVE:
    fault(5, lasting(f"T#{ms}ms"))
for digits in ("1" + "0" * 2000, "9" * 5000, "1" + "0" * 4999 + "5", str(2**4096), str(2**4096 + 7), "5" * 255, "5" * 256, "5" * 257):
    fault(5, lasting(f"TIME#{digits}MS"))
# a zero in front of very many digits; a duration above the limit that is not the only one
no(lasting("T#" + "0~" + "0" * 3000 + "ms"))
fault(5, within("A0(L,T#5ms);A1(D,T#86400001ms);A2(SD,T#5ms);"))
fault(5, within("A0(L,T#4294967301ms);A1(D,T#4294967301ms);"))

# transition: keywords, steps, the sign, the end
for wrong in ("TRANSITION ~S0 TO S1 := TRUE; END_TRANSITION", "TRANSITION ~TO S1 FROM S0 := TRUE; END_TRANSITION",
              "TRANSITION ~:= TRUE; END_TRANSITION", "TRANSITION~; END_TRANSITION", "TRANSITION ~END_TRANSITION",
              "TRANSITION~FROM S0 TO S1 := TRUE; END_TRANSITION", "TRANSITION~(FROM S0 TO S1 := TRUE; END_TRANSITION",
              "TRANSITION~: FROM S0 TO S1 := TRUE; END_TRANSITION", "TRANSITION~S FROM S0 TO S1 := TRUE; END_TRANSITION",
              "TRANSITION FRO~ S0 TO S1 := TRUE; END_TRANSITION", "TRANSITION FROM~S0 TO S1 := TRUE; END_TRANSITION",
              "TRANSITION FROM~: S0 TO S1 := TRUE; END_TRANSITION", "TRANSITION FROM ~TO S1 := TRUE; END_TRANSITION",
              "TRANSITION FROM ~FROM S0 TO S1 := TRUE; END_TRANSITION", "TRANSITION FROM S0 ~S1 := TRUE; END_TRANSITION",
              "TRANSITION FROM S0 ~:= TRUE; END_TRANSITION", "TRANSITION FROM S0~, TO S1 := TRUE; END_TRANSITION",
              "TRANSITION FROM S0~TO S1 := TRUE; END_TRANSITION", "TRANSITION FROM S0 TO~S1 := TRUE; END_TRANSITION",
              "TRANSITION FROM S0 TO ~:= TRUE; END_TRANSITION", "TRANSITION FROM S0 TO ~TO S1 := TRUE; END_TRANSITION",
              "TRANSITION FROM S0 TO S1 ~TRUE; END_TRANSITION", "TRANSITION FROM S0 TO S1 ~= TRUE; END_TRANSITION",
              "TRANSITION FROM S0 TO S1 :~TRUE; END_TRANSITION", "TRANSITION FROM S0 TO S1 :~: = TRUE; END_TRANSITION",
              "TRANSITION FROM S0 TO S1 :~\t= TRUE; END_TRANSITION", "TRANSITION FROM S0 TO S1 :=~= TRUE; END_TRANSITION",
              "TRANSITION FROM S0 TO S1 := ~:= TRUE; END_TRANSITION", "TRANSITION FROM S0 TO S1 := ~; END_TRANSITION",
              "TRANSITION FROM S0 TO S1 ~; END_TRANSITION", "TRANSITION FROM S0 TO S1 ~END_TRANSITION",
              "TRANSITION FROM S0 TO S1 := TRUE ~END_TRANSITION", "TRANSITION FROM S0 TO S1 := TRUE;~; END_TRANSITION",
              "TRANSITION FROM S0 TO S1 := TRUE; END_~STEP", "TRANSITION FROM S0 TO S1 := TRUE; ~TRANSITION",
              "TRANSITION FROM S0 TO S1 := TRUE; END_TRANSITION~S", "TRANSITION FROM S0 TO S1 := TRUE; END~TRANSITION",
              "TRANSITION FROM S0 TO S1 := TRUE; END~ TRANSITION", "TRANSITION FROM S0 TO S1 := TRUE; END_TRANS~",
              "TRANSITION FROM S0 TO S1 := TRUE;~", "TRANSITION FROM S0 TO S1 := TRUE~", "TRANSITION FROM S0 TO S1 :~", "TRANSITION FROM S0 TO S1~",
              "TRANSITION FROM S0 TO~", "TRANSITION FROM S0~", "TRANSITION FROM~", "TRANSITION~", "TRANSITION FROM S0 TO S1 := TRUE; ~A0();",
              "TRANSITION FROM S0 TO S1 := TRUE~:",
              "TRANSITION FROM S0 TO S1 := TRUE; END_TRANSITION~TRANSITION FROM S1 TO S0 := TRUE; END_TRANSITION",
              "TRANSITION FROM S0 TO S1 := TRUE; END_TRANSITION T~O"):
    no(moved(wrong))
# steps: a name, or a list in brackets of two names or more
for wrong in ("(~)", "(~,S0)", "(S0,~)", "(S0,~,S1)", "(S0 ~S1)", "(S0~;S1)", "(~(S0,S1))", "(S0,~(S1,S2))", "(S0,S1,~)", "(S0,S1~:", "(S0~:",
              "(S0~.S1)", "S0~,S1", "S0 ~S1", "S0~)", "(S0,S1)~)", "(S0,S1)~,S2", "(S0,S1) ~S2", "(S0,~X1)", "(S0,~A1)", "~X0", "~A0", "~[S0,S1]",
              "~{S0,S1}", "(S0 ~AND S1)", "(S0,S1) ~(S1,S2)", "(~\x08S0,S1)", "(S0,S1~\0)", "(S0,S6~4)", "(S0,S0~1)", "~s0", "(S0,~s1)", "(~TRUE,S1)",
              "~TRUE", "~0", "(~0,1)", "~NOT S0"):
    no(leaving(wrong))
    no(entering(wrong))
for sources, names in (("S2", [2]), ("(S0,S1)", [0, 1]), ("(S1,S0)", [0, 1]), ("(S0,S1,S2)", [0, 1, 2]), ("(S2,S0)", [0, 2]), ("(S1,S1)", [1]),
                       ("(S0,S1,S0)", [0, 1]), ("( S2 , S2 , S2 , S2 )", [2]), ("(\tS2\n,\vS1\f)", [1, 2])):
    yes(leaving(sources), left(names))
    yes(entering(sources), entered(names))
yes(moved("TRANSITION FROM(S0,S1)TO(S2,S3):=TRUE;END_TRANSITION"), chart(FOUR, transitions=[transition([0, 1], [2, 3])]))
yes(moved("TRANSITION FROM(S0,S0)TO(S1,S1):=TRUE;END_TRANSITION"), chart(FOUR, transitions=[GO]))
yes(moved("TRANSITION FROM S0 TO(S2,S3):=TRUE;END_TRANSITION"), chart(FOUR, transitions=[transition([0], [2, 3])]))
yes(moved("TRANSITION FROM(S0,S1)TO S3:=TRUE;END_TRANSITION"), chart(FOUR, transitions=[transition([0, 1], [3])]))
EVEN, UNEVEN = [f"S{k}" for k in range(0, 64, 2)], [f"S{k}" for k in range(1, 64, 2)]
HALVES = chart("1" + "0" * 63, transitions=[transition(range(0, 64, 2), range(1, 64, 2))])
yes(ALL + go(f"({','.join(EVEN)})", f"({','.join(UNEVEN)})"), HALVES)
yes(ALL + go(f"({','.join(EVEN * 9)})", f"({' , '.join(UNEVEN * 9)})"), HALVES)
# condition: TRUE, or inputs, each plain or after one NOT
for wrong in ("X0 ~X1", "X0 AND ~", "~AND X0", "X0 AND ~AND X1", "X0 ~NOT X1", "NOT X0 ~NOT X1", "NOT ~", "NOT ~AND X0", "NOT~X0", "X0~AND X1",
              "X0 AND~X1", "X0 AND~NOT X1", "X0 AND NOT~X1", "X0 AND NOT ~NOT X1", "NOT ~NOT", "TRUE ~TRUE", "TRUE~TRUE", "TRUE~X", "TRU~", "TR~EU",
              "T~", "TRUE ~X0", "TRUE ~OR X0", "TRUE~,", "X0 ~TRUE", "X0~,X1", "X0 AND X1 ~X2", "X0 AND X1~,X2", "X0 AND NOT ~TRUE", "X0 AND ~FALSE",
              "~S0", "~A0", "X0 AND ~S0", "NOT ~S0", "~1", "~0", "~!X0", "~-X0", "X0~.0", "X0~[1]", "X0~:=TRUE", "X0 A~", "X0 AN~", "X0 AND~", "NO~",
              "N~", "~not X0", "X0 ~and X1", "X0 A~nd X1", "T~rue", "X0 AND NO~", "X0 ~OR X1 AND X2", "X0 AND X1 ~OR X2", "N~AND X0", "X0 AND~, X1",
              "X0 AND~;", "X0~\x0eX1", "X0~)", "X0 AND X1~)", "NOT~(X0)", "NOT~_X0", "NOT X0~x", "X0 ~X"):
    no(told(wrong))
for condition, on, off in (("TRUE", [], []), ("X0", [0], []), ("NOT X0", [], [0]), ("X0 AND X1", [0, 1], []), ("X1 AND X0", [0, 1], []),
                           ("NOT X0 AND X1", [1], [0]), ("X0 AND NOT X1", [0], [1]), ("NOT X0 AND NOT X1", [], [0, 1]),
                           ("X0 AND NOT X1 AND X2", [0, 2], [1]), ("NOT X0 AND X1 AND X2", [1, 2], [0]), ("X3 AND X3", [3], []),
                           ("NOT X3 AND NOT X3", [], [3]), ("X3 AND X4 AND X3", [3, 4], []), ("NOT X3 AND X4 AND NOT X3 AND X4", [4], [3]),
                           ("X31 AND NOT X30", [31], [30]), ("X1 AND X10", [1, 10], []), ("NOT X1 AND X10", [10], [1]),
                           ("X0\nAND\tNOT\rX1", [0], [1]), (" AND ".join(f"X{k}" for k in range(32)), range(32), []),
                           (" AND ".join(f"NOT X{k}" for k in range(32)), [], range(32)),
                           (" AND ".join(f"{'NOT ' * (k % 2)}X{k}" for k in range(31, -1, -1)), range(0, 32, 2), range(1, 32, 2)),
                           (" AND ".join(["X5", "NOT X6"] * 200), [5], [6])):
    yes(told(condition), asked(on, off))

# the limits: 64 steps, no S64; 64 transitions; 256 blocks
yes(ALL, chart("1" + "0" * 63))
yes(many(64, initial=range(64)), chart("1" * 64))
yes(many(64, initial=(0, 63)), chart("1" + "0" * 62 + "1"))
no(ALL + " STEP S6~4: END_STEP")
for name in ("S0", "S1", "S63"):
    odd(ALL + f" STEP ~{name}: END_STEP")
    odd(ALL + f" INITIAL_STEP ~{name}: END_STEP STEP S5: END_STEP")
odd(ALL + " STEP ~S0: END_STEP" + ALL.removeprefix(ONE) * 3)
yes(TWO + go() * 64, chart("10", transitions=[GO] * 64))
yes(TWO + go() * 63 + go("S1", "S0", "NOT X31"), chart("10", transitions=[GO] * 63 + [transition([1], [0], off=[31])]))
for count in (65, 66, 128, 129, 256, 257, 320):
    fault(4, TWO + go() * count)
yes(within("A0();" * 256), acted(1, *[block(0, 0, N)] * 256))
yes(within("A0();" * 255 + "A31(SL,T#9ms);"), acted(32, *[block(0, 0, N)] * 255, block(0, 31, SL, 9)))
yes(many(64, inside="A0();A1(R);A2(S);A3(P);"),
    chart("1" + "0" * 63, 4, blocks=[block(k, a, q) for k in range(64) for a, q in enumerate((N, R, S, P))]))
for count in (257, 258, 320, 512, 513):
    fault(4, within("A0();" * count))
fault(4, many(64, inside="A0();A1(R);A2(S);A3(P);A4();"))
fault(4, many(2, inside="A0();" * 129))
fault(4, within("A0();" * 256 + "A31();"))
fault(4, within("A0();" * 257) + " STEP S1: END_STEP" + go() * 65)
# nothing else is limited: more than 65,536 bytes, in white space and in digits
FAR = " " * 70_000
yes(f"INITIAL_STEP S0:{FAR}END_STEP", chart("1"))
no(f"INITIAL_STEP S0:{FAR}END_~X")
odd(f"INITIAL_STEP S0:{FAR}END_STEP STEP ~S0: END_STEP")
fault(5, lasting("T#1" + "0" * 70_000 + "ms"))

# 25: the first step that is not named by its number, in a step's own head
odd("INITIAL_STEP ~S1: END_STEP STEP S0: END_STEP")
odd("INITIAL_STEP S0: END_STEP STEP ~S0: END_STEP")
odd("INITIAL_STEP S0: END_STEP STEP ~S2: END_STEP STEP S1: END_STEP")
odd("INITIAL_STEP S0: END_STEP STEP S1: END_STEP STEP ~S3: END_STEP STEP S2: END_STEP")
odd("INITIAL_STEP S0: END_STEP INITIAL_STEP ~S10: END_STEP")
odd("INITIAL_STEP S0: END_STEP\n\nSTEP\n\n~S63\n\n: END_STEP")
odd(many(9) + " STEP ~S8: END_STEP")
odd(many(9) + " STEP ~S10: END_STEP")
odd(many(10) + " STEP ~S1: END_STEP")
odd(many(10) + " STEP ~S11: END_STEP STEP S10: END_STEP")
odd(many(63) + " STEP ~S62: END_STEP")
odd("INITIAL_STEP ~S1: A0(L,T#5ms); END_STEP STEP S1: A1(); END_STEP" + go("S1", "S0"))
odd(many(4) + " STEP ~S5: END_STEP" + go("S4", "S5"))
# 5: a step that the text does not have
for name in ("S4", "S5", "S10", "S40", "S62", "S63"):
    fault(5, leaving(name))
    fault(5, entering(f"(S0,{name})"))
fault(5, leaving("(S4,S5)"))
fault(5, ONE + go("S0", "S1"))
fault(5, ONE + go("S1", "S0"))
fault(5, many(63) + go("S63", "S0"))
fault(5, many(63) + go("(S0,S1)", "(S2,S63)"))
# 6: a step both a source and a target; 7: an input both plain and after NOT
for sources, targets in (("S0", "S0"), ("(S0,S1)", "S1"), ("S0", "(S1,S0)"), ("(S0,S1)", "(S1,S2)"), ("(S0,S1)", "(S1,S0)"), ("(S3,S3)", "S3"),
                         ("S3", "(S3,S3)")):
    fault(6, moved(go(sources, targets)))
fault(6, ONE + go("S0", "S0"))
fault(6, ALL + go("S63", "(S0,S63)"))
for condition in ("X0 AND NOT X0", "NOT X0 AND X0", "X0 AND X1 AND NOT X0", "NOT X31 AND X1 AND X31", "X1 AND NOT X2 AND X3 AND NOT X3",
                  "X5 AND X5 AND NOT X5"):
    fault(7, told(condition))
# 8: two timed blocks for one action, on one step or on two
for first in TIMED:
    for second in TIMED:
        fault(8, within(f"A0({first},T#5ms);A0({second},T#5ms);"))
fault(8, "INITIAL_STEP S0: A31(L,T#0ms); END_STEP STEP S1: A31(D,T#0ms); END_STEP")
fault(8, within("A0(L,T#1ms);" + "A0();" * 254 + "A0(SD,T#1ms);"))
fault(8, within("A1(L,T#1ms);A0(L,T#1ms);A2(L,T#1ms);A0(DS,T#1ms);"))
yes(within("A0(L,T#5ms);A1(L,T#5ms);"), acted(2, block(0, 0, L, 5), block(0, 1, L, 5)))
yes(within("A0(N);A0(D,T#5ms);A0(R);"), acted(1, block(0, 0, N), block(0, 0, D, 5), block(0, 0, R)))

# the order of the refusals: 19, 25, 4, transition by transition 5, 6, 7, the blocks' 5, 8. Texts with two faults or more; `~` where it counts
ODD, OTHER = "INITIAL_STEP ~S1: {}END_STEP STEP S1: END_STEP", "INITIAL_STEP S0: {}END_STEP STEP S1: END_STEP"
OUT, BOTH, TOLD, LATE, TWICE = go("S0", "S2"), go("S1", "S1"), go("S0", "S1", "X0 AND NOT X0"), "A0(L,T#86400001ms);", "A0(L,T#5ms);A0(D,T#5ms);"
SURPLUS = go() * 65
for inside, behind in (("", SURPLUS), ("A0();" * 257, ""), ("", OUT), ("", BOTH), ("", TOLD), (LATE, ""), (TWICE, "")):
    odd(ODD.format(inside) + behind)
    no(OTHER.format(inside) + behind + " ~X")
    no(OTHER.format(inside) + behind + " TRANSITION~")
    no(ODD.format(inside).replace("~", "") + behind + " ~X")
    no(OTHER.format("~X" + inside) + behind)
for inside, behind in (("", SURPLUS + OUT), ("", OUT + SURPLUS), ("", BOTH + SURPLUS), ("", TOLD + SURPLUS), (LATE, SURPLUS), (TWICE, SURPLUS),
                       ("A0();" * 257, OUT), ("A0();" * 257, BOTH), ("A0();" * 257, TOLD), (LATE + "A0();" * 256, ""), ("A0();" * 256 + LATE, ""),
                       (TWICE + "A0();" * 255, ""), ("A0();" * 255 + TWICE, "")):
    fault(4, OTHER.format(inside) + behind)
# two faults of one transition, and of two
fault(5, TWO + go("S2", "S2"))
fault(5, TWO + go("S0", "S2", "X0 AND NOT X0"))
fault(6, TWO + go("S0", "S0", "X0 AND NOT X0"))
fault(5, TWO + go("(S0,S5)", "(S0,S1)", "X0 AND NOT X0"))
fault(5, TWO + OUT + BOTH)
fault(6, TWO + BOTH + OUT)
fault(5, TWO + OUT + TOLD)
fault(7, TWO + TOLD + OUT)
fault(6, TWO + BOTH + TOLD)
fault(7, TWO + TOLD + BOTH)
fault(7, TWO + go() * 62 + TOLD + BOTH)
fault(6, TWO + go() * 62 + BOTH + OUT)
# .. a transition's before a block's 5, and that before 8
for number, behind in ((5, OUT), (6, BOTH), (7, TOLD)):
    fault(number, OTHER.format(LATE) + behind)
    fault(number, OTHER.format(TWICE) + behind)
    fault(number, OTHER.format(LATE + TWICE) + go() + behind)
fault(5, within(TWICE + "A1(L,T#86400001ms);"))
fault(5, within(LATE + "A0(L,T#86400001ms);"))
fault(5, within("A0(L,T#5ms);A0(L,T#86400001ms);"))
# .. all of them: what comes first goes first
odd("INITIAL_STEP ~S1: " + TWICE + LATE + "END_STEP" + SURPLUS + OUT + BOTH + TOLD)
odd("INITIAL_STEP ~S1: " + TWICE + LATE + "END_STEP" + SURPLUS + OUT + BOTH + TOLD + " ")
no("INITIAL_STEP S1: " + TWICE + LATE + "END_STEP" + SURPLUS + OUT + BOTH + TOLD + " T~")
fault(4, OTHER.format(TWICE + LATE) + SURPLUS + OUT + BOTH + TOLD)
no("INITIAL_STEP S1: END_STEP STEP S6~4: END_STEP")
no("INITIAL_STEP S1: END_STEP ~END_STEP")
no("INITIAL_STEP S1: A~")

BY_THEMSELVES = len(CASES)

# One text with every pair of neighbouring tokens that there is: its parts, token by token, each with the chart of the text up to it
T1, T2, T3 = transition([0], [1]), transition([0, 1], [2], on=[0, 2], off=[1]), transition([2], [0, 1], off=[31])
B1, B2 = [block(0, 0, N), block(0, 1, L, 5)], [block(2, 2, N)]
PARTS = [
    ("INITIAL_STEP S0 : A0 ( ) ; A1 ( L , T#5ms ) ; END_STEP", chart("1", 2, blocks=B1)),
    ("INITIAL_STEP S1 : END_STEP", chart("11", 2, blocks=B1)),
    ("STEP S2 : A2 ( N ) ; END_STEP", chart("110", 3, blocks=B1 + B2)),
    ("TRANSITION FROM S0 TO S1 := TRUE ; END_TRANSITION", chart("110", 3, [T1], B1 + B2)),
    ("TRANSITION FROM ( S0 , S1 ) TO S2 := X0 AND NOT X1 AND X2 ; END_TRANSITION", chart("110", 3, [T1, T2], B1 + B2)),
    ("TRANSITION FROM S2 TO ( S0 , S1 , S1 ) := NOT X31 ; END_TRANSITION", chart("110", 3, [T1, T2, T3], B1 + B2)),
]
TOKENS = " ".join(part for part, _ in PARTS).split(" ")
SAID = PARTS[-1][1]


def is_word(token):
    return token[0].isalpha()


def gap(k):
    """What must stand before token k: a blank between two words."""
    return " " if 0 < k < len(TOKENS) and is_word(TOKENS[k - 1]) and is_word(TOKENS[k]) else ""


def spelled(gaps=None, tokens=TOKENS):
    """The text with what it needs before its tokens, or with these instead before some; len(TOKENS) stands for its end."""
    gaps = gaps or {}
    return "".join(gaps.get(k, gap(k)) + token for k, token in enumerate([*tokens, ""]))


def replaced(k, place, byte):
    """The text with a byte of token k replaced, and marked."""
    token = TOKENS[k][:place] + "~" + byte + TOKENS[k][place + 1:]
    return spelled(tokens=TOKENS[:k] + [token] + TOKENS[k + 1:])


PLAIN = spelled()
GAPS = range(len(TOKENS) + 1)
yes(PLAIN, SAID)
yes(" ".join(TOKENS), SAID)
yes(spelled({k: BLANKS * 2 for k in GAPS}), SAID)
# each byte of white space by itself in every place, and others that are none
for k in GAPS:
    for blank in BLANKS:
        if spelled({k: blank}) != PLAIN:
            yes(spelled({k: blank}), SAID)
OTHERS = "\0\x01\x08\x0e\x1f!\"$%'*+-./<>?@[\\]^`{|}\x7f\x80\x85\xa0\xff"
for k in GAPS:
    no(spelled({k: "~" + OTHERS[k % len(OTHERS)]}))
    no(spelled({k: " ~" + OTHERS[(k + 7) % len(OTHERS)] + " "}))
# two words with nothing between them
for k in GAPS:
    if gap(k):
        no(spelled({k: "~"}))
# each byte of each token replaced by one that no token has
for k, token in enumerate(TOKENS):
    for place in range(len(token)):
        no(replaced(k, place, OTHERS[(11 * k + place) % len(OTHERS)]))
# each letter in lower case, but for those of the unit, which are so; once for each token
for k, token in enumerate(TOKENS):
    if token not in TOKENS[:k]:
        for place in range(len(token)):
            if token[place].isupper():
                no(replaced(k, place, token[place].lower()))
# cut: where a part ends, with what white space follows, it is a text; elsewhere it ends too early. The longest first, so that what was cut off still
# stands where the driver has put it
ENDS = {}
for count, (_, line) in enumerate(PARTS, 1):
    length = len(spelled(tokens=" ".join(part for part, _ in PARTS[:count]).split(" ")).rstrip(" "))
    ENDS[length] = ENDS[length + 1] = line
for length in range(len(PLAIN) - 1, 0, -1):
    if length in ENDS:
        yes(PLAIN[:length], ENDS[length])
    else:
        no(PLAIN[:length] + "~")


# The same chart by text and by bytes, run: name, text, its records, the start's clock, calls, and facts by hand for some of them

PULSES = within("A0();A1(P);A2(P1);A3(P0);A4(L,T#10ms);A5(D,T#10ms);A6(S);") + " STEP S1: A6(R); A7(SD,T#5ms); A8(SL,T#5ms); A9(DS,T#3ms); END_STEP"
RUNS = [
    ("chart A", CHART_A, RECORDS_A, 1000, [(1010, {0}), (1510, {1})], {
        0: dict(active={0}, activity={}, outputs={}), 1: dict(taken={0}, active={1}, activity={0, 1}, stored={1}, outputs={0: 1, 1: 1}),
        2: dict(taken={1}, active={0}, activity={}, stored={}, outputs={})}),
    ("every qualifier", PULSES + go(condition="X0"),
     ("10", 10, [transition([0], [1], on=[0])],
      [block(0, 0, N), block(0, 1, P), block(0, 2, P1), block(0, 3, P0), block(0, 4, L, 10), block(0, 5, D, 10), block(0, 6, S),
       block(1, 6, R), block(1, 7, SD, 5), block(1, 8, SL, 5), block(1, 9, DS, 3)]),
     0, [(9, {}), (10, {}), (11, {0}), (13, {}), (14, {}), (15, {}), (16, {})], {
         0: dict(activity={0, 1, 2, 4, 6}, outputs={0: 1, 1: 1, 2: 1, 4: 1, 6: 1}), 1: dict(activity={0, 4, 6}), 2: dict(activity={0, 5, 6}),
         3: dict(taken={0}, activity={3, 8}, latched={7, 8}), 4: dict(activity={8}), 5: dict(activity={8, 9}, stored={9}),
         7: dict(activity={7, 9}, outputs={7: 1, 9: 1})}),
    ("a fork, a join and NOT, under the key", many(4, initial=(0,)) + go("S0", "(S1,S2)", "NOT X3") + go("(S2,S1)", "S3", "X31 AND NOT X0"),
     (FOUR, 0, [transition([0], [1, 2], off=[3]), transition([1, 2], [3], on=[31], off=[0])]),
     2**32 - 5, [(0, {3}), model.HOLD, (5, {}), model.RELEASE, (6, {}), (7, {0, 31}), (70_000, {31}), (8, {31})], {
         1: dict(taken={}, active={0}, reasons={0: 3, 1: 1}), 3: dict(reasons={0: 7, 1: 7}), 5: dict(taken={0}, active={1, 2}),
         6: dict(reasons={0: 1, 1: 3}), 7: dict(code=11), 8: dict(taken={1}, active={3})}),
    ("round 64 steps", ALL + "".join(go(f"S{k}", f"S{(k + 1) % 64}") for k in range(64)),
     ("1" + "0" * 63, 0, [transition([k], [(k + 1) % 64]) for k in range(64)]), 7, [(7 + k, {}) for k in range(66)], {
         1: dict(taken={0}, active={1}), 64: dict(taken={63}, active={0}), 66: dict(taken={1}, active={2})}),
]
# a refused text has the all-zero chart, which every call refuses by its edition, 0
REFUSED = ["", "INITIAL_STEP S64: END_STEP", "INITIAL_STEP S1: END_STEP", within("A0(L,T#86400001ms);")]
NO_RUN = "5" + " 0" * 9 + " c t o" + " 0" * 32 + " w"


def request(text, clock, calls):
    data = text.encode("latin-1")
    return struct.pack("<I", len(data)) + data + struct.pack("<IH", clock, len(calls)) + b"".join(map(model.call_bytes, calls))


def run_files():
    calls = [(1, {0}), model.HOLD, model.RELEASE]
    requests = [request(text, clock, calls) for _, text, _, clock, calls, _ in RUNS] + [request(text, 0, calls) for text in REFUSED]
    lines = [model.line(answer) for name, _, said, *rest in RUNS for answer in model.answers_of(name, file_of(*said), *rest)]
    return {
        "tests/stored/text_runs.in": b"".join(requests),
        "tests/stored/text_runs.out": "".join(line + "\n" for line in lines + [NO_RUN] * len(REFUSED) * (1 + len(calls))).encode(),
    }


if __name__ == "__main__":
    # the forms of a text and of its line, by hand
    assert chart("1") == "0 0 1 0 0 0 0 1 010001000100000000" and ENDS[41] == ENDS[42] == PARTS[0][1]
    assert PLAIN.startswith("INITIAL_STEP S0:A0();A1(L,T#5ms);END_STEP INITIAL_STEP S1:END_STEP STEP S2:A2(N);END_STEP TRANSITION FROM S0 TO S1:=")
    store({
        "tests/stored/read_texts.in": b"".join(struct.pack("<I", len(text)) + text for text in CASES),
        "tests/stored/read_texts.out": "".join(line + "\n" for line in CASES.values()).encode(),
        **run_files(),
    }, "tests/read_texts.py")
    accepted = sum(line.startswith("0 ") for line in CASES.values())
    print(f"read_texts: {len(CASES)} texts, {BY_THEMSELVES} of them by themselves, {accepted} accepted; text_runs: {len(RUNS) + len(REFUSED)} runs")
