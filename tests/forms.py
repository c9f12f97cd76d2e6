#!/usr/bin/env python3
"""The stored cases of `driver list_records` and `driver lent_cycles`: their input, and the output that documents 01 and 02 ask for, by
hand.

  tests/forms.py           write their .in and .out in tests/stored
  tests/forms.py --check   say whether they are what this file says
"""
import struct
import sys

sys.dont_write_bytecode = True
from read_charts import CHART_A, END, second, step, store, transition  # noqa: E402

# Chart A in edition 2, which has a record of each kind: kind, the body's place, its length; each body stands 4 bytes behind the end of the record
# before. Asked again, it answers the same.
RECORDS = ["1 4 1", "1 9 1", "2 14 5", "2 23 5", "3 32 36", "3 72 36", "4 112 7", "4 123 7", "4 134 7", "5 145 3", "6 152 1", "end", "end"]

# start 1000; 1010 with input 0; 70,000 is refused 11; hold; 1200 with input 1, and 70,000 again; release; 1699 and 1700 with input 1. A line is
# code, taken, active, activity, clock, hold mark, and behind w the reasons that are not 0: transition 1 waits for step 1; both for the key; then
# transition 0 for step 0, and transition 1 for its wait of 500, of which the 190 ms under hold are no part.
CALLS = [(1010, 1), (70_000, 0), "hold", (1200, 2), (70_000, 0), "release", (1699, 2), (1700, 2)]
LINES = ["0 0 1 0 1000 0 w", "0 1 2 3 1010 0 w 1:1", "11 0 2 3 1010 0 w", "0 0 2 3 1010 1 w", "0 0 2 3 1200 1 w 0:7 1:7", "11 0 2 3 1200 1 w",
         "0 0 2 3 1200 0 w", "0 0 2 3 1699 0 w 0:1 1:4", "0 2 1 0 1700 0 w 0:1"]
KEY = {"hold": b"\1", "release": b"\2"}

# Document 02, request (viii), by the lent entry: steps 0 and 1 lead into each other, both true. In edition 2 both are left and entered at 1010, so
# that a wait of 10 from step 1 begins anew; at 1015 transition 0 leads into step 1, which stays, and counts on: 3 ms there, since those under hold
# are no part, 9 at 1021, 10 at 1022. In edition 1 none is taken.
SWAP = step(1) * 2 + transition([0], [1]) + transition([1], [0], wait=10) + END
SWAP_CALLS = [(1010, 0), "hold", (1012, 0), "release", (1015, 0), (1021, 0), (1022, 0)]
SWAP_LINES = ["0 0 3 0 1000 0 w", "0 3 3 0 1010 0 w", "0 0 3 0 1010 1 w", "0 0 3 0 1012 1 w 0:7 1:7", "0 0 3 0 1012 0 w", "0 1 2 0 1015 0 w 1:4",
              "0 0 2 0 1021 0 w 0:1 1:4", "0 2 1 0 1022 0 w 0:1"]
SWAP_LINES_1 = ["0 0 3 0 1000 0 w", "0 0 3 0 1010 0 w 0:5 1:5", "0 0 3 0 1010 1 w", "0 0 3 0 1012 1 w 0:7 1:7", "0 0 3 0 1012 0 w",
                "0 0 3 0 1015 0 w 0:5 1:5", "0 0 3 0 1021 0 w 0:5 1:5", "0 0 3 0 1022 0 w 0:5 1:5"]


def text(lines):
    return "".join(line + "\n" for line in lines).encode()


def started(chart, calls):
    """A start at 1000 and these calls, as the head of driver.c has it."""
    head = struct.pack("<H", len(chart)) + chart + struct.pack("<IH", 1000, len(calls))
    return head + b"".join(KEY[call] if call in KEY else struct.pack("<BII", 0, *call) for call in calls)


if __name__ == "__main__":
    store({
        "tests/stored/list_records.in": second(CHART_A),
        "tests/stored/list_records.out": text(RECORDS),
        "tests/stored/lent_cycles.in": started(CHART_A, CALLS) + started(second(SWAP), SWAP_CALLS) + started(SWAP, SWAP_CALLS),
        "tests/stored/lent_cycles.out": text(LINES + SWAP_LINES + SWAP_LINES_1),
    }, "tests/forms.py")
    print("list_records, lent_cycles: 2 stored runs")
