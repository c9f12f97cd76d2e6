#!/usr/bin/env python3
"""The stored cases of `driver write_back`: its input, and the output that documents 01 and 02 ask for.

  tests/write_back.py           write tests/stored/write_back.in and write_back.out
  tests/write_back.py --check   say whether they are what this file says

Each case is a file of read_charts, whose number is derived by hand there, and its line: that number where the file is refused;
else number 0 and the file's own length, and `same`, since "writing what was read gives the same bytes". Each file that is accepted
without an edition record is a case with it too, and each with it one without: "request (i) holds as it reads" in both editions.
"""
import struct
import sys

sys.dont_write_bytecode = True  # leave no folder beside read_charts.py
from read_charts import CASES, EDITION, END, second, store  # noqa: E402


def line(file, read):
    number = read.split()[0]
    return f"0 {len(file)} same\n" if number == "0" else f"{number}\n"


def other(file, read):
    """An accepted file in the other edition, as its line says which it has; it is accepted as well."""
    return second(file) if read.endswith(" 1") else file.removesuffix(EDITION + END) + END


ACCEPTED = [(file, read) for _, file, read in CASES if read.startswith("0 ")]
ALL = [(file, read) for _, file, read in CASES] + [(other(file, read), read) for file, read in ACCEPTED]

if __name__ == "__main__":
    # none is there twice for want of a record that was to go or to come
    assert all(abs(len(other(file, read)) - len(file)) == len(EDITION) == 5 for file, read in ACCEPTED)
    store({
        "tests/stored/write_back.in": b"".join(struct.pack("<H", len(file)) + file for file, _ in ALL),
        "tests/stored/write_back.out": "".join(line(file, read) for file, read in ALL).encode(),
    }, "tests/write_back.py")
    print(f"write_back: {len(ALL)} cases")
