#!/usr/bin/env python3
"""The engine beside a second implementation of document 01 and of requests (i) to (iv) and (vi) to (xi) (tests/second.rs), on random cases.

  tests/compare.py [--seed N] [--cases N]

Run it after `rt ci` or `make`, and `tests/build`, which build the programs. N random files are read and N read and written back, 5 N calls are made on
held charts and runs, N held charts written, N shifts made, N pairs of weighings added and N runs of calls made from a start through the library's
driver, a part of the calls and shifts by an index, right or wrong, 2 N texts read, and N / 200 short ones cut and changed in every byte, 10 N in all,
and N / 20 charts and traces run by both bench_runs, the proved one and the one in C; the second implementation does the same, and all that they write
must be equal. tests/cases.rs, compiled here, makes the cases, compares, and counts what they reached; it fails if they did not reach all that it
asks for. A difference is printed with its seed and number, and so repeats.
"""
import argparse
import os
import shutil
import subprocess
import sys
import tempfile
from pathlib import Path

ROOT = Path(__file__).resolve().parent.parent
MADE = ROOT / "target" / "compare"


def rustc():
    """The compiler's path. Debian's package is fetched if there is none."""
    if not shutil.which("rustc"):
        for words in (["update", "-qq"], ["install", "-y", "-qq", "rustc"]):
            subprocess.run(["apt-get", *words], stdout=subprocess.DEVNULL, check=False)
    return shutil.which("rustc") or sys.exit("compare: rustc is missing, and apt-get did not install Debian's package 'rustc'")


def build(*names):
    """The programs, compiled beside each other where the source is newer; in one unit each, which takes half the time."""
    MADE.mkdir(parents=True, exist_ok=True)
    programs = {ROOT / "tests" / f"{name}.rs": MADE / name for name in names}
    stale = {source: made for source, made in programs.items() if not made.exists() or made.stat().st_mtime < source.stat().st_mtime}
    running = [(source, made, subprocess.Popen([rustc(), "-O", "-C", "codegen-units=1", "--edition", "2021", "-o", f"{made}.new", source]))
               for source, made in stale.items()]
    for source, made, compiler in running:
        if compiler.wait():
            sys.exit(f"compare: rustc did not compile {source}")
        Path(f"{made}.new").rename(made)
    return programs.values()


def command(name):
    """The words that run a built program, found once instead of at each start."""
    program = ROOT / "crates" / name / "out" / name if "/" not in name else ROOT / name
    if not program.is_file():
        sys.exit(f"compare: {program.relative_to(ROOT)} is missing; run `make` and tests/build first")
    words = [ROOT / "tools" / "run", "-n", name if "/" not in name else program]
    return subprocess.run(words, stdout=subprocess.PIPE, text=True, check=True).stdout.splitlines()


def main():
    words = argparse.ArgumentParser()
    words.add_argument("--seed", type=int, default=1)
    words.add_argument("--cases", type=int, default=20_000)
    asked = words.parse_args()
    # without a named processor the C library copies byte by byte under the emulator
    os.environ.setdefault("EMULATOR_WORDS", "-cpu Nehalem")
    programs = [command(name) for name in ("build/driver", "bench_run", "build/bench_run")]
    second, cases = build("second", "cases")
    with tempfile.TemporaryDirectory() as folder:
        behind = [word for program in programs for word in ("--", *program)]
        sys.exit(subprocess.run([cases, str(asked.seed), str(asked.cases), folder, second, *behind], check=False).returncode)


if __name__ == "__main__":
    main()
