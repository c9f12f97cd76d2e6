#!/usr/bin/env python3
"""A program that reads chart.bin and standard input, run on cases: what tests/bench_run.py and tests/weigh_page.py share.

A case is its name, the chart file (None: there is none), the input and the lines that are to be printed. The first one of a script is accepted, and
is what `rt ci` runs the program on.
"""
import os
import shutil
import subprocess
import sys
import tempfile
from pathlib import Path

sys.dont_write_bytecode = True
from read_charts import ROOT, store  # noqa: E402


def text(lines):
    return "".join(line + "\n" for line in lines).encode()


def command(program, root=ROOT):
    """tools/run takes a name or a path."""
    return [root / "tools" / "run", root / program if "/" in program else program]


def run(program, folder, given, output=subprocess.PIPE, root=ROOT, user=None):
    words = command(program, root)
    return subprocess.run(words, cwd=folder, input=given, stdout=output, stderr=subprocess.PIPE, timeout=60, check=False, user=user)


def run_case(program, name, chart, given, lines):
    with tempfile.TemporaryDirectory() as folder:
        if chart is not None:
            (Path(folder) / "chart.bin").write_bytes(chart)
        done = run(program, folder, given)
    expected = text(lines)
    if done.stdout != expected or done.stderr or done.returncode != 0:
        sys.exit(f"{program}, {name}: status {done.returncode}, printed {done.stdout[-400:]!r} {done.stderr!r}, expected {expected[-400:]!r}")


def run_unreadable(program, chart, given, lines):
    """A chart.bin that is there and that its reader may not read. Root may read every file, so there the program runs as nobody, from a copy."""
    with tempfile.TemporaryDirectory() as folder:
        os.chmod(folder, 0o755)
        for part in ["tools/run", program if "/" in program else f"crates/{program}/out/{program}"]:
            (Path(folder) / part).parent.mkdir(parents=True)
            shutil.copy(ROOT / part, Path(folder) / part)
        path = Path(folder) / "chart.bin"
        user = 65534 if os.geteuid() == 0 else None
        for mode, expected in [(0o444, text(lines)), (0, b"refused chart 1\n")]:
            path.unlink(missing_ok=True)
            path.write_bytes(chart)
            path.chmod(mode)
            done = run(program, folder, given, root=Path(folder), user=user)
            assert (done.stdout, done.returncode) == (expected, 0), (mode, done.stdout, done.stderr)
    return 2


def run_odd(program, chart, given):
    """A chart.bin that is far too large, or can't be opened or read, an output that takes nothing: a clear end in each. The run would print much."""
    odd = 0
    for make, expected in [
        (lambda path: path.mkdir(), b"refused chart 1\n"),
        (lambda path: path.symlink_to("nowhere"), b"refused chart 1\n"),
        (lambda path: path.write_bytes(chart.ljust(10_000_000, b"\0")), b"refused chart 10\n"),
    ]:
        with tempfile.TemporaryDirectory() as folder:
            make(Path(folder) / "chart.bin")
            done = run(program, folder, given)
            assert (done.stdout, done.returncode) == (expected, 0), (expected, done.stdout[-200:])
        odd += 1
    with tempfile.TemporaryDirectory() as folder:
        (Path(folder) / "chart.bin").write_bytes(chart)
        with open("/dev/full", "wb") as full:
            assert run(program, folder, given, full).returncode == 0, "a full device"
        closed = subprocess.run(["sh", "-c", 'exec "$0" "$@" >&-', *command(program)], cwd=folder, input=given, timeout=60, check=False)
        assert closed.returncode == 0, "a closed output"
    return odd + 2


def main(name, cases, long, kept=None):
    """What a script's command line asks for; `long` is the chart and the input of a run that prints much, `kept` what else it stores, by path."""
    first = cases[0][1:]
    if "--run" in sys.argv[1:]:
        program = (sys.argv[2:] or [name])[0]
        for shown in cases:
            run_case(program, *shown)
        print(f"{program}: {len(cases) + run_odd(program, *long) + run_unreadable(program, *first)} runs")
    else:
        chart, given, lines = first
        store({
            f"crates/{name}/data/chart.bin": chart,
            f"crates/{name}/stdin": given,
            f"crates/{name}/stdout": text(lines),
            **(kept or {}),
        }, f"tests/{name}.py")
        print(f"{name}: 1 stored run")
