#!/usr/bin/env python3
"""Segments per second on the seven models of bench/peer: the proved plain run beside the native yardstick and SystemC, in turns in one run.

  plain.py ENGINE [ROUNDS]     ENGINE: the program of plain.rs; target/peer has the others (bench/peer/build.sh)

Without target/peer/systemc its columns are left out.
"""
import os
import pathlib
import statistics
import struct
import subprocess
import sys

PEER = pathlib.Path(__file__).resolve().parent / "peer"
BUILT = PEER.parents[1] / "target/peer"
BUDGET = 1000000
sys.path.insert(0, str(PEER))
from models import MODELS

os.environ["SYSTEMC_DISABLE_COPYRIGHT_MESSAGE"] = "1"


def run(command, file):
    """The sheet, the nanoseconds and n."""
    ran = subprocess.run(command, input=file, capture_output=True, check=True)
    _, ns, n = ran.stderr.split()
    return ran.stdout, int(ns), int(n)


def engines(proved):
    yield "proved", [proved]
    yield "native", [BUILT / "native", "-r", "1"]
    if (BUILT / "systemc").exists():
        yield "method", [BUILT / "systemc", "-m", "-t"]
        yield "thread", [BUILT / "systemc", "-t"]


def speeds(name, file, all_engines, rounds):
    """Million segments a second, the median of the rounds. On a horizon that is within the budget all sheets must be equal."""
    short = file[:4] + struct.pack("<I", 300) + file[8:]
    assert len({run(command, short)[0] for command in all_engines.values()}) == 1, name
    times = {engine: [] for engine in all_engines}
    for _ in range(rounds):
        for engine, command in all_engines.items():
            sheet, ns, n = run(command, file)
            assert n == BUDGET and sheet.endswith(b"spent\n"), (name, engine)
            times[engine].append(ns)
    return {engine: 1e3 * BUDGET / statistics.median(ns) for engine, ns in times.items()}


def main(proved, rounds=9):
    all_engines = dict(engines(proved))
    others = [x for x in all_engines if x != "proved"]
    print("| model | " + " | ".join([*all_engines, *("proved / " + x for x in others)]) + " |")
    print("|---" * (1 + len(all_engines) + len(others)) + "|")
    for name, file in MODELS.items():
        x = speeds(name, file, all_engines, rounds)
        row = ["%.1f" % v for v in x.values()] + ["%.2f" % (x["proved"] / x[o]) for o in others]
        print("| %s | %s |" % (name, " | ".join(row)), flush=True)


if __name__ == "__main__":
    main(sys.argv[1], *map(int, sys.argv[2:3]))
