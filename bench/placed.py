#!/usr/bin/env python3
"""The plain run of two libraries on the seven models of bench/peer, in turns in one run: how much longer the second takes.

  placed.py BEFORE/libexports.a AFTER/libexports.a [ROUNDS]

Where a loop stands to a cache line's 64 bytes changes its time, by up to a fifth on timed, and it hangs on what a program has before the library. So each library is linked four times,
at each of the places that its 16 bytes of alignment leave; a ratio is that of the mean over the four of the least times.
"""
import pathlib
import re
import statistics
import subprocess
import sys
import tempfile

BENCH = pathlib.Path(__file__).resolve().parent
sys.path.insert(0, str(BENCH / "peer"))
from models import MODELS

PLACES = [0, 16, 32, 48]


def linked(library, folder):
    """By place, a program with the library there."""
    programs = {}
    for pad in range(16, 272, 16):
        program = folder / f"{pad}"
        subprocess.run(["cc", "-O2", f"-DPAD={pad}", "-I", BENCH.parent / "bindings/c", "-o", program, BENCH / "placed.c", library], check=True)
        names = subprocess.run(["nm", program], check=True, capture_output=True, text=True).stdout
        programs.setdefault(int(re.search(r"(\w+) T teaselauger_sheet\n", names).group(1), 16) % 64, program)
    return [programs[place] for place in PLACES]


def least(rounds, sides, file):
    """For each side, the least nanoseconds at each place."""
    took = [[[] for _ in PLACES] for _ in sides]
    for _ in range(rounds):
        for side, programs in enumerate(sides):
            for place, program in enumerate(programs):
                took[side][place].append(int(subprocess.run([program], input=file, check=True, capture_output=True).stdout))
    return [[min(x) for x in side] for side in took]


def main():
    rounds = int(sys.argv[3]) if len(sys.argv) > 3 else 11
    with tempfile.TemporaryDirectory() as folder:
        sides = []
        for side in (1, 2):
            place = pathlib.Path(folder) / str(side)
            place.mkdir()
            sides.append(linked(sys.argv[side], place))
        print("| model | before, ms at each place | after | after / before |\n|---|---|---|---|")
        for name, file in MODELS.items():
            before, after = least(rounds, sides, file)
            told = [" ".join(f"{x / 1e6:.1f}" for x in side) for side in (before, after)]
            print(f"| {name} | {told[0]} | {told[1]} | {statistics.mean(after) / statistics.mean(before):.3f} |", flush=True)


if __name__ == "__main__":
    main()
