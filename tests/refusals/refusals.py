#!/usr/bin/env python3
"""Runs each command of docs/REFUSALS.md, as a reader would, and looks for the line that is shown beside it.

    tools/programs.sh plainrun replayrun && python3 tests/refusals/refusals.py
"""
import pathlib
import re
import subprocess
import sys

ROOT = pathlib.Path(__file__).resolve().parents[2]
ROW = re.compile(r"^\| (\d+) \|.*?\| `(.+?)` → `(.+?)`")


def rows():
    for line in (ROOT / "docs/REFUSALS.md").read_text().splitlines():
        match = ROW.match(line.replace(r"\|", "\0"))
        if match:
            number, command, shown = (part.replace("\0", "|") for part in match.groups())
            yield int(number), command, shown


def main():
    met = []
    for number, command, shown in rows():
        ran = subprocess.run(["bash", "-c", command], cwd=ROOT, capture_output=True, text=True)
        if shown not in ran.stdout.splitlines() or not shown.endswith(f"refused {number}"):
            sys.exit(f"{number}: {command}\nshown {shown!r}, printed {ran.stdout!r} {ran.stderr!r}")
        met.append(number)
    if met != list(range(1, 20)):
        sys.exit(f"numbers met: {met}")
    print(f"{len(met)} numbers met")


main()
