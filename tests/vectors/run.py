#!/usr/bin/env python3
"""Holds the programs against the cases of the level in force (README.md has the format).

    run.py [BIN]      BIN: the folder of the programs, target/bin if not given

Prints each case that differs. The last line is `N cases, M differ`; the exit status is 1 if M is not 0 or there is no case.
"""
import pathlib
import subprocess
import sys
import tempfile

HERE = pathlib.Path(__file__).resolve().parent
SECONDS = 30
SHOWN = 10


class Case:
    """One line of a level's file."""

    def __init__(self, line):
        self.name, self.program, arguments, given, files, printed = line.split("\t")
        self.arguments = [] if arguments == "-" else arguments.split(" ")
        self.given, self.printed = bytes_of(given), bytes_of(printed)
        self.files = {} if files == "-" else {name: bytes_of(held) for name, held in (x.split("=", 1) for x in files.split(";"))}

    def run(self, folder):
        """What is wrong, or None."""
        program = folder / self.program
        if not program.is_file():
            return f"{program} is not there"
        with tempfile.TemporaryDirectory() as place:
            for name, held in self.files.items():
                (pathlib.Path(place) / name).write_bytes(held)
            try:
                ran = subprocess.run([program, *self.arguments], input=self.given, capture_output=True, cwd=place, timeout=SECONDS)
            except subprocess.TimeoutExpired:
                return f"not ended after {SECONDS} seconds"
        if ran.returncode:
            return f"exit status {ran.returncode}"
        return None if ran.stdout == self.printed else first_difference(self.printed, ran.stdout)


def bytes_of(field):
    if field == "-":
        return b""
    if field[0] == "=":
        return field[1:].replace(r"\n", "\n").encode("ascii")
    pieces = (piece.partition("*") for piece in field.split("."))
    return b"".join(bytes.fromhex(digits) * int(times or 1) for digits, _, times in pieces)


def first_difference(expected, printed):
    """The first line that differs; of what is no text, the first byte."""
    a, b = expected.splitlines(True), printed.splitlines(True)
    at = next((i for i, (x, y) in enumerate(zip(a, b)) if x != y), min(len(a), len(b)))
    line = lambda lines: repr(lines[at])[1:] if at < len(lines) else "nothing more"
    return f"line {at + 1}: expected {line(a)}, printed {line(b)}"


def level_in_force():
    return int((HERE / "LEVEL").read_text())


def cases(level):
    for line in (HERE / f"data/level{level:02}.txt").read_text("ascii").splitlines():
        if line and line[0] != "#":
            yield Case(line)


def main(folder):
    count = differ = 0
    for case in cases(level_in_force()):
        count += 1
        wrong = case.run(folder)
        if wrong:
            differ += 1
            if differ <= SHOWN:
                print(f"{case.name}: {case.program} {' '.join(case.arguments)[:80]}: {wrong}")
    print(f"{count} cases, {differ} differ")
    return count == 0 or differ != 0


if __name__ == "__main__":
    sys.exit(main(pathlib.Path(sys.argv[1] if sys.argv[1:] else HERE / "../../target/bin").resolve()))
