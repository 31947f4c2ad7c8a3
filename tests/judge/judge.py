#!/usr/bin/env python3
"""The plain run against an outside judge: SystemC, the reference implementation of IEEE 1666, run lowest number first.

  judge.py sheets JUDGE SEED COUNT   the sheets of generated models: target/bin/plainrun and the judge
  judge.py runs JUDGE SEED COUNT     the runs that crates/versus makes of each, budgets and horizons included: the library and the judge

JUDGE is target/peer/systemc (bench/peer/build.sh builds it; it needs libsystemc-dev). Where SystemC is not installed, target/peer/native, the same
run by plain loops, takes its place: it is a second opinion, but not IEEE 1666's. `runs` needs bindings/library.sh.

Every sheet is compared byte for byte. With the seeds of versus (24000 2400) `runs` also holds its sums against those in crates/versus/stdout.
The exit status is 1 if anything differs.
"""
import ctypes
import os
import pathlib
import subprocess
import sys
from collections import Counter
from concurrent.futures import ThreadPoolExecutor

from generator import file_of, is_long, model_of, pick, with_horizon

HERE = pathlib.Path(__file__).resolve().parent
ROOT = HERE.parents[1]
sys.path.insert(0, str(HERE.parent / "boundary"))
from boundary import library

os.environ["SYSTEMC_DISABLE_COPYRIGHT_MESSAGE"] = "1"
SHORT, LONG = 300, 3300
VERSUS = (24000, 2400)
STATES = ["ended", "overrun", "ready", "wait"]
# the columns of versus's line of counts that a judge can count, in their order, with their places in it
SUMS = {2: "runs", 3: "segments", 4: "runs done", 5: "runs spent", 6: "records ended", 7: "records overrun", 8: "records ready", 9: "records wait"}


def printed(command, file):
    ran = subprocess.run(command, input=file, capture_output=True)
    if ran.returncode:
        sys.exit("%s: exit status %d: %s" % (command, ran.returncode, ran.stderr.decode()))
    return ran.stdout.decode()


def counted(sheet):
    """What a sheet adds to the sums."""
    lines = [line.split() for line in sheet.splitlines()]
    spent = lines[-1] == ["spent"]
    seen = Counter({"runs": 1, "runs spent": spent, "runs done": not spent, "segments": sum(int(x[1]) for x in lines if x[0] == "n")})
    seen.update("records " + x[3] for x in lines if x[0] == "t")
    return seen


def compared(what, ours, judges):
    """The sums of the judge's sheet, and whether it differs from ours."""
    if ours != judges:
        print("%s differs\nours:\n%sthe judge's:\n%s" % (what, ours, judges), flush=True)
    return counted(judges) + Counter(differences=ours != judges)


class Sheets:
    """One run of each model, at the program's budget."""

    def __init__(self, judge):
        self.judge, self.plainrun = judge, str(ROOT / "target/bin/plainrun")

    def of(self, seed):
        file = file_of(model_of(seed))
        return compared("seed %d" % seed, printed([self.plainrun], file), printed([self.judge, "-o"], file))


class Runs:
    """The sixteen runs that versus makes of a model."""

    def __init__(self, judge):
        self.judge, self.library = judge, library()

    def sheet(self, file, budget):
        out = (ctypes.c_uint8 * 8192)()
        size = self.library.teaselauger_sheet((ctypes.c_uint8 * len(file))(*file), ctypes.c_size_t(len(file)), ctypes.c_uint64(budget), out, ctypes.c_size_t(8192))
        return bytes(out[:size]).decode()

    def both(self, seed, file, budget):
        what = "seed %d, horizon %d, budget %d" % (seed, int.from_bytes(file[4:8], "little"), budget)
        return compared(what, self.sheet(file, budget), printed([self.judge, "-o", "-b", str(budget)], file))

    def of(self, seed):
        file, most = file_of(model_of(seed)), LONG if is_long(seed) else SHORT
        lines = [x.split() for x in printed([self.judge, "-o", "-b", str(most)], file).splitlines()]
        n, records = next(int(x[1]) for x in lines if x[0] == "n"), [x for x in lines if x[0] == "t"]
        time = int(records[pick(seed, 8, len(records))][-2])
        seen = Counter()
        for budget in [most, max(n - 1, 0), n, pick(seed, 3, n), n + 1, 1, 0, pick(seed, 7, most)]:
            seen += self.both(seed, file, budget)
        for i, h in enumerate([time - 1, time, time + 1, 1]):
            other = with_horizon(file, min(max(h, 1), 1000000000))
            seen += self.both(seed, other, most) + self.both(seed, other, pick(seed, 9 + 2 * i, most))
        return seen


def versus_sums():
    """The sums that versus prints of its generated models."""
    lines = [x for x in (ROOT / "crates/versus/stdout").read_text().splitlines() if x.startswith("models, refusals, runs")]
    numbers = [int(x) for x in lines[1].split(": ")[-1].split()]
    return {name: numbers[place] for place, name in SUMS.items()}


def sums_differ(total):
    wrong = {name: (n, total[name]) for name, n in versus_sums().items() if n != total[name]}
    for name, (versus, judges) in wrong.items():
        print("%s: versus %d, the judge %d" % (name, versus, judges))
    if not wrong:
        print("the %d sums are those of crates/versus/stdout" % len(SUMS))
    return bool(wrong)


def main(a):
    if len(a) != 4 or a[0] not in ("sheets", "runs"):
        print(__doc__)
        return 2
    first, count = int(a[2]), int(a[3])
    one = (Sheets if a[0] == "sheets" else Runs)(a[1])
    total = Counter(models=count)
    with ThreadPoolExecutor(2) as pool:
        for seen in pool.map(one.of, range(first, first + count)):
            total.update(seen)
    for name in sorted(total):
        print(name, total[name])
    wrong = total["differences"] != 0
    if a[0] == "runs" and (first, count) == VERSUS:
        wrong |= sums_differ(total)
    print("differs" if wrong else "no difference")
    return wrong


if __name__ == "__main__":
    sys.exit(main(sys.argv[1:]))
