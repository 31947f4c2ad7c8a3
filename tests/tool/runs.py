#!/usr/bin/env python3
"""run and replay beside the programs, and runs by an order beside the plain run.

run prints what plainrun prints, replay what replayrun prints, on shipped models, stored runs and the vectors of the level in force.
By each order a run of a shipped or generated model, and of the school of docs/pictures, ends equal to the plain run; where it is cut
short it says so. The counts of --stats are counted again from the answers that were printed.
"""
import collections
import subprocess
import sys

from tool import BIN, MODELS, ROOT, generated, printed, ran, stored_runs, vectors

MOST = 1500
CALLS = [["1", "g0", "g1", "f1", "f0"], ["0", "0"], ["300", "g32", "f255", "9999999999999999999"], ["g0", "g0", "0", "f0", "f0"], []]


def program(name, file, *arguments):
    return subprocess.run([BIN / name, *arguments], input=file, capture_output=True, check=True).stdout


def same_run(file, expected):
    refused = expected.startswith(b"refused")
    out = printed("run", "-", given=file, status=1 if refused else 0)
    assert out.encode() == expected, f"run: {out!r}, plainrun: {expected!r}"


def same_replay(file, calls, expected):
    """Whether the calls are ones that the tool takes: it takes no argument that is no call, where replayrun prints a question mark."""
    if any(not call.lstrip("gf").isdigit() for call in calls) or len(calls) > 1024:
        return False
    out = printed("replay", "-", *calls, given=file, status=1 if expected.startswith(b"refused") else 0)
    assert out.encode() == expected, f"replay {' '.join(calls)}: {out!r}, replayrun: {expected!r}"
    return True


def beside_programs():
    runs = replays = 0
    for path in MODELS:
        file = path.read_bytes()
        same_run(file, program("plainrun", file))
        runs += 1
        for calls in CALLS:
            replays += same_replay(file, calls, program("replayrun", file, *calls))
    for file, calls in stored_runs():
        replays += same_replay(file, calls, program("replayrun", file, *calls))
    for case in vectors():
        if case.program == "plainrun":
            same_run(case.given, case.printed)
            runs += 1
        if case.program == "replayrun":
            replays += same_replay(case.given, case.arguments, case.printed)
    return runs, replays


def check_stats(file, options):
    """The lines of --stats, by the answers."""
    out = printed("replay", "-", *options, "--stats", "--most", MOST, given=file).splitlines()
    answers = [line.split() for line in out if line.startswith("r ")]
    refused = collections.Counter(words[3] for words in answers if words[2] == "refused")
    granted = [words for words in answers if words[2] == "granted"]
    said = dict(line.split(" ", 1) for line in out if line.split()[0] in ("calls", "grants", "early", "refusals"))
    assert (said["calls"], said["grants"], said["refusals"]) == (str(len(answers)), str(len(granted)), str(sum(refused.values()))), said
    told = {line.split()[1].rstrip(":"): line.split()[2].rstrip(".") for line in out if line.startswith("refused ")}
    assert told == {n: str(count) for n, count in refused.items()}, told
    plainly = printed("replay", "-", *[words[1] for words in answers], given=file).splitlines()
    assert plainly == [line for line in out if line[:2] in ("r ", "v ", "t ", "l ")], "the order's requests as a list"
    return out[-1], int(said["early"])


def by_orders(files):
    ends = collections.Counter()
    early = 0
    for i, file in enumerate(files):
        for options in (["--order", "least"], ["--order", "most-ahead"], ["--order", "random", "--seed", str(i)], ["--order", "random"]):
            last, ahead = check_stats(file, options)
            assert last.startswith(("equal to the plain run", f"stopped after {MOST} calls")), last
            ends[last.split()[0]] += 1
            early += ahead
            assert options[1] != "least" or ahead == 0, "an early grant of the least stamp"
    return ends, early


def main(count):
    runs, replays = beside_programs()
    school = ran("build", ROOT / "docs/pictures/school.txt")[1]
    shipped = [path.read_bytes() for path in MODELS if path.stem != "refused7"]
    ends, early = by_orders([*shipped, school, *generated(count, 31000)])
    assert ends["equal"] > 100 and early > 100, (ends, early)
    spent = next(path for path in MODELS if path.stem == "spent")
    assert printed("run", spent, "--budget", 5) == "t 0 0 ready 5 0\nn 5\nspent\n"
    assert printed("replay", spent, 0, 0, 0, "--most", 2).splitlines()[-1] == "stopped after 2 calls (--most); calls not made: 1"
    print(f"{runs} sheets and {replays} lists as the programs print them; by an order {ends['equal']} runs equal to the plain run, "
          f"{ends['stopped']} stopped as asked, {early} early grants")


if __name__ == "__main__":
    main(int(sys.argv[1]) if sys.argv[1:] else 30)
