#!/usr/bin/env python3
"""Plants each fault of docs/TESTING.md in a copy of the crates, and shows that the tests named beside it catch it.

    faults.py [WORD]      only the faults whose name has WORD

Nothing is proved: the tests are run by `rt try`, `versus` on its first 100 generated models, `test_files` on all its files and runs. First both
run without a fault. A fault is caught by `versus` if it writes a line `difference:`, by `test_files` if it writes anything else than its file `stdout`.
A text that is not in its file exactly once is gone: the table below is then to be brought up to date. The exit status is 0 if every fault was
planted and caught by each test named beside it.
"""
import pathlib
import re
import shutil
import subprocess
import sys
import tempfile

ROOT = pathlib.Path(__file__).resolve().parents[2]
MAIN = "versus/src/main.rt"
MODELS = (MAIN, "const MODELS: u64 = 2400;", "const MODELS: u64 = 100;")
SEED = 24000
PLAIN, EARLY = ["versus"], ["versus", "test_files"]

# tests, name, file under crates/, old text, new text
FAULTS = [
    (PLAIN, "a cycle past the horizon runs", "plain_core/src/lib.rt", "if limit <= due.key {", "if limit < due.key {"),
    (PLAIN, "the horizon not counted in", "plain_core/src/lib.rt", "1024 * (m.horizon.0 + 1);", "1024 * m.horizon.0;"),
    (PLAIN, "a wait begun in the notifying cycle is not woken", "plain_close/src/lib.rt", "|| key < x % 175", "|| key <= x % 175"),
    (PLAIN, "overrun at 1,024", "plain_close/src/lib.rt", "if key % 1024 < 1023 {", "if key % 1024 < 1024 {"),
    (PLAIN, "one segment over the budget", "plain_cycle/src/lib.rt", "|| budget <= n {", "|| budget < n {"),
    (PLAIN, "the limit counted in", "plain_execute/src/lib.rt", " < next / 16777216 {", " <= next / 16777216 {"),
    (PLAIN, "the ports of thread 0", "plain_rows/src/lib.rt", "code[2176 + 8 * turn + (x - 128) as usize] % 256", "code[2176 + (x - 128) as usize] % 256"),
    (PLAIN, "a row keeps the first segment with a port", "plain_rows/src/lib.rt", "if held[turn] == s {", "if held[turn] < 64 {"),
    (EARLY, "a hazard of the segments that threads are in now alone", "early_hazard/src/lib.rt", "        if conflicts_at(asker, ports, s) {", "        if conflicts_at(asker, ports, s) && buffers::word_at(row, s) == 0 {"),
    (EARLY, "the first notification logged, not the least", "early_log/src/lib.rt", "best = clock::least_of(Bound::At(c), best);", "best = Bound::At(c);"),
    (EARLY, "a notification in the cycle of the wait is lost", "early_log/src/lib.rt", "            if c >= since {", "            if c > since {"),
    (EARLY, "a forecast equal to the logged cycle", "early_deliver/src/lib.rt", "if soonest < early_ahead::limit_of(c) {", "if soonest <= early_ahead::limit_of(c) {"),
    (EARLY, "96 counted in", "early_answer/src/lib.rt", "        || places > 96 && ", "        || places >= 96 && "),
    (EARLY, "notifications at the floor dropped", "early_log/src/lib.rt", "    x.cycle < f\n", "    x.cycle <= f\n"),
    (EARLY, "equal cycles are no hazard", "early_ahead/src/lib.rt", "b == c && j < i", "b == c && false"),
    (EARLY, "a conflict through a port only if both use one", "early_ports/src/lib.rt", "(a.ported | b.ported)", "(a.ported & b.ported)"),
    (EARLY, "a wait raises no bound", "early_ahead/src/lib.rt", "raised_limit(crew.since[k], forecast(", "raised_limit(0, forecast("),
    (EARLY, "a granted segment with ports not mapped", "early_answer/src/lib.rt", "        desk.t,\n        own,\n", "        desk.t,\n        g,\n"),
    (PLAIN, "a finish reads the variables anew", "early_answer/src/lib.rt", "    if finishes { held_for(held, k) } else { v }\n", "    v\n"),
    (EARLY, "a finish stores all values", "early_answer/src/lib.rt", "if masks::has(written, i) {", "if masks::has(written, i) || true {"),
    (EARLY, "a running thread is no hazard", "early_deliver/src/lib.rt", "        State::Ready(c) | State::Running(c) => early_ahead::limit_of(c),\n", "        State::Ready(c) => early_ahead::limit_of(c),\n        State::Running(_) => NEVER,\n"),
]


class Gone(Exception):
    pass


def planted(copy, file, old, new):
    """The file with the new text; what it held."""
    path = copy / "crates" / file
    text = path.read_text() if path.is_file() else ""
    if text.count(old) != 1:
        raise Gone(f"GONE: {old.strip()!r} is {text.count(old)} times in crates/{file}")
    path.write_text(text.replace(old, new))
    return path, text


def tried(copy, test, *words):
    """What the program writes, and what is said of the run. The interpreter is too slow for either, so that the run compiled with checks answers alone."""
    ran = subprocess.run(["rt", "try", "--steps", "1000", "--seconds", "900", *words], cwd=copy / "crates" / test, stdin=subprocess.DEVNULL, capture_output=True)
    return ran.stdout, f"{ran.stdout[-300:].decode(errors='replace')}{ran.stderr[-300:].decode(errors='replace')}"


def by_versus(copy):
    """The first difference on generated models that versus writes, or None."""
    wrote, said = tried(copy, "versus")
    if wrote.count(b"differences:") != 3:
        return "NOT RUN: " + said
    found = re.search(r"difference: (\d+)[ 0-9]*", wrote.decode(errors="replace"))
    return found and f"model {int(found.group(1)) - SEED + 1} ({found.group()})"


def by_test_files(copy):
    """The run or file at which test_files writes something else, or None."""
    wrote, said = tried(copy, "test_files", "--", "data/files", "data/runs")
    wanted = (copy / "crates/test_files/stdout").read_bytes()
    # rt ends what it prints with a line of its own
    if wrote.startswith(wanted):
        return None
    if not wrote.strip():
        return "NOT RUN: " + said
    at = next((i for i, (a, b) in enumerate(zip(wrote, wanted)) if a != b), min(len(wrote), len(wanted)))
    before = wanted[:at].decode()
    return next((line for line in reversed(before.splitlines()) if line[:1].isupper()), "its first file")


TESTS = {"versus": by_versus, "test_files": by_test_files}


def hold(copy, tests, name, change):
    """Whether the fault was planted and each test caught it."""
    try:
        path, text = planted(copy, *change)
    except Gone as gone:
        print(f"{name}: {gone}", flush=True)
        return False
    caught = {test: TESTS[test](copy) for test in tests}
    path.write_text(text)
    for test, how in caught.items():
        print(f"{name}: " + (f"{test}: {how}" if how else f"NOT CAUGHT by {test}"), flush=True)
    return all(how and not how.startswith("NOT RUN") for how in caught.values())


def main(word):
    with tempfile.TemporaryDirectory() as folder:
        copy = pathlib.Path(folder)
        shutil.copytree(ROOT / "crates", copy / "crates", ignore=shutil.ignore_patterns("out"))
        shutil.copy(ROOT / "crates.txt", copy)
        planted(copy, *MODELS)
        for test, how in TESTS.items():
            wrong = how(copy)
            if wrong:
                sys.exit(f"without a fault: {test}: {wrong}")
        held = [hold(copy, tests, name, change) for tests, name, *change in FAULTS if word in name]
    print(f"{sum(held)} of {len(held)} faults caught")
    return not held or not all(held)


if __name__ == "__main__":
    try:
        sys.exit(main(sys.argv[1] if sys.argv[1:] else ""))
    except Gone as gone:
        sys.exit(str(gone))
