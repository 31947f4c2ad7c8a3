#!/usr/bin/env python3
"""trace --text and trace --vcd: the VCD read back by a reader of its own must tell the same run as the lines.

The lines are held to the rules as well: the floor is reckoned from them, and a grant must be marked early exactly if its cycle is later;
an event must be heard of a cycle in which it was notified, by a thread that waits for it. At the end the variables are those of the sheet.
"""
import collections
import re
import sys
import tempfile

from tool import MODELS, ROOT, generated, printed, ran

MOST = 600
STEP = re.compile(r"(\d+) \((\d+), (\d+)\) (\w+) (\w+)( early)?: (.*)")
HEARS = re.compile(r"(\w+) hears (\w+) of \((\d+), (\d+)\)")
THEN = re.compile(r"then (\w+) at \((\d+), (\d+)\)")
Step = collections.namedtuple("Step", "segment early state changed notified")


class Lines:
    """The lines of trace --text: the steps by stamp, and who hears what of which cycle."""

    def __init__(self, text):
        self.steps, self.heard, self.order, self.last = {}, {}, [], text.splitlines()[-1]
        for line in text.splitlines():
            match = STEP.fullmatch(line)
            if match:
                self.read(match)

    def read(self, match):
        number, time, delta, thread, segment, early, told = match.groups()
        *pieces, then = told.split("; ")
        changed = {name: int(value) for name, value in (piece.split(" = ") for piece in pieces if " = " in piece)}
        notified = {piece[7:] for piece in pieces if piece.startswith("notify ")}
        hears = [HEARS.fullmatch(piece) for piece in pieces if " hears " in piece]
        assert len(changed) + len(notified) + len(hears) == len(pieces), told
        at_once = [hear[2] for hear in hears if hear[1] == thread]
        state = "waits_" + at_once[0] if at_once else "waits_" + then[10:] if then.startswith("waits for ") else "ready" if THEN.fullmatch(then) else then
        stamp = (int(time), int(delta), thread)
        assert stamp not in self.steps and int(number) == len(self.order) + 1, match[0]
        self.steps[stamp] = Step(segment, bool(early), state, changed, notified)
        for hear in hears:
            self.heard[int(hear[3]), int(hear[4]), hear[1]] = hear[2]
        self.order.append((stamp, then, [(hear[1], hear[2], (int(hear[3]), int(hear[4]))) for hear in hears]))

    def check(self, threads):
        """What the lines say, by the rules."""
        due, waiting, notified = {thread: (0, 0) for thread in threads}, {}, set()
        for stamp, then, hears in self.order:
            cycle, thread, step = stamp[:2], stamp[2], self.steps[stamp]
            assert due.get(thread) == cycle, f"{thread} is not ready at {cycle}"
            assert step.early == (cycle > min(due.values())), f"early, {stamp}"
            notified |= {(event, cycle) for event in step.notified}
            del due[thread]
            if step.state.startswith("waits_"):
                waiting[thread] = (step.state[6:], cycle)
            if THEN.fullmatch(then) and not step.state.startswith("waits_"):
                due[thread] = tuple(int(x) for x in THEN.fullmatch(then).groups()[1:])
            for hearer, event, of in hears:
                waits, since = waiting.pop(hearer)
                assert waits == event and since <= of and (event, of) in notified, f"{hearer} hears {event} of {of}"
                if of[1] < 1023:
                    due[hearer] = (of[0], of[1] + 1)


class Dump:
    """A VCD file: the names of its signals by their codes, and the changes of each time."""

    def __init__(self, text):
        head, body = text.split("$enddefinitions $end\n")
        self.names, scope, self.widths = {}, [], {}
        for words in (line.split() for line in head.splitlines()):
            if words[0] == "$scope":
                scope.append(words[2])
            if words[0] == "$upscope":
                scope.pop()
            if words[0] == "$var":
                assert words[3] not in self.names
                self.names[words[3]] = (*scope, words[4].removeprefix(scope[-1] + "_"))
        assert "$timescale 1 ps $end" in head and not scope
        self.times, self.start = collections.OrderedDict(), {}
        self.read(body.splitlines())

    def read(self, lines):
        now, last, started = self.start, -1, False
        for line in lines:
            if line.startswith("#"):
                assert int(line[1:]) > last, "time goes back"
                last = int(line[1:])
                now = self.times.setdefault(last, {}) if started else self.start
            elif line in ("$dumpvars", "$end"):
                started = True
            else:
                name, value = self.change(line)
                assert name not in now, f"{name} changes twice at {last}"
                now[name] = value

    def change(self, line):
        if line[0] in "bs":
            value, code = line[1:].split(" ")
            return self.names[code], int(value, 2) if line[0] == "b" else value
        return self.names[line[1:]], int(line[0])

    def told(self, threads):
        """The steps and hearings, as Lines has them."""
        steps, heard, now = {}, {}, dict(self.start)
        for tick, changes in self.times.items():
            time, delta, place = tick // 10**6, tick % 10**6 // 100, tick % 100
            if place == 99:
                for (_, thread, signal), value in changes.items():
                    assert signal == "state" and value == ("overrun" if delta == 1023 else "ready") and now["threads", thread, "state"].startswith("waits_")
                    heard[time, delta, thread] = now["threads", thread, "state"][6:]
            elif changes:
                thread = threads[place - 1]
                own = {name[2]: changes.pop(name) for name in list(changes) if name[:2] == ("threads", thread)}
                assert own["runs"] == now["threads", thread, "runs"] + 1
                changed = {name[1]: value for name, value in changes.items() if name[0] == "variables"}
                notified = {name[1] for name in changes if name[0] == "events"}
                assert len(changed) + len(notified) == len(changes)
                steps[time, delta, thread] = Step(own["segment"], bool(own["early"]), own["state"], changed, notified)
                changes.update({("threads", thread, signal): value for signal, value in own.items()})
            now.update(changes)
        return steps, heard, now


def check(path, options, names=None):
    """How many steps were told alike."""
    with tempfile.NamedTemporaryFile(suffix=".vcd") as out:
        text = printed("trace", path, *options, "--most", MOST, "--text", "--vcd", out.name)
        dump = Dump(open(out.name).read())
    threads = list(dict.fromkeys(name[1] for name in dump.names.values() if name[0] == "threads"))
    lines = Lines(text)
    lines.check(threads)
    steps, heard, now = dump.told(threads)
    assert steps == lines.steps, f"{path}: the steps of the VCD differ"
    assert heard == lines.heard, f"{path}: what is heard differs in the VCD"
    if lines.last.startswith("equal"):
        variables = list(dict.fromkeys(name for name in dump.names.values() if name[0] == "variables"))
        sheet = printed("run", path)
        assert [f"v {i} {now[name]}" for i, name in enumerate(variables)] == [line for line in sheet.splitlines() if line[0] == "v"], "the sheet"
    return len(steps), len(heard)


def main(count):
    told = hearings = runs = 0
    with tempfile.TemporaryDirectory() as place:
        school = ROOT / "docs/pictures/school.txt"
        files = {path: path.read_bytes() for path in MODELS if path.stem != "refused7"}
        files[f"{place}/school"] = ran("build", school)[1]
        files.update({f"{place}/{i}": file for i, file in enumerate(generated(count, 52000))})
        for i, (path, file) in enumerate(files.items()):
            if str(path).startswith(place):
                open(path, "wb").write(file)
            named = ["--names", school] if str(path).endswith("school") else ["--names", path.with_suffix(".txt")] if path in MODELS else []
            for options in ([], ["--order", "most-ahead"], ["--order", "random", "--seed", i], named):
                a, b = check(path, options)
                told, hearings, runs = told + a, hearings + b, runs + 1
    print(f"{runs} runs, {told} segments and {hearings} hearings told alike by the lines and by the VCD")


if __name__ == "__main__":
    main(int(sys.argv[1]) if sys.argv[1:] else 40)
