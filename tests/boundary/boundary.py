#!/usr/bin/env python3
"""The library's calls against the programs' output, the header and docs/RULES.md, on generated files, long, short and damaged.

  boundary.py [FILES] [SEED]     needs target/bin/plainrun, target/bin/replayrun and target/staticlib/libexports.a

Of each file: the sheet and the line of a refusal (teaselauger_sheet, teaselauger_read), the distance table (teaselauger_load), and a
list of requests, grants and finishes, as a list (teaselauger_replay) and one at a time (teaselauger_fresh, teaselauger_request,
teaselauger_grant, teaselauger_finish), against what replayrun prints. Each list and each call is made by rows too, in 64 words of junk, and
must answer and leave the same; of those 64 words nothing is asked. Before each call junk is held for the threads that are not running: a grant
must leave the variables in its thread's place, a finish 0, and nothing else may change there.

Of each call on it: every buffer exactly long enough, longer, one element short and empty, and every two one element short, with the number
that the header's ORDER has for them. Of a request, a grant and a finish also: numbers that no state has, numbers that just fit the model and
that just do not, 128 places of the log with what running threads notify and one more, and numbers that are not judged. A refused call leaves
every buffer as it was; no call writes past a buffer's end, nor past what it speaks of, nor to what it only reads.
"""
import ctypes, itertools, os, random, subprocess, sys, tempfile
from array import array

HERE = os.path.dirname(os.path.abspath(__file__))
ROOT = os.path.join(HERE, "../..")
sys.path.insert(0, os.path.join(HERE, "../judge"))
import generator

BUDGET = 1000000
STATES = ["ended", "overrun", "ready", "wait", "running"]
WAITING, RUNNING = 3, 4
NEVER = 2**64 - 1

# teaselauger.h: the parameters of each call, which of them are only read (the file always),
# and the elements of those that are not uint64_t
STATE = ("variables", "log", "records")
PARAMETERS = {
    "read": ["file"],
    "load": ["file", "words"],
    "sheet": ["file", "budget", "out"],
    "fresh": ["file", *STATE],
    "request": ["file", "words", *STATE, "thread", "answer"],
    "grant": ["file", "words", "held", *STATE, "thread", "answer"],
    "finish": ["file", "words", "held", *STATE, "thread", "answer"],
    "replay": ["file", "words", "held", "calls", "answers", *STATE],
}
ONLY_READ = {"request": ["file", "words"], "grant": ["file", "words"], "finish": ["file", "words"], "replay": ["file", "calls"]}
SCALARS = {"budget": ctypes.c_uint64, "thread": ctypes.c_uint8}
ELEMENTS = {"file": "B", "variables": "I", "held": "I", "calls": "H", "out": "B"}

# teaselauger.h: after the word ORDER, which buffers are looked at for their length, and the number of one that is too short
FILE = "file"
ORDER = {
    "load": [FILE, (("words",), 16)],
    "fresh": [FILE, (STATE, 11)],
    "request": [FILE, (STATE + ("answer", "words"), 11)],
    "grant": [FILE, (STATE + ("answer", "words", "held"), 11)],
    "finish": [FILE, (STATE + ("answer", "words", "held"), 11)],
    "replay": [FILE, (STATE + ("answers", "held"), 11), (("words",), 16)],
}
# those by rows, of which all but the first leave the first 64 words of the row free
for name in ["load", "request", "grant", "finish", "replay"]:
    rows = name + "_by_rows"
    PARAMETERS[rows] = ["row" if p == "words" else p for p in PARAMETERS[name]]
    ONLY_READ[rows] = [p for p in ONLY_READ.get(name, ["file"]) if p != "words"] + ["row"] * (name == "load")
    ORDER[rows] = [FILE, *[(tuple(p for p in short if p != "words"), n) for short, n in ORDER[name][1:] if n == 11], (("row",), 16)]
LEAVE_FREE = {"request_by_rows", "grant_by_rows", "finish_by_rows", "replay_by_rows"}
# the calls of a list, by their words: a thread's number, and 256 more for the next kind
KINDS = ["request", "grant", "finish"]
ASKING = [*KINDS, *[kind + "_by_rows" for kind in KINDS]]


def filled(p, value, size):
    """A buffer for the parameter p."""
    return array(ELEMENTS.get(p, "Q"), [value]) * size


# what the buffers hold before a call that writes to them
UNUSED = {p: filled(p, 9, size) for p, size in [("words", 4096), ("row", 64), ("variables", 64), ("log", 385), ("records", 160), ("held", 2048), ("answer", 3)]}
# what a row may hold before a call, beside what the last one left: all ones, distances of another model, numbers that are no distance
JUNK = [filled("row", NEVER, 64), array("Q", [1024 * i for i in range(64)]), array("Q", [(2 * i + 1) * 0x9E3779B97F4A7C15 % 2**64 for i in range(64)])]


def library():
    out = os.path.join(tempfile.mkdtemp(), "libteaselauger.so")
    archive = os.path.join(ROOT, "target/staticlib/libexports.a")
    subprocess.run(["cc", "-shared", "-o", out, "-Wl,--whole-archive", archive, "-Wl,--no-whole-archive"], check=True)
    lib = ctypes.CDLL(out)
    for name in PARAMETERS:
        getattr(lib, "teaselauger_" + name).restype = ctypes.c_size_t if name == "sheet" else ctypes.c_uint8
    return lib


class Lent:
    """A buffer in the caller's memory, with marked bytes past the end that the call is told."""
    PAST = b"\xa5" * 64

    def __init__(self, values):
        self.code, self.size = values.typecode, len(values)
        held = values.tobytes()
        self.end, self.memory = len(held), ctypes.create_string_buffer(held + self.PAST, len(held + self.PAST))

    def arguments(self):
        return [self.memory, ctypes.c_size_t(self.size)]

    def values(self):
        assert self.memory.raw[self.end:] == self.PAST, "written past the end"
        return array(self.code, self.memory.raw[:self.end])


class Calls:
    """The calls on one file. Each gives its number and what its buffers hold after it; a row that is left free is not among them."""

    def __init__(self, lib, file):
        self.lib, self.file = lib, array("B", file)
        self.left, self.turn = JUNK[0], 0

    def call(self, name, given):
        arguments, lent, given = [], {}, {"file": self.file, **given}
        for p in PARAMETERS[name]:
            if p in SCALARS:
                arguments.append(SCALARS[p](given[p]))
            else:
                lent[p] = Lent(given[p])
                arguments += lent[p].arguments()
        number = getattr(self.lib, "teaselauger_" + name)(*arguments)
        after = {p: x.values() for p, x in lent.items()}
        assert all(after[p] == given[p] for p in ONLY_READ.get(name, ["file"])), "%s: what is only read is written to" % name
        after.pop("file", None)
        if name in LEAVE_FREE:
            row = after.pop("row")
            assert row[64:] == given["row"][64:], "%s: words past the 64 are written to" % name
            self.left = row[:64] if len(row) >= 64 else self.left
        return number, after

    def junk(self):
        """64 words, in turn of each kind."""
        self.turn += 1
        return [*JUNK, self.left][self.turn % 4]

    def same_by_rows(self, name, number, given, after, what):
        """The call by rows, in 64 words of junk and in 65, must answer the number and leave the same; in 63 it must answer 11 or 16. How many calls."""
        name += "_by_rows"
        for more in [0, 1]:
            answered, left = self.call(name, {**given, "row": self.junk() + filled("row", 5, more)})
            assert answered == number, "%s, %s: %d, must be %d" % (name, what, answered, number)
            assert all(left[p] == after[p] for p in left), "%s, %s: not what the full entry leaves" % (name, what)
        self.refused(name, 11 if number == 11 else 16, {**given, "row": self.left[:63]}, what + ", 63 words")
        return 3

    def refused(self, name, number, given, what):
        """The call must answer the number and leave every buffer as it was."""
        answered, after = self.call(name, given)
        assert answered == number, "%s, %s: %d, must be %d" % (name, what, answered, number)
        assert all(after[p] == given[p] for p in after), "%s, %s: refused, and a buffer is written to" % (name, what)

    def made(self, name, given, what):
        """The call must answer 0."""
        number, after = self.call(name, given)
        assert number == 0, "%s, %s: %d" % (name, what, number)
        return after


def program(name, file, *args):
    return subprocess.run([os.path.join(ROOT, "target/bin", name), *args], input=file, capture_output=True, check=True).stdout


def damaged(r, file):
    b = bytearray(file)
    kind = r.randrange(4)
    if kind == 0:
        return bytes(b[:r.randrange(len(b) + 1)])
    if kind == 1:
        return bytes(b) + bytes(r.randrange(256) for _ in range(r.randrange(1, 9)))
    for _ in range(r.randrange(1, 4)):
        b[r.randrange(len(b))] = r.randrange(256) if kind == 2 else r.choice([0, 1, 31, 32, 63, 64, 128, 135, 136, 255])
    return bytes(b)


def segments(file):
    at, n = 10, 0
    while file[at + 2] == 2:
        at, n = at + file[at] + 256 * file[at + 1], n + 1
    return n


def lacking(file):
    """Of an accepted file: the pairs of a thread and a segment from which it could reach a port that it leaves unused."""
    ways, needs, ports, at = [], [], [], 10
    while file[at + 2] != 4:
        r = file[at:at + file[at] + 256 * file[at + 1]]
        if r[2] == 2:
            statements = [r[i:i + 6] for i in range(17, len(r), 6) if r[i] != 6]
            names = {s[1] for s in statements} | {s[2] for s in statements if s[0] > 2} | {r[12]}
            needs.append({x - 128 for x in names if 128 <= x < 136})
            ways.append(r[10:12] if r[4] else b"")
        elif r[2] == 3:
            ports.append(b"\xff" * 8)
        else:
            ports[-1] = r[4:]
        at += len(r)
    for _ in ways:
        needs = [x.union(*[needs[s] for s in way]) for x, way in zip(needs, ways)]
    return [(k, s) for k, eight in enumerate(ports) for s, x in enumerate(needs) if any(eight[p] == 255 for p in x)]


def state_lines(v, t, variables, log, records):
    out = ["v %d %d" % (i, variables[i]) for i in range(v)]
    for k in range(t):
        segment, state, event, time, delta = records[5 * k:5 * k + 5]
        out.append("t %d %d %s" % (k, segment, STATES[state]) + (" %d" % event if state == WAITING else "") + " %d %d" % (time, delta))
    return out + ["l %d %d %d" % tuple(log[3 * i + 1:3 * i + 4]) for i in range(log[0])]


def argument(word):
    """A call as replayrun takes it."""
    return ["%d", "g%d", "f%d"][word // 256] % (word % 256)


def answer_lines(calls, answers):
    for call, (word, number, segment, time, delta) in zip(calls, zip(*[iter(answers)] * 5)):
        assert word == call, "the call of an answer"
        done = "finished" if word >= 512 else "granted"
        yield "%s %d " % ("rgf"[word // 256], word % 256) + ("refused %d" % number if number else "%s %d %d %d" % (done, segment, time, delta))


def number_of(name, file_number, short):
    """The first number of the header's ORDER, with these buffers too short."""
    for test in ORDER[name]:
        number = file_number if test is FILE else test[1] if short & set(test[0]) else 0
        if number:
            return number
    return 0


def check_sheet(c, sheet):
    """The sheet in buffers of 8,192 bytes and exactly long enough; 0, and nothing written, in shorter ones."""
    text = array("B", sheet)
    for size in {8192, len(text)}:
        number, after = c.call("sheet", {"budget": BUDGET, "out": filled("out", 7, size)})
        assert number == len(text) and after["out"] == text + filled("out", 7, size - len(text)), "sheet, %d bytes" % size
    for size in {len(text) - 1, 0}:
        c.refused("sheet", 0, {"budget": BUDGET, "out": filled("out", 7, size)}, "%d bytes" % size)


def check_lengths(c, name, file_number, exact):
    """Of buffers exactly long enough each one element short, each empty, and every two an element short. How many calls."""
    sized = [p for test in ORDER[name] if test is not FILE for p in test[0] if len(exact[p])]
    less = [(p, len(exact[p]) - 1) for p in sized]
    choices = [()] * (file_number != 0) + [(x,) for x in less + [(p, 0) for p in sized]] + list(itertools.combinations(less, 2))
    for chosen in choices:
        given = {**exact, **{p: exact[p][:size] for p, size in chosen}}
        number = number_of(name, file_number, {p for p, _ in chosen})
        c.refused(name, number, given, ", ".join("%s of %d" % x for x in chosen) or "a refused file")
    return len(choices)


def check_refused(c, number, calls):
    """Every call on a refused file. How many calls."""
    exact = {**UNUSED, "calls": calls, "thread": 0, "answers": filled("answers", 9, 5 * len(calls))}
    c.refused("read", number, {}, "a refused file")
    return 1 + sum(check_lengths(c, name, number, exact) for name in ORDER)


def check_longer(c, name, exact, after):
    """With longer buffers a call makes the same, and leaves what lies past it."""
    past = {p: filled(p, 3, 0 if p == "calls" else 5) for p in PARAMETERS[name] if p in after or p == "row"}
    longer = c.made(name, {**exact, **{p: exact[p] + past[p] for p in past}}, "longer buffers")
    for p in longer:
        assert longer[p] == after[p] + past[p], "%s: longer %s" % (name, p)


def check_replay(c, file, t, calls):
    """A list against replayrun, by rows against the list, and the words against load: the buffers, exactly long enough, before and after."""
    exact = {**UNUSED, "words": filled("words", 9, segments(file) ** 2), "records": filled("records", 9, 5 * t), "calls": calls}
    exact["answers"] = filled("answers", 9, 5 * len(calls))
    exact["held"] = array("I", range(64 * t))
    after = c.made("replay", exact, "exact buffers")
    lines = [*answer_lines(calls, after["answers"]), *state_lines(file[8], t, *[after[p] for p in STATE])]
    assert "\n".join(lines + [""]).encode() == program("replayrun", file, *map(argument, calls)), "replay"
    check_longer(c, "replay", exact, after)
    for _ in JUNK:
        c.same_by_rows("replay", 0, exact, after, "exact buffers")
    check_longer(c, "replay_by_rows", exact, c.made("replay_by_rows", exact, "exact buffers"))
    words = c.made("load", exact, "exact words")
    assert words["words"] == after["words"], "load"
    check_longer(c, "load", exact, words)
    check_longer(c, "load_by_rows", exact, c.made("load_by_rows", exact, "64 words"))
    none = c.made("replay", {**exact, "calls": array("H", [768, 1023, 65535]), "answers": filled("answers", 9, 15)}, "words from 768 on")
    assert list(none["answers"][1::5]) == [10, 10, 10] and list(none["answers"][::5]) == [768, 1023, 65535], "words from 768 on"
    return exact, after


def check_fresh(c, exact):
    """The fresh state, which a list of no calls leaves too."""
    after = c.made("fresh", exact, "exact buffers")
    check_longer(c, "fresh", exact, after)
    for name in ["replay", "replay_by_rows"]:
        nothing = c.made(name, {**exact, "calls": filled("calls", 0, 0), "answers": filled("answers", 0, 0)}, "no calls")
        assert all(nothing[p] == after[p] for p in STATE) and nothing["held"] == exact["held"], "%s, no calls" % name
    return after


def running(state, t):
    return [k for k in range(t) if state["records"][5 * k + 1] == RUNNING]


def strewn(r, state, t):
    """The state with junk held for the threads that are not running."""
    held = array("I", [r.randrange(2**32) for _ in range(64 * t)])
    for k in running(state, t):
        held[64 * k:64 * k + 64] = state["held"][64 * k:64 * k + 64]
    return {**state, "held": held}


def holding(kind, k, given):
    """What is held after a call of thread k that is not refused."""
    held = given["held"][:]
    if kind != "request":
        held[64 * k:64 * k + 64] = given["variables"][:64] if kind == "grant" else filled("held", 0, 64)
    return held


def check_calls(c, r, t, words, fresh, exact, after):
    """The list's calls one at a time, by rows too: the answers and the state of the list. The states on the way, and the numbers."""
    state, states, numbers = {**fresh, "held": exact["held"]}, [], []
    for i, call in enumerate(exact["calls"]):
        kind, k, what = KINDS[call // 256], call % 256, "call %d" % i
        number, *grant = after["answers"][5 * i + 1:5 * i + 5]
        given = {**UNUSED, "words": words, **strewn(r, state, t), "thread": k}
        states.append(given)
        numbers.append((kind, number))
        if number:
            c.refused(kind, number, given, what)
            c.same_by_rows(kind, number, given, given, what)
            continue
        made = c.made(kind, given, what)
        assert list(made["answer"]) == grant, what
        assert kind == "request" or made["held"] == holding(kind, k, given), "%s: what is held" % what
        assert kind != "grant" or all(made[p] == given[p] for p in ["variables", "log"]), "%s: a grant writes" % what
        c.same_by_rows(kind, 0, given, made, what)
        for name in [kind, kind + "_by_rows"]:
            check_longer(c, name, given, made)
        state = {**{p: made[p] for p in STATE}, "held": holding(kind, k, {**given, "held": state["held"]})}
    assert all(state[p] == after[p] for p in [*STATE, "held"]), "state after calls"
    return states, numbers


def no_states(r, t, state):
    """Numbers that no state has, in a place of the log below its count and in a record below T."""
    k, count = r.randrange(t), state["log"][0]
    waits = state["records"][5 * k + 1] == WAITING
    numbers = [
        ("log", 0, 129), ("records", 5 * k, 2**8), ("records", 5 * k + 1, 5), ("records", 5 * k + 2, 2**8 if waits else 1),
        ("records", 5 * k + 4, 2**32),
    ]
    if count:
        i = r.randrange(count)
        numbers += [("log", 3 * i + 1, 2**8), ("log", 3 * i + 3, 2**32)]
    for p, at, least in numbers:
        for value in {least, r.randrange(least, 2**64), NEVER}:
            yield p, at, value


def notified(file):
    """The events that each segment of an accepted file notifies."""
    out, at = [], 10
    while file[at + 2] == 2:
        r = file[at:at + file[at] + 256 * file[at + 1]]
        out.append({r[i + 1] for i in range(17, len(r), 6) if r[i] == 6})
        at += len(r)
    return out


def counted_pairs(file, t, state):
    """The pairs of the log, and those that the running threads will notify."""
    log = [tuple(state["log"][3 * i + 1:3 * i + 4]) for i in range(state["log"][0])]
    events, pairs = notified(file), set()
    for k in running(state, t):
        segment, _, _, time, delta = state["records"][5 * k:5 * k + 5]
        pairs |= {(e, time, delta) for e in events[segment]}
    return log, pairs


def is_over(file, t, state):
    log, pairs = counted_pairs(file, t, state)
    return len(log) + len(pairs - set(log)) > 128


def full_logs(file, t, state):
    """Where running threads notify something: the state with a log that leaves as many places as they need, and with one pair more."""
    _, pairs = counted_pairs(file, t, state)
    if pairs:
        others = [(0, time, 0) for time in range(1000) if (0, time, 0) not in pairs]
        for count in [128 - len(pairs), 129 - len(pairs)]:
            log = array("Q", [count, *[x for pair in others[:count] for x in pair]])
            yield count, {**state, "log": log + filled("log", 0, 385 - len(log))}


def edges(r, file, n, t, state):
    """The least numbers that do not fit the model (docs/RULES.md, 7): in a record below T, in the log below its count, in the words. The
    ports are tried apart."""
    chosen, count = {r.randrange(t), *running(state, t)}, state["log"][0]
    for k in sorted(chosen):
        latest = int.from_bytes(file[4:8], "little") if state["records"][5 * k + 1] == RUNNING else 2 * 10**9
        yield from [("records", 5 * k, n), ("records", 5 * k + 3, latest + 1), ("records", 5 * k + 4, 1024)]
        if state["records"][5 * k + 1] == WAITING:
            yield "records", 5 * k + 2, file[9]
    if count:
        i = r.randrange(count)
        yield from [("log", 3 * i + 1, file[9]), ("log", 3 * i + 2, 10**9 + 1), ("log", 3 * i + 3, 1024)]
    if file[9]:
        yield "log", 0, 129
    yield "words", r.randrange(n * n), (10**9 + 1) * 1024


def unjudged(r, n, t, state):
    """Places of a state and of the words that lie past T, past the count and past N x N, and so are not looked at: any number may stand there.
    So for what is held for a thread that is not running."""
    count = state["log"][0]
    places = [("records", 5 * t + j) for j in range(5)] + [("words", n * n), ("held", 64 * t)]
    if count < 128:
        i = r.randrange(count, 128)
        places += [("log", 3 * i + j) for j in (1, 2, 3)]
    places += [("held", 64 * k + r.randrange(64)) for k in range(t) if k not in running(state, t)]
    for p, at in places:
        for value in {r.randrange(2**64), NEVER}:
            yield p, at, value % 2**32 if p == "held" else value


def changed(given, p, at, value):
    values = given[p][:]
    values[at] = value
    return {**given, p: values}


def judged(name, p):
    """Whether a call is given the buffer p by both entries."""
    return p in PARAMETERS[name] and p != "words"


def check_out_of_range(c, r, file, t, given):
    """What is refused with 11 whatever the call, the thread and the row; just below it a number is used as given. How many calls."""
    least, unused = [*edges(r, file, segments(file), t, given)], [("records", 5 * k, s) for k, s in lacking(file)]
    wrong = [*no_states(r, t, given), *least, ("log", 0, 255), ("words", r.randrange(segments(file) ** 2), NEVER - 1)]
    wrong += r.sample(unused, min(len(unused), 9))
    calls = 0
    for p, at, value in wrong:
        for name, k in zip(KINDS, [given["thread"], 255, given["thread"]]):
            spoilt, what = {**changed(given, p, at, value), "thread": k}, "%s %d is %d" % (p, at, value)
            c.refused(name, 11, spoilt, what)
            calls += 1 + (c.same_by_rows(name, 11, spoilt, spoilt, what) if judged(name, p) else 0)
    fits = [x for x in least if (x[0], x[1], x[2] - 1) not in unused]
    for p, at, value in fits:
        fitting, what = changed(given, p, at, value - 1), "%s %d is %d" % (p, at, value - 1)
        calls += check_fitting(c, t, p, fitting, what) if not is_over(file, t, fitting) else 0
    for count, full in full_logs(file, t, given):
        what = "%d places" % count
        if is_over(file, t, full):
            for name in KINDS:
                c.refused(name, 11, full, what)
                calls += 1 + c.same_by_rows(name, 11, full, full, what)
        else:
            calls += check_fitting(c, t, "log", full, what)
    return calls


def check_fitting(c, t, p, fitting, what):
    """No call answers 11, and thread T 10. How many calls."""
    calls = 0
    for name in KINDS:
        number, after = c.call(name, fitting)
        assert number != 11, "%s, %s: 11" % (name, what)
        calls += 1 + (c.same_by_rows(name, number, fitting, after, what) if judged(name, p) else 0)
        beyond = {**fitting, "thread": t}
        c.refused(name, 10, beyond, what + ", thread T")
        calls += 1 + c.same_by_rows(name, 10, beyond, beyond, what + ", thread T")
    return calls


def check_unjudged(c, r, file, t, given):
    """What lies past the model's own, or is held for a thread that is not running, changes no answer, and stays; a request or a
    finish that is made sets places past the log's count, and a grant or a finish what is held for its thread. How many calls."""
    past = {"words": 1, "records": 5, "held": 1}
    given, calls = {**given, **{p: given[p] + filled(p, 0, n) for p, n in past.items()}}, 0
    for name in KINDS:
        number, after = c.call(name, given)
        for p, at, value in [*unjudged(r, segments(file), t, given)]:
            if p not in PARAMETERS[name]:
                continue
            trial, what = changed(given, p, at, value), "%s %d is %d" % (p, at, value)
            answered, left = c.call(name, trial)
            sets = number == 0 and (p == "log" and name != "grant" or p == "held" and at // 64 == given["thread"])
            expected = after if sets else changed(after, p, at, value)
            assert answered == number, "%s, %s: %d, must be %d" % (name, what, answered, number)
            assert left == expected, "%s, %s: not left as it was" % (name, what)
            calls += 1 + (c.same_by_rows(name, number, trial, expected, what) if judged(name, p) else 0)
    return calls


def check_short(c, r, file, t, exact, given):
    """Short buffers and refused calls on an accepted file, the calls on a given state. How many calls."""
    calls = check_out_of_range(c, r, file, t, given) + check_unjudged(c, r, file, t, given)
    for name in ORDER:
        calls += check_lengths(c, name, 0, given if name in ASKING else exact)
    return calls + check_refused(Calls(c.lib, file[:-1]), 1, exact["calls"])


def drawn(r, t):
    """A list of calls: requests alone, or grants and finishes among them, of few threads that there are not."""
    kinds = r.choice([[0], [256, 512, 512], [0, 256, 512], [256, 256, 512, 512, 512]])
    return array("H", [r.randrange(t + (r.randrange(9) == 0)) + r.choice(kinds) for _ in range(r.randrange(1, 100))])


def check(lib, r, file):
    """The file's number, its calls' numbers, and how many calls were made with short buffers, a cut file and other numbers."""
    c, sheet = Calls(lib, file), program("plainrun", file)
    check_sheet(c, sheet)
    refused = int(sheet.split()[1]) if sheet.startswith(b"refused") else 0
    assert c.call("read", {})[0] == refused, "read"
    t = sheet.count(b"\nt ") + sheet.startswith(b"t ")
    calls = drawn(r, max(t, 1))
    if refused:
        return refused, [], check_refused(c, refused, calls)
    exact, after = check_replay(c, file, t, calls)
    states, numbers = check_calls(c, r, t, after["words"], check_fresh(c, exact), exact, after)
    given = r.choice([x for x in states if running(x, t)] or states)
    return 0, numbers, check_short(c, r, file, t, exact, given)


def counted(numbers):
    return ", ".join("%d: %d" % (n, numbers.count(n)) for n in sorted(set(numbers)))


def main(files, seed):
    lib, numbers, made = library(), [], []
    calls = check_refused(Calls(lib, b""), 1, array("H", [0, 257, 512]))
    for i in range(files):
        r = random.Random("%d %d" % (seed, i))
        file = generator.file_of(generator.model_of(seed + i))
        if i % 2:
            file = damaged(r, file)
        try:
            number, asked, refused = check(lib, r, file)
        except AssertionError as e:
            print("file %d: %s" % (i, e))
            open("/tmp/boundary_%d" % i, "wb").write(file)
            return 1
        numbers.append(number)
        made += asked
        calls += refused
    print("%d files, by number: %s" % (files, counted(numbers)))
    for kind in KINDS:
        of_kind = [number for k, number in made if k == kind]
        print("%d calls of %s, by number: %s" % (len(of_kind), kind, counted(of_kind)))
    print("%d calls with short buffers, refused files and numbers at the edge of their range; no difference" % calls)
    return 0


if __name__ == "__main__":
    sys.exit(main(int(sys.argv[1]) if sys.argv[1:] else 1000, int(sys.argv[2]) if sys.argv[2:] else 24000))
