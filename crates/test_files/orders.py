"""The stored runs of this crate: a model file and a list of arguments each, and the lines that `replayrun` must print of them.

Requests, grants and finishes are made here a second time, plainly from documents 01 and 02, and the plain run beside them. Where a list
leaves no thread running and none ready up to the horizon, variables, records, histories and the count of segments must be the plain
run's, else a finish of each running thread, or the next request of the least stamp, must not be refused. What document 01 itself says of a
case is held against the lines.
"""
import copy, os, sys

from files import EVERY, LOOPS, M, PORTS, UNUSED, END as FILE_END, judge, ports as port_record

sys.path.insert(0, os.path.join(os.path.dirname(os.path.abspath(__file__)), "..", "versus"))
from models import ADD, ADD_VARIABLE, COPY, NOTIFY, SET, always, atomic, below, dvd_player, end, manager_and_workers, model, model_m, two_behaviours, two_writes, wait, wait_for

NEVER = (float("inf"), 0)
READY, WAIT, ENDED, OVERRUN, RUNNING = "ready", "wait", "ended", "overrun", "running"


# ---- "Clock"
def plus(c, d):
    """A distance added as the clock says. The delta of a sum is not cut."""
    return (c[0] + d[0], d[1]) if d[0] else (c[0], c[1] + d[1])


def advanced(c, k):
    """Where a wait of k units that began at c ends, or that it is overrun; a wake is a wait of 0."""
    if k == 0 and c[1] == 1023: return OVERRUN, c
    return READY, plus(c, (k, 0) if k else (0, 1))


# ---- "Model file": of an accepted file
class Model:
    def __init__(self, b):
        self.number = judge(b)[0]
        self.segments, self.firsts, self.ports = [], [], []
        while not self.number and b:
            size, kind = int.from_bytes(b[0:2], "little"), b[2]
            r, b = b[4:size], b[size:]
            if kind == 1: self.H, self.V, self.E = int.from_bytes(r[:4], "little"), r[4], r[5]
            if kind == 2: self.segments.append(Segment(r))
            if kind == 3: self.firsts.append(r[0]); self.ports.append(bytes([UNUSED] * 8))
            if kind == 5: self.ports[-1] = r
        self.N = len(self.segments)
        self.mapped = [[g.under(eight) for g in self.segments] for eight in self.ports]
        self.reach = [self.distances(r) for r in range(self.N)]

    def distances(self, r):
        """From r to each segment, the least over all paths: "never" begins above 1,000,000,000 units."""
        best = [NEVER] * self.N
        best[r] = (0, 0)
        changed = True
        while changed:
            changed = False
            for s, g in enumerate(self.segments):
                for t in g.nexts:
                    c = plus(best[s], (g.delay, 0) if g.delay else (0, 1))
                    if c < best[t]: best[t], changed = c, True
        return [d if d[0] <= 10**9 else NEVER for d in best]

    def conflict(self, i, r, j, s):
        """Document 02: "between a thread's segment and another thread's segment, after mapping"."""
        a, b = self.mapped[i][r], self.mapped[j][s]
        return bool(a.writes & (b.reads | b.writes) or b.writes & a.reads)

    def notifying(self, e):
        return [s for s, g in enumerate(self.segments) if e in g.notifies]


class Segment:
    def __init__(self, r):
        self.kind, self.event, self.delay = r[0], r[1], int.from_bytes(r[2:6], "little")
        self.a, self.b, self.test, self.limit = r[6], r[7], r[8], int.from_bytes(r[9:13], "little")
        self.statements = [(r[i], r[i + 1], int.from_bytes(r[i + 2:i + 6], "little")) for i in range(13, len(r), 6)]
        self.nexts = {self.a, self.b} if self.kind else set()
        self.notifies = [a for op, a, b in self.statements if op == 6]

    def under(self, ports):
        """The segment of a thread with these ports: what it does, its test, and the variables that it reads and writes."""
        def variable(x): return ports[x - PORTS[0]] if x in PORTS else x
        g = copy.copy(self)
        g.test = variable(self.test)
        g.statements = [(op, a if op == 6 else variable(a), variable(b) if op in (3, 4, 5) else b) for op, a, b in self.statements]
        g.reads = {b for op, a, b in g.statements if op in (3, 4, 5)} | ({g.test} if g.kind else set())
        g.writes = {a for op, a, b in g.statements if op != 6}
        g.reads -= {UNUSED}
        g.writes -= {UNUSED}
        return g

    def run(self, vs):
        """The variables after the statements, and the next segment."""
        vs = list(vs)
        for op, a, b in self.statements:
            if op == 1: vs[a] = b
            if op == 2: vs[a] = (vs[a] + b) % 2**32
            if op == 3: vs[a] = vs[b]
            if op == 4: vs[a] = (vs[a] + vs[b]) % 2**32
            if op == 5: vs[a] = (vs[a] - vs[b]) % 2**32
        return vs, self.b if self.kind and self.test != 255 and vs[self.test] >= self.limit else self.a

    def closed(self, s, then, c):
        """The record of a thread that ran this segment, number s, at c."""
        if self.kind == 0: return s, ENDED, c, None
        if self.kind == 2: return then, WAIT, c, self.event
        return (then,) + advanced(c, self.delay) + (None,)


# ---- a state: variables, records (segment, state, cycle, event), the log, the values that are held, histories
class State:
    def __init__(self, m):
        self.m, self.log, self.held = m, [], {}
        self.variables = [0] * m.V
        self.records = [(s, READY, (0, 0), None) for s in m.firsts]
        self.histories = [[] for _ in m.firsts]

    def ready(self):
        """The stamps of the ready threads up to the horizon, least first."""
        return sorted((c, k) for k, (_, state, c, _) in enumerate(self.records) if state == READY and c[0] <= self.m.H)

    def running(self): return [k for k, r in enumerate(self.records) if r[1] == RUNNING]

    def execute(self, k, values):
        """Thread k runs its segment whole on the values, what it writes is stored, and its closer is applied; what it notified, in statement
        order."""
        s, _, c, _ = self.records[k]
        g = self.m.mapped[k][s]
        after, then = g.run(values)
        for v in g.writes: self.variables[v] = after[v]
        self.records[k] = g.closed(s, then, c)
        return [(e, c) for e in g.notifies]

    def enter(self, k): self.histories[k].append((self.records[k][0], self.records[k][2]))

    def hear(self, k, c):
        s, _, _, e = self.records[k]
        self.records[k] = (s,) + advanced(c, 0) + (None,)
        self.histories[k].append(("heard", e, c))

    # -- "Plain run"
    def plain(self):
        n = 0
        while self.ready():
            now, notified = self.ready()[0][0], set()
            for c, k in self.ready():
                if c == now: self.enter(k); notified |= set(self.execute(k, self.variables)); n += 1
            for k, (_, state, _, e) in enumerate(self.records):
                if state == WAIT and (e, now) in notified: self.hear(k, now)
        return n

    # -- "Early issue"
    def live(self): return [k for k, r in enumerate(self.records) if r[1] in (READY, RUNNING, WAIT)]

    def heard_from(self, k):
        """The logged notifications that waiting thread k may hear, not before its wait began."""
        _, _, since, event = self.records[k]
        return [c for e, c in self.log if e == event and c >= since]

    def earliest(self):
        """Of each thread. Chains begin at a ready thread or a logged notification: links are followed until no bound falls. Each is
        raised to the delta after the wait began."""
        out = [NEVER] * len(self.records)
        for k in self.live():
            out[k] = self.records[k][2] if self.records[k][1] != WAIT else min([plus(c, (0, 1)) for c in self.heard_from(k)], default=NEVER)
        while True:
            less = list(out)
            for k in self.live():
                if self.records[k][1] == WAIT: less[k] = min(out[k], plus(max(self.forecast(self.records[k][3], out), self.records[k][2]), (0, 1)))
            if less == out: return out
            out = less

    def forecast(self, e, earliest):
        return min([plus(earliest[j], self.m.reach[self.records[j][0]][s]) for j in self.live() for s in self.m.notifying(e)], default=NEVER)

    def hazard(self, k):
        s, _, c, _ = self.records[k]
        bounds = self.earliest()
        return any(self.m.conflict(k, s, j, q) and (plus(bounds[j], self.m.reach[self.records[j][0]][q]), j) < (c, k)
                   for j in self.live() if j != k for q in range(self.m.N))

    def floor(self): return min([c for _, state, c, _ in self.records if state in (READY, RUNNING)], default=None)

    def pairs(self, k): return {(e, self.records[k][2]) for e in self.m.segments[self.records[k][0]].notifies}

    def places(self, k):
        """Those of the log, and those counted for the running threads and for thread k, an equal pair once."""
        return len(set(self.log).union(*[self.pairs(j) for j in self.running() + [k]]))

    def refusal(self, k):
        """The number of a request or a grant, 0 where it is granted."""
        if k >= len(self.records): return 10
        s, state, c, _ = self.records[k]
        if state == RUNNING: return 19
        if state != READY: return 12
        if c[0] > self.m.H: return 13
        if self.hazard(k): return 14
        return 15 if self.places(k) > (96 if c > self.floor() else 128) else 0

    def grant(self, k):
        """The answer as words."""
        n = self.refusal(k)
        if n: return "refused %d" % n
        s, _, c, _ = self.records[k]
        self.enter(k)
        self.held[k] = list(self.variables)
        self.records[k] = (s, RUNNING, c, None)
        return "granted %d %d %d" % ((s,) + c)

    def finish(self, k):
        if k >= len(self.records): return "refused 10"
        s, state, c, _ = self.records[k]
        if state != RUNNING: return "refused 19"
        for x in self.execute(k, self.held.pop(k)):
            if x not in self.log: self.log.append(x)
        while self.deliver(): pass
        f = self.floor()
        self.log = [x for x in self.log if f is not None and x[1] >= f]
        return "finished %d %d %d" % ((s,) + c)

    def request(self, k):
        """"as a grant and its finish at once\""""
        answer = self.grant(k)
        if answer.startswith("granted"): self.finish(k)
        return answer

    def call(self, arg):
        """An argument's line."""
        kind, x = parted(arg)
        ask = {"r": self.request, "g": self.grant, "f": self.finish}[kind]
        return "%s %s %s" % (kind, "?" if x is None else x, ask(255 if x is None else x))

    def deliver(self):
        """One delivery, to any thread that hears; whether there was one."""
        for k in reversed(range(len(self.records))):
            if self.records[k][1] == WAIT and self.heard_from(k):
                c = min(self.heard_from(k))
                if self.forecast(self.records[k][3], self.earliest()) >= c:
                    self.hear(k, c)
                    return True
        return False

    def sheet(self):
        out = ["v %d %d" % x for x in enumerate(self.variables)]
        for k, (s, state, c, e) in enumerate(self.records):
            out.append("t %d %d %s %s%d %d" % (k, s, state, "%d " % e if state == WAIT else "", c[0], c[1]))
        return out


# ---- what `replayrun` prints
def label(arg):
    """Of 1 to 19 digits their number, else none."""
    return int(arg) if 1 <= len(arg) <= 19 and all(x in "0123456789" for x in arg) else None


def parted(arg):
    """The kind of call and the number in an argument."""
    return (arg[0], label(arg[1:])) if arg[:1] in ("g", "f") else ("r", label(arg))


def lines(file, args):
    if len(args) > 1024: return ["refused 11"]
    m = Model(file)
    if m.number: return ["refused %d" % m.number]
    state = State(m)
    out = [state.call(a) for a in args]
    out += state.sheet() + ["l %d %d %d" % ((e,) + c) for e, c in state.log]
    hold_plain(state, sum(" granted " in x for x in out))
    return out


def hold_plain(state, granted):
    """Demand 3, as document 02, slip 7, has it, of the state that a list leaves."""
    plain = State(state.m)
    n = plain.plain()
    if state.running():
        for k in state.running(): assert copy.deepcopy(state).finish(k).startswith("finished")
    elif state.ready():
        assert state.request(state.ready()[0][1]).startswith("granted")
    else:
        assert (granted, state.variables, state.records, state.histories) == (n, plain.variables, plain.records, plain.histories)


# ---- lists
def asked(file, args, turn):
    """The arguments, and then what each turn asks for, a list of threads of which the first granted ends the turn, until no thread is
    ready up to the horizon. The turn gets the ready stamps and its own number. Threads that the arguments leave running are finished first."""
    return called(file, args, lambda state, i: ["f%d" % k for k in state.running()] or turn(state.ready(), i))


def called(file, args, turn):
    """The same where the turn gets the state and asks for any calls, until no thread is running either."""
    state, out, i = State(Model(file)), [str(a) for a in args], 0
    for a in out: state.call(a)
    while state.running() or state.ready():
        for a in turn(state, i):
            out.append(str(a))
            if " refused " not in state.call(str(a)): break
        i += 1
    return out


def in_order(ready, i): return [ready[0][1]]
def most_ahead(ready, i): return [k for _, k in reversed(ready)]
def first(k): return lambda ready, i: [k] + [j for _, j in ready if j != k]
def in_turn(t): return lambda ready, i: [i % t]


def grants(state): return ["g%d" % k for _, k in reversed(state.ready())]
def finishes(state): return ["f%d" % k for k in state.running()]


# as many as can be running, and then the lowest finished, or the highest; at most two running; a finish after every third call
def lowest_first(state, i): return grants(state) + finishes(state)
def highest_first(state, i): return grants(state) + finishes(state)[::-1]
def two_at_once(state, i): return (grants(state) if len(state.running()) < 2 else []) + finishes(state)
def third_finishes(state, i): return (finishes(state)[::-1] if i % 3 == 2 else []) + grants(state) + [str(k) for _, k in state.ready()] + finishes(state)


def bound(file, args, k, s):
    """After the requests, the least cycle at which thread k could run segment s."""
    state = State(Model(file))
    for a in args: state.request(a)
    return plus(state.earliest()[k], state.m.reach[state.records[k][0]][s])


# ---- runs: name, model file, arguments
RUNS = []

# document 01, "Cases": what is printed of M
SHEET = ["v 0 126", "v 1 126", "v 2 126", "t 0 1 ended 1260 0", "t 1 3 wait 0 1250 1"]


def run(name, file, args):
    RUNS.append((name, file, [str(a) for a in args]))
    return lines(file, RUNS[-1][2])


def case(name, file, args, turn=in_order):
    """The list as far as the case goes, and then to the end."""
    return run(name, file, args), run(name + ", to the end", file, asked(file, args, turn))


def cases():
    here, _ = case("Case 4", M, [1])
    assert here[0] == "r 1 granted 2 0 0"
    here, _ = case("Case 5", M, [0, 0], in_turn(2))
    assert here[1] == "r 0 refused 14" and bound(M, [0], 1, 3) == (0, 1)

    def setters(second): return model(100, 2, 0, [wait(5, always(2)), wait(10, always(3)), end((SET, 0, 0)), end((SET, second, 1))], [0, 1])
    here, left = case("Case 6", setters(0), [0, 1, 1])
    assert here[2] == "r 1 refused 14" and "t 0 2 ready 5 0" in here
    assert left[3:6] == ["r 0 granted 2 5 0", "r 1 granted 3 10 0", "v 0 1"]
    here, left = case("Case 7", setters(1), [0, 1, 1])
    assert here[2] == "r 1 granted 3 10 0" and "t 0 2 ready 5 0" in here and "v 0 0" in left and "v 1 1" in left

    m = model(100, 0, 1, [wait_for(0, always(3)), wait(5, always(4)), wait(2, always(4)), end(), end((NOTIFY, 0, 0))], [0, 1, 2])
    here, _ = case("Case 8", m, [0, 1, 2, 1])
    assert "t 0 3 wait 0 0 0" in here and "l 0 5 0" in here and bound(m, [0, 1, 2, 1], 2, 4) == (2, 0)
    here, left = case("Case 9", m, [0, 1, 2, 1, 2])
    assert "t 0 3 ready 2 1" in here and "t 0 3 ended 2 1" in left

    m = model(10, 0, 0, [wait(0, always(0))], [0])
    got = run("Case 12", m, asked(m, [], in_order))
    assert got[-2:] == ["r 0 granted 0 0 1023", "t 0 0 overrun 0 1023"] and len(got) == 1025


def orders_of_m():
    many = asked(M, [], lambda ready, i: ["1", "2", "0", "255", "x"] if i % 2 else ["256", "1", "300", "", "00"])
    rest = ["0", "1", "2", "9999999999999999999", "10000000000000000000", "-1", "1 "]
    for name, args in [("in order", asked(M, [], in_order)),
                       ("thread 0 first", asked(M, [], first(0))),
                       ("thread 1 first", asked(M, [], first(1))),
                       ("in turn", asked(M, [], in_turn(2))),
                       ("with numbers out of range", many),
                       ("1,024 requests", (many + rest * 1024)[:1024])]:
        got = run("Model M, " + name, M, args)
        assert [x for x in got if x[0] in "vt"] == SHEET and sum(" granted " in x for x in got) == 254, name
    assert run("Model M, 1,025 requests", M, ["0"] * 1025) == ["refused 11"]
    run("Model M, no request", M, [])


def papers():
    for name, file, turns in [
            ("Document 000, Fig. 1", dvd_player(), [("in order", in_order), ("as Fig. 2", in_turn(2)), ("video first", first(0))]),
            ("Document 000, Fig. 4", two_behaviours(), [("in order", in_order), ("B2 ahead, as Fig. 7", first(1)), ("B1 first", first(0))]),
            ("Document 000, Fig. 5", two_writes(), [("in order", in_order), ("the second first", first(1))]),
            ("Document 001, Fig. 1", manager_and_workers(),
             [("in order", in_order), ("the last worker first", most_ahead), ("manager first", first(0))]),
            ("Document 002, Fig. 1, writer before reader", atomic(0, 1), [("in order", in_order), ("the reader first", first(1))]),
            ("Document 002, Fig. 1, reader before writer", atomic(1, 0), [("in order", in_order), ("the writer first", first(1))])]:
        for order, turn in turns: run(name + ", " + order, file, asked(file, [], turn))


def sentences():
    """Single sentences of "Early issue", and numbers."""
    m = model(100, 0, 1, [wait_for(0, always(3)), wait(2, always(4)), wait(2, always(4)), end(), end((NOTIFY, 0, 0))], [0, 1, 2])
    # "if the forecast of the event is not smaller"
    here, _ = case("A forecast equal to what is logged", m, [0, 1, 2, 1])
    assert "t 0 3 ready 2 1" in here and "t 2 4 ready 2 0" in here
    # "an equal pair held once"
    here, _ = case("Two equal notifications", m, [1, 2, 1, 2])
    assert here[4:] == ["t 0 0 ready 0 0", "t 1 4 ended 2 0", "t 2 4 ended 2 0", "l 0 2 0"]
    # "chains that begin at a ready thread": thread 0 at (5, 0) wakes 1, and 1 at (5, 1) wakes 2, which sets the variable at (5, 2)
    m = model(100, 1, 2, [
        wait(5, always(1)), end((NOTIFY, 0, 0)), wait_for(0, always(3)), end((NOTIFY, 1, 0)), wait_for(1, always(5)), end((SET, 0, 1)),
        wait(5, always(7)), wait(0, always(8), (SET, 0, 2)), wait(0, always(9), (SET, 0, 3)), end((SET, 0, 4))], [0, 2, 4, 6])
    here, left = case("A chain of wakes", m, [0, 1, 2, 3, 3, 3, 3])
    assert here[4:7] == ["r 3 granted 7 5 0", "r 3 granted 8 5 1", "r 3 refused 14"] and "v 0 4" in left
    # 15: three steps of 32 new pairs ahead of a thread at (0, 0), and a fourth
    m = model(10, 0, 32, [end(), wait(1, always(1), *[(NOTIFY, e, 0) for e in range(32)])], [0, 1])
    got = run("Number 15", m, asked(m, [1, 1, 1, 1], in_order))
    assert got[2:4] == ["r 1 granted 1 2 0", "r 1 refused 15"]
    assert run("Number 15, three steps", m, [1, 1, 1]).count("l 31 2 0") == 1
    assert run("Number 7", model(10, 0, 0, [end((SET, 0, 1))], [0]), [0]) == ["refused 7"]
    assert run("Number 1", M[:-1], [0, 1]) == ["refused 1"]


def end_time():
    """Document 02, slip 1: what is ready at exactly H runs, and "never" begins above 1,000,000,000 units."""
    most = 10**9
    got = run("Case 3", model_m(1250), asked(model_m(1250), [], in_turn(2)))
    assert got[-5:] == ["v 0 126", "v 1 126", "v 2 126", "t 0 1 ready 1260 0", "t 1 3 wait 0 1250 1"]
    got = run("Ready at the end", model(5, 0, 0, [wait(5, always(0))], [0]), [0, 0, 0])
    assert got[:3] == ["r 0 granted 0 0 0", "r 0 granted 0 5 0", "r 0 refused 13"]
    got = run("Ready one after the end", model(5, 0, 0, [wait(6, always(0))], [0]), [0, 0])
    assert got[:2] == ["r 0 granted 0 0 0", "r 0 refused 13"]
    m = model(5, 0, 1, [wait_for(0, always(2)), wait(5, always(3)), end(), end((NOTIFY, 0, 0))], [0, 1])
    assert run("Notified at the end", m, [0, 1, 1, 0])[3] == "r 0 granted 2 5 1"
    m = model(most, 1, 0, [wait(most, always(1)), end((SET, 0, 1)), wait(most, always(3)), wait(0, always(4)), end((SET, 0, 2))], [0, 2])
    here, left = case("A path of 1,000,000,000", m, [1, 1, 1])
    assert here[:3] == ["r 1 granted 2 0 0", "r 1 granted 3 1000000000 0", "r 1 refused 14"] and "v 0 2" in left
    m = model(most, 1, 0, [wait(most, always(1)), wait(0, always(2)), end((SET, 0, 1)), wait(most, always(4)), wait(0, always(5)), end((SET, 0, 2))], [0, 3])
    here, left = case("A path of 1,000,000,000 and a delta", m, [1, 1, 1])
    assert here[2] == "r 1 refused 14" and "v 0 2" in left
    m = model(most, 0, 1, [wait(most, always(0), (NOTIFY, 0, 0)), wait(most, always(1))], [0, 1])
    got = run("A record at 2,000,000,000", m, [0, 0, 0, 1])
    assert got[1:4] == ["r 0 granted 0 1000000000 0", "r 0 refused 13", "r 1 granted 1 0 0"]
    assert "t 0 0 ready 2000000000 0" in got and "l 0 1000000000 0" in got


def mapped(file, eights):
    """The file with the record of kind 5 that each thread has, b"" for none."""
    first = len(file) - len(FILE_END) - 5 * len(eights)
    threads = [file[first + 5 * k:first + 5 * k + 5] for k in range(len(eights))]
    return file[:first] + b"".join(t + x for t, x in zip(threads, eights)) + FILE_END


def ports():
    """Document 02, slip 4: what a segment does and what it conflicts with is the thread's, after mapping."""
    here, left = case("Two counters through one segment", LOOPS, [1, 1, 1, 0])
    assert here[:6] == ["r 1 granted 0 0 0", "r 1 granted 0 3 0", "r 1 granted 1 6 0", "r 0 granted 0 0 0", "v 0 1", "v 1 2"] and left[-4:-2] == ["v 0 2", "v 1 2"]
    here, left = case("One counter through one segment", LOOPS.replace(port_record(p0=1), port_record(p0=0)), [1, 0, 1])
    assert here[:5] == ["r 1 refused 14", "r 0 granted 0 0 0", "r 1 granted 0 0 0", "v 0 2", "v 1 0"] and left[-4:-2] == ["v 0 3", "v 1 0"]

    # case 6 with thread 1 at its port
    def writers(a, b, *eights): return mapped(model(20, 2, 0, [wait(5, always(1)), end(a), wait(10, always(3)), b], [0, 2]), eights)
    def second(file, name, answer):
        here, left = case(name, file, [1, 1])
        assert here[1] == "r 1 " + answer, name
        return left
    through = end((SET, 135, 2))
    left = second(writers((SET, 0, 1), through, b"", port_record(p7=0)), "A port meets a variable", "refused 14")
    assert "v 0 2" in left
    second(writers((SET, 0, 1), through, b"", port_record(p7=1)), "A port beside a variable", "granted 3 10 0")
    second(writers((SET, 128, 1), end((SET, 129, 2)), port_record(p0=0), port_record(p1=0)), "Two ports of one variable", "refused 14")
    second(writers((SET, 128, 1), end((SET, 128, 2)), port_record(p0=0), port_record(p0=1)), "One port of two variables", "granted 3 10 0")
    second(writers((SET, 128, 1), end((SET, 1, 2)), port_record(p0=1), b""), "A variable meets a port", "refused 14")
    second(writers((SET, 0, 1), wait(1, below(128, 1, 3, 3)), b"", port_record(p0=0)), "A test through a port", "refused 14")
    second(writers((COPY, 1, 0), wait(1, below(128, 1, 3, 3)), b"", port_record(p0=0)), "Two readers", "granted 3 10 0")
    second(writers((COPY, 1, 128), end((ADD, 0, 1)), port_record(p0=0), b""), "A reader through a port", "refused 14")
    second(writers((SET, 0, 1), end((COPY, 1, 128)), b"", port_record(p0=0, p1=0)), "A copy through a port", "refused 14")
    second(writers((SET, 0, 1), end((SET, 1, 2)), b"", port_record(p0=0)), "A port that nobody names", "granted 3 10 0")
    # a port of a variable that the segment also names directly
    m = mapped(model(9, 2, 0, [end((SET, 0, 4), (ADD, 128, 3), (ADD_VARIABLE, 0, 128), (COPY, 129, 0))], [0]), [port_record(p0=0, p1=1)])
    assert run("A variable and its port", m, [0])[1:3] == ["v 0 14", "v 1 14"]
    # what a thread reaches through a port counts before the stamp, as in case 5
    m = mapped(model(20, 1, 1, [wait(1, always(1), (NOTIFY, 0, 0)), end((SET, 128, 1)), wait_for(0, always(3)), end((ADD, 129, 1))], [0, 2]), [port_record(p0=0), port_record(p1=0)])
    here, left = case("A wake that leads to a port", m, [0, 0, 1, 0, 1])
    assert here[1] == "r 0 refused 14" and "v 0 1" in left
    m = model(9, 1, 0, [end((SET, 0, 128), (ADD, 0, 135))], [0])
    assert run("A constant is no port", m, [0])[1] == "v 0 263"
    m = model(9, 64, 0, [end((SET, 135, 5))], [0])
    assert run("The last port and the last variable", mapped(m, [port_record(p7=63)]), [0])[64] == "v 63 5"
    run("Ports in every place", EVERY, asked(EVERY, [], most_ahead))
    assert run("Number 17", mapped(m, [port_record(p7=64)]), [0]) == ["refused 17"]
    assert run("Number 18", m, [0]) == ["refused 18"]


def waits():
    """Document 02, slip 5: a waiting thread's bounds are raised to the delta after its wait began, at every link of a chain."""
    # Thread 0 waits on event 0 since (5, 0) and then sets the variable. Thread 1 notifies event 0 every unit. Thread 2 sets the variable at (4, 0), (5, 0) or (5, 1).
    def sounder(asker, threads): return model(10, 1, 1, [
        wait(5, always(1)), wait_for(0, always(2)), end((SET, 0, 1)), wait(1, always(3), (NOTIFY, 0, 0))] + asker, threads)
    def at(t): return [wait(t, always(5)), end((SET, 0, 2))]
    next_delta = [wait(5, always(5)), wait(0, always(6)), end((SET, 0, 2))]
    late = [0, 0, 2, 2]
    here, left = case("A slow sounder", sounder(at(4), [0, 3, 4]), late)
    assert here[3] == "r 2 granted 5 4 0" and bound(sounder(at(4), [0, 3, 4]), [0, 0], 0, 2) == (5, 1) and "v 0 1" in left
    here, _ = case("A slow sounder, asked at its wait", sounder(at(5), [0, 3, 4]), late)
    assert here[3] == "r 2 granted 5 5 0"
    here, _ = case("A slow sounder, asked a delta after its wait", sounder(next_delta, [0, 3, 4]), late + [2])
    assert here[3:5] == ["r 2 granted 5 5 0", "r 2 refused 14"]
    here, _ = case("A slow sounder, asked by a lower thread", sounder(next_delta, [4, 3, 0]), [2, 2, 0, 0, 0])
    assert here[3:5] == ["r 0 granted 5 5 0", "r 0 granted 6 5 1"]
    # "along chains too": thread 0 waits on event 0 since (5, 0) and then notifies event 1, on which thread 1 waits since (2, 0) and then sets the variable
    m = model(10, 1, 2, [
        wait(5, always(1)), wait_for(0, always(2)), end((NOTIFY, 1, 0)), wait(2, always(4)), wait_for(1, always(5)), end((SET, 0, 1)),
        wait(1, always(6), (NOTIFY, 0, 0)), wait(4, always(8)), end((SET, 0, 2))], [0, 3, 6, 7])
    here, left = case("A chain of slow sounders", m, [0, 0, 1, 1, 3, 3])
    assert here[5] == "r 3 granted 8 4 0" and bound(m, [0, 0, 1, 1], 1, 5) == (5, 2) and "v 0 1" in left
    # "deliveries follow": event 0 is logged at (2, 0); thread 1, which waits since (3, 0), could notify it at (3, 1)
    m = model(10, 0, 2, [
        wait_for(0, always(1)), end(), wait(3, always(3)), wait_for(1, always(4)), end((NOTIFY, 0, 0)),
        wait(2, always(6)), end((NOTIFY, 0, 0)), wait(1, always(7), (NOTIFY, 1, 0))], [0, 2, 5, 7])
    here, _ = case("A delivery before a raised bound", m, [0, 1, 1, 2, 2])
    assert "t 0 1 ready 2 1" in here and bound(m, [0, 1, 1, 2], 1, 4) == (3, 1)
    # never stays never
    m = model(10, 1, 1, [wait(5, always(1)), wait_for(0, always(2)), end((SET, 0, 1)), wait(9, always(4)), end((SET, 0, 2))], [0, 3])
    here, _ = case("A wait on what nobody notifies", m, [0, 0, 1, 1])
    assert here[3] == "r 1 granted 4 9 0"


def calls():
    """Document 02, slip 7: grants and finishes apart. Until its finish a thread "counts as live at its cycle for hazards, earliest, forecasts and the floor"."""
    def answers(got): return [x.split(" ", 2)[2] for x in got if x[0] in "rgf"]
    def left(got): return [x for x in got if x[0] in "vtl"]

    assert left(run("A grant", M, ["g0"])) == ["v 0 0", "v 1 0", "v 2 0", "t 0 0 running 0 0", "t 1 2 ready 0 0"]
    assert left(run("The log is kept while one runs", M, ["g0", "g1", "f0"]))[3:] == ["t 0 0 ready 10 0", "t 1 2 running 0 0", "l 0 0 0"]
    here, there = case("Heard at the finish", M, ["g0", "g1", "f0", "f1"], in_turn(2))
    assert left(here) == ["v 0 1", "v 1 0", "v 2 0", "t 0 0 ready 10 0", "t 1 3 ready 0 1"] and left(there) == SHEET
    # 19, "checked after 10"
    got = run("Number 19", M, ["f0", "g0", "g0", 0, "f1", "f2", "g2", "f0", "f0"])
    assert answers(got) == ["refused 19", "granted 0 0 0", "refused 19", "refused 19", "refused 19", "refused 10", "refused 10", "finished 0 0 0", "refused 19"]
    got = run("Number 19, of what has ended or waits", model(9, 0, 1, [end(), wait_for(0, always(0))], [0, 1]), [0, "f0", "g0", 1, "f1", "g1"])
    assert answers(got) == ["granted 0 0 0", "refused 19", "refused 12", "granted 1 0 0", "refused 19", "refused 12"]
    got = run("Number 19, and 13", model(5, 0, 0, [wait(6, always(0))], [0]), ["g0", "f0", "g0", "f0"])
    assert answers(got)[2:] == ["refused 13", "refused 19"]
    got = run("Calls with numbers out of range", M, ["g", "f", "gx", "f-1", "gg0", "fg0", "g00", "f 0", "f255", "g256", "g9999999999999999999", "f10000000000000000000", "F0", "f000"])
    assert [x[:3] for x in got[:14]] == ["g ?", "f ?", "g ?", "f ?", "g ?", "f ?", "g 0", "f ?", "f 2", "g 2", "g 9", "f ?", "r ?", "f 0"]
    assert [k for k, x in enumerate(answers(got)) if x != "refused 10"] == [6, 13]

    # case 6: what thread 0 is about to write, and what follows what it runs
    def setters(x, a, y, b): return model(100, 2, 0, [wait(5, always(2)), wait(10, always(3)), end((SET, x, a)), end((SET, y, b))], [0, 1])
    here, there = case("A hazard of a running thread", setters(0, 0, 0, 1), [0, 1, "g0", "g1", "f0", "g1"])
    assert answers(here)[2:] == ["granted 2 5 0", "refused 14", "finished 2 5 0", "granted 3 10 0"] and "v 0 0" in here and "v 0 1" in there
    here, _ = case("A hazard of what follows a running segment", setters(0, 0, 0, 1), [1, "g0", "g1"])
    assert answers(here) == ["granted 1 0 0", "granted 0 0 0", "refused 14"]
    # case 7: "a finish stores the variables it writes", and no more
    here, there = case("Two running", setters(0, 5, 1, 7), [0, 1, "g1", "g0"])
    assert left(here) == ["v 0 0", "v 1 0", "t 0 2 running 5 0", "t 1 3 running 10 0"] and "v 0 5" in there and "v 1 7" in there
    for order in ["f1", "f0"], ["f0", "f1"]:
        got = run("Each stores its own, %s" % order[0], setters(0, 5, 1, 7), [0, 1, "g0", "g1"] + order)
        assert left(got)[:2] == ["v 0 5", "v 1 7"]
    # thread 0 copies variable 0; while it runs, thread 1, which sets it, waits for its turn
    m = model(9, 2, 0, [end((COPY, 1, 0)), end((SET, 0, 3))], [0, 1])
    here, _ = case("A reader that runs", m, ["g0", "g1", 1, "f0", "g1", "f1"])
    assert answers(here) == ["granted 0 0 0", "refused 14", "refused 14", "finished 0 0 0", "granted 1 0 0", "finished 1 0 0"] and "v 1 0" in here
    # the test is made of what the segment wrote, and of values at the grant
    m = model(9, 2, 0, [wait(1, below(0, 2, 0, 1), (ADD, 0, 1)), end((ADD, 1, 1))], [0])
    got = run("A loop by grants and finishes", m, called(m, [], lowest_first))
    assert answers(got)[-1] == "finished 1 2 0" and left(got)[:2] == ["v 0 2", "v 1 1"]

    # case 8: a running thread's forecast holds back a delivery, its finish lets it through
    m = model(100, 0, 1, [wait_for(0, always(3)), wait(5, always(4)), wait(2, always(4)), end(), end((NOTIFY, 0, 0))], [0, 1, 2])
    here, _ = case("A forecast of a running thread", m, [0, 2, "g2", 1, 1])
    assert left(here) == ["t 0 3 wait 0 0 0", "t 1 4 ended 5 0", "t 2 4 running 2 0", "l 0 5 0"]
    here, _ = case("A forecast, then finished", m, [0, 2, "g2", 1, 1, "f2"])
    assert left(here) == ["t 0 3 ready 2 1", "t 1 4 ended 5 0", "t 2 4 ended 2 0", "l 0 5 0"]
    # a running thread that may wake another, which sets the variable
    m = model(100, 1, 1, [wait_for(0, always(1)), end((SET, 0, 1)), wait(2, always(3)), end((NOTIFY, 0, 0)), wait(3, always(5)), end((SET, 0, 2))], [0, 2, 4])
    here, there = case("A chain from a running thread", m, [0, 1, 2, "g1", "g2", "f1", "g2", 0, "g2"])
    assert answers(here)[4:] == ["refused 14", "finished 3 2 0", "refused 14", "granted 1 2 1", "granted 5 3 0"] and "v 0 2" in there

    # "its log places are counted from the grant, an equal pair once"
    loud = end(*[(NOTIFY, e, 0) for e in range(32)])
    def sounders(*at): return model(20, 0, 32, [end()] + [wait(t, always(5)) for t in at] + [loud], [0, 1, 2, 3, 4])
    asks = [1, 2, 3, 4, "g1", "g2", "g3", "g4"]
    here, _ = case("Places from the grant", sounders(1, 2, 3, 4), asks + [4, "g0", "g4"])
    assert answers(here)[6:] == ["granted 5 3 0", "refused 15", "refused 15", "granted 0 0 0", "refused 15"] and not any(x[0] == "l" for x in here)
    here, _ = case("An equal pair once", sounders(1, 1, 3, 4), asks)
    assert answers(here)[4:] == ["granted 5 1 0", "granted 5 1 0", "granted 5 3 0", "granted 5 4 0"]
    here, _ = case("Places counted and logged", sounders(1, 1, 2, 3), [1, 2, 3, 4, "g1", "f1", "g2", "g3", "f3", "g4"])
    assert answers(here)[-1] == "granted 5 3 0" and sum(x[0] == "l" for x in here) == 64
    here, _ = case("The floor of a running thread", sounders(1, 2, 3, 4), [1, 2, 3, 4, "g0", 1, 2, 3, 4, "f0", 4])
    assert answers(here)[4:] == ["granted 0 0 0", "granted 5 1 0", "granted 5 2 0", "granted 5 3 0", "refused 15", "finished 0 0 0", "granted 5 4 0"]

    # ports: one code on two counters, and on one
    here, there = case("Two counters, both running", LOOPS, ["g1", "g0", "f0", "f1"])
    assert answers(here) == ["granted 0 0 0", "granted 0 0 0", "finished 0 0 0", "finished 0 0 0"] and left(here)[:2] == ["v 0 1", "v 1 1"]
    here, _ = case("One counter, one running", LOOPS.replace(port_record(p0=1), port_record(p0=0)), ["g0", "g1", "f0", "g1", "f1"])
    assert answers(here) == ["granted 0 0 0", "refused 14", "finished 0 0 0", "granted 0 0 0", "finished 0 0 0"] and left(here)[:2] == ["v 0 2", "v 1 0"]

    turns = [("lowest first", lowest_first), ("highest first", highest_first), ("two at once", two_at_once), ("every third a finish", third_finishes)]
    for name, turn in turns:
        got = run("Model M, grants, " + name, M, called(M, [], turn))
        assert left(got) == SHEET and sum(" granted " in x for x in got) == 254, name
    for name, file in [("Document 000, Fig. 4", two_behaviours()), ("Document 001, Fig. 1", manager_and_workers()), ("Ports in every place", EVERY)]:
        for order, turn in turns: run("%s, grants, %s" % (name, order), file, called(file, [], turn))
    assert run("Model M, 1,025 calls", M, ["g0", "f0"] * 512 + ["g1"]) == ["refused 11"]


def runs():
    cases()
    orders_of_m()
    papers()
    sentences()
    end_time()
    ports()
    waits()
    calls()
    return RUNS
