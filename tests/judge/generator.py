"""The generator of crates/second (src/draw.rt), written a second time: the model file of a seed (docs/MODEL-FILE.md).

The table is read from draw.rt; all else is written anew."""
import os
import re
import struct

HERE = os.path.dirname(os.path.abspath(__file__))
P = 2147483647
SET, ADD, COPY, ADD_VARIABLE, SUB_VARIABLE, NOTIFY = 1, 2, 3, 4, 5, 6
END = (0, 0, 0, (0, 0, 0, 0))
PORT, UNUSED = 128, 255
NO_PORTS = (UNUSED,) * 8


def table():
    with open(os.path.join(HERE, "../../crates/second/src/draw.rt")) as f:
        text = re.search(r"const TABLE: \[u64; 296\] = \[(.*?)\];", f.read(), re.S).group(1)
    return [int(x) for x in re.findall(r"\d+", re.sub(r"//.*", "", text))]


TABLE = table()
assert len(TABLE) == 296


def mixed(seed, place):
    x = (seed % P) * 48271 + place * 69621 + 12345
    return ((x % P * 16807 + 1) % P) * 48271 % P


def pick(seed, place, n):
    return mixed(seed, place) // 16 % n if n else 0


def choice(seed, row):
    return TABLE[row * 8 + pick(seed, row, 8)]


def name(seed, place, n, s):
    """One of the first n variables, or a port."""
    if pick(seed, place + 30, 100) < s["named"]:
        return PORT + (s["port"] + pick(seed, place + 40, s["ports"])) % 8
    return pick(seed, place, n)


def statement(seed, s):
    if pick(seed, 41, 100) < s["notify"]:
        return (NOTIFY, pick(seed, 42, s["e"]), 0)
    op, a = 1 + pick(seed, 43, 5), name(seed, 44, s["w"], s)
    return (op, a, choice(seed, 33) if op in (SET, ADD) else name(seed, 45, s["v"], s))


def following(seed, s):
    a = pick(seed, 48, s["n"])
    if s["v"] == 0 or pick(seed, 49, 2) == 0:
        return (a, a, 255, 0)
    return (a, pick(seed, 50, s["n"]), name(seed, 51, s["v"], s), choice(seed, 34))


def closer(seed, s):
    way = pick(seed, 46, 100)
    if way < s["ends"]:
        return END
    if way < s["ends"] + s["events"]:
        return (2, pick(seed, 47, s["e"]), 0, following(seed, s))
    return (1, 0, choice(seed, s["delays"]), following(seed, s))


def segment(seed, s):
    return (closer(seed, s), [statement(mixed(seed, j), s) for j in range(pick(seed, 52, s["most"] + 1))])


def counters(seed, w):
    kind = 1 + pick(seed, 53, 2)
    return [((kind, kind - 1, 0, (0, 2, w, 1017 + pick(seed, 54, 10))), [(ADD, w, 1), (NOTIFY, 0, 0)]),
            ((2, 0, 0, (1, 1, 255, 0)), [(NOTIFY, 1, 0)])]


def is_long(seed):
    return seed % 24 == 23


def has_ports(seed):
    return (seed + seed // 24) % 3 == 0


def names_of(segment):
    """The numbers of variables and ports that a segment names."""
    (kind, _, _, (_, _, test, _)), statements = segment
    named = {a for op, a, _ in statements if op != NOTIFY} | {b for op, _, b in statements if op in (COPY, ADD_VARIABLE, SUB_VARIABLE)}
    return named | ({test} if kind and test != 255 else set())


def reached(segments, first):
    """The segments that next segments lead to."""
    seen, new = set(), {first}
    while new:
        seen |= new
        new = {x for r in new for x in (segments[r][0][3][:2] if segments[r][0][0] else ())} - seen
    return seen


def ports_of(seed, segments, first, s):
    """The eight ports of a thread: those that a segment it reaches names, and some others."""
    needed = {x - PORT for r in reached(segments, first) for x in names_of(segments[r]) if PORT <= x < PORT + 8}
    if not s["named"] or (not needed and pick(seed, 40, 2) == 0):
        return NO_PORTS
    return tuple(pick(seed, p + 30, s["w"]) if p in needed or pick(seed, p + 20, 6) == 0 else UNUSED for p in range(8))


def model_of(seed):
    row = 20 if is_long(seed) else 10 if seed % 24 > 20 else 0
    names = ["v", "e", "n", "t", "most", "notify", "ends", "events", "delays"]
    s = {name: choice(seed, row + 1 + i) for i, name in enumerate(names)}
    if has_ports(seed):
        s["v"] = max(s["v"], 1)
    s.update(w=s["v"] - is_long(seed), named=choice(seed, 35) if has_ports(seed) else 0, ports=choice(seed, 36), port=pick(seed, 56, 8))
    if s["v"] == 0:
        s["notify"] = 100
    if s["e"] == 0:
        s.update(notify=0, events=0)
    if s["v"] == s["e"] == 0:
        s["most"] = 0
    segments = counters(seed, s["w"]) if is_long(seed) else []
    segments += [segment(mixed(seed, j + 100), s) for j in range(len(segments), s["n"])]
    own = [(k + pick(seed, 55, 2)) % s["t"] for k in range(s["t"])]
    firsts = own if is_long(seed) else [pick(seed, k + 200, s["n"]) for k in range(s["t"])]
    threads = [(first, ports_of(mixed(seed, k + 500), segments, first, s)) for k, first in enumerate(firsts)]
    return (choice(seed, row), s["v"], s["e"], segments, threads)


def file_of(model):
    horizon, v, e, segments, threads = model
    out = struct.pack("<HHIBB", 10, 1, horizon, v, e)
    for (kind, event, units, (a, b, test, limit)), statements in segments:
        out += struct.pack("<HHBBIBBBI", 17 + 6 * len(statements), 2, kind, event, units, a, b, test, limit)
        for s in statements:
            out += struct.pack("<BBI", *s)
    for first, ports in threads:
        out += struct.pack("<HHB", 5, 3, first)
        if ports != NO_PORTS:
            out += struct.pack("<HH8B", 12, 5, *ports)
    return out + struct.pack("<HH", 4, 4)


def with_horizon(file, horizon):
    return file[:4] + struct.pack("<I", horizon) + file[8:]
