"""The stored model files of this crate, and the number of each.

The second reader here is written otherwise than the reader: it collects every fault of every record with the place that
document 01's order gives it, and takes the least. Ports and their numbers are document 02's, slip 4.
"""
import random, struct

# ---- the second reader
def word(b, i): return b[i] + b[i + 1] * 256
def long(b, i): return int.from_bytes(b[i:i + 4], "little")

def records(b):
    """The records as far as their lengths go, and whether the bytes end inside one."""
    out = []
    while True:
        if len(b) < 4 or word(b, 0) < 4 or word(b, 0) > len(b): return out, b
        size, kind = word(b, 0), word(b, 2)
        out.append((kind, b[:size])); b = b[size:]
        if kind == 4: return out, b

FOLLOWS = {0: {1}, 1: {2}, 2: {2, 3}, 3: {3, 4, 5}, 5: {3, 4}}
LENGTHS = {1: {10}, 2: {17 + 6 * n for n in range(33)}, 3: {5}, 4: {4}, 5: {12}}
PORTS = range(128, 136)
UNUSED = 255

def is_name(x, V): return x < V or x in PORTS

def closer_faults(c, V, E):
    kind, event, delay, a, b, test, limit = struct.unpack("<BBIBBBI", c)
    if kind > 2: return {5}
    if kind == 0: return {5} if any(c[1:]) else set()
    faults = set()
    if kind == 1 and event: faults.add(5)
    if kind == 1 and delay > 10**9: faults.add(5)
    if kind == 2 and delay: faults.add(5)
    if test == 255 and (a != b or limit): faults.add(5)
    if kind == 2 and event >= E: faults.add(7)
    if test != 255 and not is_name(test, V): faults.add(7)
    return faults

def statement_faults(s, V, E):
    op, a, b = struct.unpack("<BBI", s)
    if op not in (1, 2, 3, 4, 5, 6) or (op == 6 and b): return {6}
    if op == 6: return {7} if a >= E else set()
    return {7} if not is_name(a, V) or (op > 2 and not is_name(b, V)) else set()

def ports_named(r):
    """The ports that a segment's record names."""
    statements = [struct.unpack("<BBI", r[j:j + 6]) for j in range(17, len(r), 6)]
    names = {a for op, a, b in statements if op != 6} | {b for op, a, b in statements if op in (3, 4, 5)} | ({r[12]} if r[4] else set())
    return {x - PORTS[0] for x in names if x in PORTS}

def lacks(ways, named, first, ports):
    """Whether next segments lead from the first to one that names an unused port."""
    seen, due = set(), [first]
    while due:
        s = due.pop()
        if s not in seen: seen.add(s); due += ways[s]
    return any(ports[p] == UNUSED for s in seen for p in named[s])

def judge(b):
    """The number, and the whole model of an accepted file: its head, its segments with their statements, its threads' first segments
    with their ports."""
    rs, left = records(b)
    faults, last, counts, V, E, H = [], 0, {2: 0, 3: 0}, 0, 0, 0
    ways, named, firsts, ports, segments = [], [], [], [], []
    for i, (kind, r) in enumerate(rs):
        ok = kind in FOLLOWS.get(last, ())
        if not ok: faults.append((i, 2))
        if kind not in LENGTHS or len(r) not in LENGTHS[kind]: faults.append((i, 3))
        if faults: break
        if kind == 1:
            H, V, E = long(r, 4), r[8], r[9]
            if not (1 <= H <= 10**9 and V <= 64 and E <= 32): faults.append((i, 4))
        if kind == 2:
            if counts[2] == 64: faults.append((i, 4))
            faults += [(i, n) if n < 6 else (i, 5, 1) for n in closer_faults(r[4:17], V, E)]
            for j in range(17, len(r), 6):
                faults += [(i, 6, j, n) for n in statement_faults(r[j:j + 6], V, E)]
            ways.append([r[10], r[11]] if r[4] else [])
            named.append(ports_named(r))
            segments += struct.unpack("<BBIBBBI", r[4:17]) if r[4] else (0,)
            segments += [len(r) // 6 - 2] + [x for j in range(17, len(r), 6) for x in struct.unpack("<BBI", r[j:j + 6])]
        if kind == 3:
            if counts[3] == 32: faults.append((i, 4))
            firsts.append(r[4])
            ports.append(bytes([UNUSED] * 8))
        if kind == 5:
            ports[-1] = r[4:]
            if set(ports[-1]) == {UNUSED} or any(x != UNUSED and x >= V for x in ports[-1]): faults.append((i, 17))
        if kind in counts: counts[kind] += 1
        last = kind
    if faults:
        f = min(faults)
        return (f[1] if len(f) == 2 else 7 if len(f) == 3 else f[3],)
    if last != 4: return (1,)
    if left: return (9,)
    if any(x >= counts[2] for x in sum(ways, firsts)): return (8,)
    if any(lacks(ways, named, *x) for x in zip(firsts, ports)): return (18,)
    return (0, H, V, E, counts[2], counts[3], *segments, *[x for first, eight in zip(firsts, ports) for x in (first, *eight)])

# ---- files
def head(H, V, E): return struct.pack("<HHIBB", 10, 1, H, V, E)
def segment(c, *ss): return struct.pack("<HH", 17 + 6 * len(ss), 2) + c + b"".join(struct.pack("<BBI", *s) for s in ss)
def closer(kind, event=0, delay=0, a=0, b=0, test=255, limit=0): return struct.pack("<BBIBBBI", kind, event, delay, a, b, test, limit)
def thread(s): return struct.pack("<HHB", 5, 3, s)
def ports(**variables): return struct.pack("<HH8B", 12, 5, *[variables.get("p%d" % p, UNUSED) for p in range(8)])
ENDING, END = bytes(13), struct.pack("<HH", 4, 4)

CASE1 = head(10, 0, 0) + segment(ENDING) + thread(0) + END
M = (head(1261, 3, 1) + segment(closer(1, 0, 10, 0, 1, 0, 126), (2, 0, 1), (6, 0, 0)) + segment(ENDING)
     + segment(closer(2, 0, 0, 3, 3)) + segment(closer(2, 0, 0, 3, 3), (3, 1, 0), (2, 2, 1)) + thread(0) + thread(2) + END)
FULL = [(op, 63 if op < 6 else 31, 63 if 2 < op < 6 else 0 if op == 6 else 2**32 - 1) for op in [1, 2, 3, 4, 5, 6] * 5 + [1, 6]]
def largest(segments=64, threads=32, after=b""):
    return (head(10**9, 64, 32) + b"".join(segment(closer(1 + i % 2, 31 * (i % 2), 10**9 * (1 - i % 2), 63, i % 64, 63, 2**32 - 1), *FULL) for i in range(segments))
            + b"".join(thread(63 - i) + after for i in range(threads)) + END)

# two loops run one code, each on its own counter: the models with ports
COUNT = segment(closer(1, 0, 3, 0, 1, 128, 2), (2, 128, 1)) + segment(ENDING)
LOOPS = head(10, 2, 0) + COUNT + thread(0) + ports(p0=0) + thread(0) + ports(p0=1) + END
EVERY = (head(9, 3, 1) + segment(closer(2, 0, 0, 0, 1, 135, 9), *[(o, 128, 129 if o > 2 else 128) for o in range(1, 6)], (6, 0, 0)) + segment(closer(1, 0, 1, 1, 1), (3, 1, 134))
         + segment(ENDING, (1, 2, 135)) + thread(0) + ports(p0=0, p1=1, p6=1, p7=2) + thread(2) + thread(1) + ports(p5=0, p6=2) + END)

# the small example of each number, with the number as document 01's table has it
TABLE = [(1, b""), (2, END), (3, b"\x0b" + CASE1[1:10] + b"\0" + CASE1[10:]), (4, head(0, 0, 0) + CASE1[10:]),
         (5, head(10, 0, 0) + segment(b"\3" + bytes(12)) + thread(0) + END), (6, head(10, 0, 0) + segment(ENDING, (7, 0, 0)) + thread(0) + END),
         (7, head(10, 0, 0) + segment(ENDING, (1, 0, 0)) + thread(0) + END), (8, CASE1[:-5] + b"\1" + END), (9, CASE1 + b"\0")]

def port_edges():
    """The edges of ports, with the number of each."""
    def one(V, *ss, c=ENDING, after=b"", E=1): return head(9, V, E) + segment(c, *ss) + thread(0) + after + END
    def way(c, *after, other=segment(ENDING), end=END):
        return head(9, 1, 0) + segment(c) + segment(ENDING, (1, 128, 1)) + other + b"".join(after) + end
    to_1, at_0, all_255, far = closer(1, 0, 1, 1, 1), ports(p0=0), ports(), closer(1, 0, 10**9, 3, 3)
    out = [(0, LOOPS), (0, EVERY), (0, largest(after=ports(p7=63))), (4, largest(64, 33, ports(p7=63)))]
    # 17: where the record stands
    out += [(17, one(2, after=all_255)), (17, one(2, after=ports(p3=2))), (17, one(2, after=ports(p0=0, p1=128))), (17, one(0, after=at_0))]
    out += [(17, one(2, after=ports(**{"p%d" % p: x}))) for p in range(8) for x in (2, 64, 127, 128, 135, 136, 254)]
    out += [(17, one(2, after=all_255) + b"\0"), (17, one(2, after=all_255 + segment(ENDING))), (17, one(2, after=all_255 + all_255)), (17, one(2, (1, 128, 0), after=all_255))]
    out += [(17, head(9, 1, 0) + segment(ENDING) + thread(1) + ports(p0=1) + END), (0, one(64, after=ports(p0=63))), (17, one(63, after=ports(p0=63)))]
    out += [(0, one(2, after=ports(**{"p%d" % p: 1}))) for p in range(8)]
    # 2 and 3: after a thread, at most one each
    out += [(2, one(1, after=at_0 + at_0)), (2, head(9, 1, 0) + segment(ENDING) + at_0 + thread(0) + END), (2, head(9, 1, 0) + at_0 + segment(ENDING) + thread(0) + END), (2, at_0 + CASE1)]
    out += [(2, one(1, after=at_0 + at_0[:-1])), (2, one(1, after=struct.pack("<HH8x", 12, 6))), (2, one(1, after=at_0 + segment(ENDING))), (2, one(1, after=struct.pack("<HH8x", 12, 261)))]
    out += [(3, one(1, after=struct.pack("<HH%dx" % (n - 4), n, 5))) for n in (4, 11, 13, 20)]
    out += [(9, one(1) + at_0), (1, one(1, after=at_0)[:-4]), (1, one(1, after=at_0)[:-5]), (1, one(1, after=b"\3\0\5\0"))]
    # 7: 64 to 127 and 136 to 254 are not below V, and an event has no ports
    for x in (1, 63, 64, 127, 136, 254, 255):
        out += [(7, one(1, (o, x, 0), after=at_0)) for o in range(1, 6)] + [(7, one(1, (o, 0, x), after=at_0)) for o in (3, 4, 5)]
        if x < 255: out.append((7, one(1, c=closer(1, 0, 1, 0, 0, x), after=at_0)))
    out += [(7, one(1, (o, 0, x), after=at_0)) for o in (3, 4, 5) for x in (256, 384, 391, 128 + 2**16, 2**31 + 128, 2**32 - 128)]
    out += [(7, one(1, (6, 128, 0), after=at_0)), (7, one(1, c=closer(2, 128), after=at_0)), (5, one(1, c=bytes(8) + b"\x80" + bytes(4), after=at_0))]
    for p in range(8):
        after = ports(**{"p%d" % p: 0})
        out += [(0, one(1, (o, 128 + p, 0), after=after)) for o in range(1, 6)] + [(0, one(1, (o, 0, 128 + p), after=after)) for o in (3, 4, 5)]
        out.append((0, one(1, c=closer(1, 0, 1, 0, 0, 128 + p), after=after)))
    out += [(0, one(1, (1, 0, 128), (2, 0, 135))), (0, one(64, (1, 135, 5), after=ports(p7=63)))]
    # 18: by the graph, for each thread
    out += [(18, one(1, (1, 128, 1))), (18, one(1, (3, 0, 135))), (18, one(1, c=closer(2, 0, 0, 0, 0, 131))), (18, one(0, (1, 128, 1)))]
    out += [(18, way(to_1, thread(0), thread(2))), (18, way(to_1, thread(0), ports(p1=0), thread(2))), (18, way(to_1, thread(0), thread(2), at_0)), (18, way(to_1, thread(2), thread(0)))]
    out += [(0, way(to_1, thread(0), at_0, thread(2))), (0, way(to_1, thread(2))), (0, way(to_1, thread(2), ports(p5=0))), (18, way(to_1, thread(1)))]
    out += [(18, way(closer(1, 0, 1, 2, 1, 0, 2**32 - 1), thread(0))), (18, way(closer(1, 0, 1, 1, 2, 0, 0), thread(0))), (18, way(closer(1, 0, 1, 0, 1, 0, 2**32 - 1), thread(0)))]
    out += [(18, way(far, thread(0), other=segment(ENDING) + segment(closer(1, 0, 10**9, 1, 1)))), (18, way(closer(1, 0, 1, 2, 2), thread(0), other=segment(to_1)))]
    out += [(8, way(to_1, thread(0), other=segment(closer(1, 0, 1, 9, 9)))), (8, way(to_1, thread(0), thread(3))), (9, way(to_1, thread(0), end=END + b"\0")), (17, way(to_1, thread(0), thread(3), all_255))]
    return out

def near(b, r):
    """One byte of b set to a value near an edge."""
    i = r.randrange(len(b)); x = b[i]
    y = r.choice([0, 1, 2, 3, 4, 5, 6, 7, 10, 31, 32, 33, 63, 64, 65, 254, 255, (x + 1) % 256, (x - 1) % 256, r.randrange(256)])
    return b[:i] + bytes([y]) + b[i + 1:]

def stored():
    r = random.Random(1)
    assert len(CASE1) == 36 and len(M) == 116 and len(largest()) == 13550
    out = [f for _, f in TABLE] + [CASE1[:i] for i in range(36)] + [CASE1, M, largest(), largest(65), largest(64, 33), largest() + b"\0"]
    out += [largest() + bytes(65535 - 13550)]
    small = [M, CASE1, head(5, 2, 2) + segment(closer(1, 0, 10**9, 1, 0, 1, 7), *[(o, 1, 1 if o < 6 else 0) for o in range(1, 7)])
             + segment(closer(2, 1, 0, 0, 1, 0, 0)) + thread(0) + thread(1) + END]
    for b in small:
        for _ in range(250): out.append(near(b, r))
        for _ in range(60): out.append(near(near(b, r), r))
        for _ in range(20): out.append(b[:r.randrange(len(b))])
        rs = [x for _, x in records(b)[0]]
        for i in range(len(rs)):
            out.append(b"".join(rs[:i] + rs[i + 1:]))
            out.append(b"".join(rs[:i] + [rs[i]] + rs[i:]))
            if i: out.append(b"".join(rs[:i - 1] + [rs[i], rs[i - 1]] + rs[i + 1:]))
    return out + stored_ports()

def stored_ports():
    r = random.Random(2)
    out = [f for _, f in port_edges()]
    for b in [LOOPS, EVERY]:
        for _ in range(150): out.append(near(b, r))
        for _ in range(100):
            i = r.randrange(10, len(b))
            out.append(b[:i] + bytes([r.choice([0, 1, 2, 3, 5, 127, 128, 129, 134, 135, 136, 254, 255])]) + b[i + 1:])
        rs = [x for _, x in records(b)[0]]
        for i in range(len(rs)):
            out.append(b"".join(rs[:i] + rs[i + 1:]))
            out.append(b"".join(rs[:i] + [rs[i]] + rs[i:]))
            if i: out.append(b"".join(rs[:i - 1] + [rs[i], rs[i - 1]] + rs[i + 1:]))
    return out
