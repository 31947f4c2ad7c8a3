#!/usr/bin/env python3
"""Models as numbers and their files: teaselauger_model and teaselauger_write against an encoding of their own, and the program rewrite.

  writer.py [FILES] [SEED]     needs target/bin/rewrite and target/staticlib/libexports.a

Of each accepted file, the stored ones of crates/test_files and generated ones: its numbers are those that the file is decoded to here;
written, they are the file byte by byte; rewrite prints it. Every buffer is tried exact, longer, one element short and empty. Then one
number of the model is spoilt: where it fits its field of the file, the file is encoded here and the writer must give the reader's number
of that file, or its bytes. The edges that no file can hold are listed by hand.
"""
import collections, os, random, struct, subprocess, sys
from array import array

HERE = os.path.dirname(os.path.abspath(__file__))
sys.path.insert(0, os.path.join(HERE, "../boundary"))
import boundary

ROOT = boundary.ROOT
SEGMENT, START, LARGEST = 104, 9, 13934
UNUSED = [255] * 8
boundary.PARAMETERS.update(model=["file", "numbers"], write=["numbers", "out", "length"])
boundary.ONLY_READ["write"] = ["numbers"]
boundary.ELEMENTS["numbers"] = "I"
filled = boundary.filled


def stored():
    """The files that crates/test_files reads: two bytes of length before each."""
    with open(os.path.join(ROOT, "crates/test_files/data/files"), "rb") as f:
        held = f.read()
    while held:
        n = struct.unpack("<H", held[:2])[0]
        yield held[2:2 + n]
        held = held[2 + n:]


def decoded(file):
    """The numbers of an accepted file."""
    head, segments, threads, at = struct.unpack("<IBB", file[4:10]), [], [], 10
    while file[at + 2] != 4:
        size = struct.unpack("<H", file[at:at + 2])[0]
        r = file[at:at + size]
        if r[2] == 2:
            kind, event, delay, a, b, test, limit = struct.unpack("<BBIBBBI", r[4:17])
            body = [x for i in range(17, size, 6) for x in struct.unpack("<BBI", r[i:i + 6])]
            segments += [kind, event, delay, a, b, test, limit, len(body) // 3] + body + [0] * (96 - len(body))
        elif r[2] == 3:
            threads += [r[4], *UNUSED]
        else:
            threads[-8:] = r[4:]
        at += size
    return [*head, len(segments) // SEGMENT, len(threads) // START, *segments, *threads]


def encoded(xs):
    """The file that holds the numbers, or None where one does not fit its field."""
    n, t = xs[3], xs[4]
    try:
        out = struct.pack("<HHIBB", 10, 1, *xs[:3])
        for i in range(n):
            g = xs[5 + SEGMENT * i:5 + SEGMENT * (i + 1)]
            if g[7] > 32: return None
            out += struct.pack("<HHBBIBBBI", 17 + 6 * g[7], 2, *g[:7])
            for j in range(g[7]): out += struct.pack("<BBI", *g[8 + 3 * j:11 + 3 * j])
        for k in range(t):
            first, *ports = xs[5 + SEGMENT * n + START * k:][:START]
            out += struct.pack("<HHB", 5, 3, first)
            if ports != UNUSED: out += struct.pack("<HH8B", 12, 5, *ports)
    except struct.error:
        return None
    return out + struct.pack("<HH", 4, 4)


def spoilt(r, xs):
    """The numbers with one changed, a count never to more than there is."""
    xs, n = list(xs), xs[3]
    places = [0, 1, 2] + [3, 4] * (r.randrange(8) == 0)
    for i in range(xs[3]):
        p = 5 + SEGMENT * i
        places += range(p, p + 7)
        places += range(p + 8, p + 8 + 3 * xs[p + 7])
    places += range(5 + SEGMENT * xs[3], len(xs))
    at = r.choice(places)
    if at in (3, 4):
        xs[at] = 0
        return xs[:5] + (xs[5 + SEGMENT * n:] if at == 3 else xs[5:5 + SEGMENT * n])
    xs[at] = r.choice([0, 1, 2, 3, 5, 6, 7, 31, 32, 63, 64, 65, 127, 128, 135, 136, 254, 255, 256, 257, 384, 511, 10**9, 10**9 + 1, 2**32 - 1, xs[at] ^ 1])
    return xs


class Writer:
    def __init__(self, lib):
        self.lib, self.numbers = lib, collections.Counter()

    def write(self, xs, room):
        """The number, and the bytes where it is 0; a refused call writes nothing."""
        c = boundary.Calls(self.lib, b"")
        given = {"numbers": array("I", xs), "out": filled("out", 7, room), "length": filled("length", 9, 1)}
        number, after = c.call("write", given)
        self.numbers[number] += 1
        if number:
            assert after["out"] == given["out"] and after["length"] == given["length"], "write: refused, and a buffer is written to"
            return number, b""
        n = after["length"][0]
        assert after["out"][n:] == given["out"][n:], "write: bytes past the length"
        return 0, bytes(after["out"][:n])

    def check_file(self, file):
        """An accepted file as numbers, and back, in buffers of every length that matters."""
        c, xs = boundary.Calls(self.lib, file), array("I", decoded(file))
        for more in (0, 3):
            after = c.made("model", {"numbers": filled("numbers", 9, len(xs) + more)}, "exact numbers")
            assert after["numbers"] == xs + filled("numbers", 9, more), "model"
        for size in {len(xs) - 1, 0}:
            c.refused("model", 16, {"numbers": filled("numbers", 9, size)}, "%d numbers" % size)
        for room in (len(file), len(file) + 3):
            assert self.write(xs, room) == (0, file), "write, %d bytes" % room
        for room in {len(file) - 1, 0}:
            assert self.write(xs, room)[0] == 16, "write, %d bytes" % room
        for size in {len(xs) - 1, 4, 0}:
            assert self.write(xs[:size], len(file))[0] == 11, "write, %d numbers" % size
        c.refused("write", 11, {"numbers": xs, "out": filled("out", 7, 9), "length": filled("length", 9, 0)}, "no place for the length")
        again = subprocess.run([os.path.join(ROOT, "target/bin/rewrite")], input=file, capture_output=True, check=True).stdout
        assert again == file, "rewrite"
        return xs

    def check_spoilt(self, xs):
        """One number changed: what the reader says of the file that holds the numbers. Whether there is such a file."""
        file, (number, written) = encoded(xs), self.write(xs, LARGEST)
        if file is None:
            assert number != 0, "write: numbers that no file holds"
            return False
        read = boundary.Calls(self.lib, file).call("read", {})[0]
        assert number == read, "write: %d, and the reader %d" % (number, read)
        assert read or written == file, "write: another file"
        return True

    def check_edges(self):
        """By hand, from document 02 and the order of document 01."""
        end, wait = [0] * 8 + [0] * 96, [1, 0, 5, 0, 0, 255, 0, 0] + [0] * 96
        def segment(closer, n, *statements): return list(closer) + [n] + [x for s in statements for x in s] + [0] * (96 - 3 * len(statements))
        def start(first=0, *ports): return [first, *ports, *UNUSED[len(ports):]]
        two = segment([0] * 7, 2, (1, 1, 1), (5, 0, 1))
        named, ways = segment([0] * 7, 1, (1, 128, 1)), segment([1, 0, 1, 0, 1, 0, 0], 0)
        loops = [10, 2, 0, 2, 2] + segment([1, 0, 3, 0, 1, 128, 2], 1, (2, 128, 1)) + end + start(0, 0) + start(0, 1)
        edges = [
            (2, [10, 0, 0, 0, 1] + start()), (2, [10, 0, 0, 1, 0] + end), (4, [0, 0, 0, 0, 1] + start()),
            (3, [10, 0, 0, 1, 1] + segment([3] + [0] * 6, 33) + start()), (5, [10, 0, 0, 1, 1] + segment([3] + [0] * 6, 32) + start()),
            (5, [10, 0, 0, 65, 1] + end * 2 + segment([3] + [0] * 6, 0) + end * 62 + start()), (4, [10, 0, 0, 65, 1] + end * 65 + start()),
            (3, [10, 0, 0, 65, 1] + end * 64 + segment([0] * 7, 33) + start()), (4, [10, 0, 0, 1, 33] + end + start() * 33),
            (5, [10, 0, 0, 1, 1] + segment([257] + [0] * 6, 0) + start()), (7, [10, 0, 1, 1, 1] + segment([2, 256, 0, 0, 0, 255, 0], 0) + start()),
            (7, [10, 1, 0, 1, 1] + segment([1, 0, 1, 0, 0, 511, 0], 0) + start()), (6, [10, 1, 0, 1, 1] + segment([0] * 7, 1, (257, 0, 0)) + start()),
            (7, [10, 1, 0, 1, 1] + segment([0] * 7, 1, (1, 256, 0)) + start()), (8, [10, 0, 0, 1, 1] + end + start(256)),
            (8, [10, 0, 0, 1, 1] + segment([1, 0, 1, 256, 256, 255, 0], 0) + start()), (4, [10, 256, 0, 1, 1] + end + start()), (0, [10, 2, 0, 1, 1] + two + start()),
            (0, [10, 0, 0, 1, 1] + wait + start())]
        # 17: neither 255 nor below V, in file order; all eight unused is no fault
        edges += [(17, [10, 1, 0, 1, 1] + end + start(0, *UNUSED[:p], x)) for p in range(8) for x in (1, 128, 254, 256, 511, 2**32 - 1)]
        edges += [
            (17, [10, 0, 0, 1, 1] + end + start(0, 0)), (0, [10, 1, 0, 1, 1] + end + start(0, *UNUSED[:7], 0)), (0, [10, 1, 0, 1, 1] + end + start()),
            (17, [10, 1, 0, 1, 1] + end + start(9, 1)), (17, [10, 1, 0, 1, 2] + end + start(9) + start(0, 1)), (2, [10, 1, 0, 0, 1] + start(0, 1)),
            (17, [10, 1, 0, 1, 33] + end + start(0, 1) + start() * 32), (4, [10, 1, 0, 1, 33] + end + start() * 32 + start(0, 1)), (17, [10, 1, 0, 1, 1] + named + start(0, 1))]
        # 7: a number that is no port; 18 after 8, by the graph
        edges += [(7, [10, 1, 0, 1, 1] + segment([0] * 7, 1, s) + start(0, 0)) for x in (127, 136, 384, 391) for s in ((1, x, 0), (3, 0, x))]
        edges += [(7, [10, 1, 0, 1, 1] + segment([1, 0, 1, 0, 0, x, 0], 0) + start(0, 0)) for x in (127, 136, 384)] + [(7, [10, 1, 1, 1, 1] + segment([0] * 7, 1, (6, 128, 0)) + start(0, 0))]
        edges += [
            (18, [10, 1, 0, 1, 1] + named + start()), (18, [10, 1, 0, 1, 1] + named + start(0, 255, 0)), (0, [10, 1, 0, 1, 1] + named + start(0, 0)), (18, [10, 0, 0, 1, 1] + named + start()),
            (18, [10, 1, 0, 2, 1] + ways + named + start()), (0, [10, 1, 0, 2, 1] + end + named + start()), (8, [10, 1, 0, 1, 2] + named + start() + start(1)),
            (18, [10, 1, 0, 2, 2] + ways + named + start(0, 0) + start(1)), (0, loops)]
        for number, xs in edges:
            for room in (LARGEST, 0):
                expected = number or (0 if room else 16)
                assert self.write(xs, room)[0] == expected, "edge of %d, %d bytes: %d" % (number, room, self.write(xs, room)[0])
        for size, xs in [(48, [10, 2, 0, 1, 1] + two + start()), (88, loops), (36, [10, 1, 0, 1, 1] + end + start()), (48, [10, 1, 0, 1, 1] + end + start(0, 0))]:
            assert len(self.write(xs, size)[1]) == size and self.write(xs, size - 1)[0] == 16, "a file of %d bytes" % size


def main(count, seed):
    lib = boundary.library()
    w = Writer(lib)
    w.check_edges()
    accepted = [f for f in stored() if boundary.Calls(lib, f).call("read", {})[0] == 0]
    files = accepted + [boundary.generator.file_of(boundary.generator.model_of(seed + i)) for i in range(count)]
    held = 0
    for i, file in enumerate(files):
        r = random.Random("%d %d" % (seed, i))
        try:
            xs = w.check_file(file)
            held += sum(w.check_spoilt(spoilt(r, xs)) for _ in range(8))
        except AssertionError as e:
            print("file %d: %s" % (i, e))
            return 1
    for f in stored():
        number = boundary.Calls(lib, f).call("read", {})[0]
        if number:
            said = subprocess.run([os.path.join(ROOT, "target/bin/rewrite")], input=f, capture_output=True, check=True).stdout
            assert said == b"refused %d\n" % number, "rewrite of a refused file"
    numbers = ", ".join("%d: %d" % x for x in sorted(w.numbers.items()))
    print("%d stored and %d generated files written again; %d of %d spoilt models in a file of their own; writes by number: %s" % (
        len(accepted), count, held, 8 * len(files), numbers))
    return 0


if __name__ == "__main__":
    sys.exit(main(int(sys.argv[1]) if sys.argv[1:] else 100, int(sys.argv[2]) if sys.argv[2:] else 24000))
