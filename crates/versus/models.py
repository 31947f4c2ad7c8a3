#!/usr/bin/env python3
"""Makes the input of this crate's program: model M, cases 2 and 3, and worked examples of the source documents.

    python3 models.py       writes stdin, beside this script

Each is a name and a model file; before each of these stand two bytes that say its length. What a run leaves was worked out by hand,
and stands in the file stdout.
"""
import os
import struct

SET, ADD, COPY, ADD_VARIABLE, NOTIFY = 1, 2, 3, 4, 6


def always(a): return (a, a, 255, 0)
def below(test, limit, a, b): return (a, b, test, limit)
def end(*statements): return (0, 0, 0, (0, 0, 0, 0), statements)
def wait(units, then, *statements): return (1, 0, units, then, statements)
def wait_for(event, then, *statements): return (2, event, 0, then, statements)


def model(horizon, v, e, segments, threads):
    out = struct.pack("<HHIBB", 10, 1, horizon, v, e)
    for kind, event, units, (a, b, test, limit), statements in segments:
        out += struct.pack("<HHBBIBBBI", 17 + 6 * len(statements), 2, kind, event, units, a, b, test, limit)
        for s in statements:
            out += struct.pack("<BBI", *s)
    for first in threads:
        out += struct.pack("<HHB", 5, 3, first)
    return out + struct.pack("<HH", 4, 4)


def model_m(horizon):
    """Document 01, "Cases"."""
    return model(horizon, 3, 1, [
        wait(10, below(0, 126, 0, 1), (ADD, 0, 1), (NOTIFY, 0, 0)),
        end(),
        wait_for(0, always(3)),
        wait_for(0, always(3), (COPY, 1, 0), (ADD, 2, 1))], [0, 2])


def dvd_player():
    """Document 000, Fig. 1: video every 33.3 ms and audio every 26.12 ms, in units of 10 microseconds, for 100 ms.
    Video runs at 0, 3330, 6660, 9990, then 13320; audio at 0, 2612, 5224, 7836, then 10448: four frames each, n is 8."""
    return model(10000, 2, 0, [wait(3330, always(0), (ADD, 0, 1)), wait(2612, always(1), (ADD, 1, 1))], [0, 1])


def two_behaviours():
    """Document 000, Fig. 4: behaviours B1 and B2; variables x, y, tmp and i. A branch between two waits takes a zero wait first.
    Of B2 the text gives the table of segments: a loop over waitfor 2 that writes y and notifies e, then waitfor 4 and a write of x.
    Three turns of it. (0, 0): both start. (1, 0): B1 waits for e. (2, 0): B2 notifies, y = 0. (2, 1): B1 sets x = 1. (2, 2): B1 waits 1.
    (3, 0): B1 waits for e. (4, 0): B2 notifies, y = 1. (4, 1): x = 2, and B1 leaves its loop. (4, 2): B1 waits 3. (6, 0): y = 2,
    nobody waits. (6, 1): B2 waits 4. (7, 0): B1 sets x = 27 and ends. (10, 0): B2 sets x = 42 and ends. n is 16."""
    return model(100, 4, 1, [
        wait(1, always(1), (ADD, 2, 1)),
        wait_for(0, always(2)),
        wait(0, below(2, 3, 3, 4), (COPY, 0, 2), (ADD, 2, 1)),
        wait(1, always(1)),
        wait(3, always(5)),
        end((SET, 0, 27)),
        wait(2, always(7)),
        wait(0, below(3, 3, 6, 8), (COPY, 1, 3), (NOTIFY, 0, 0), (ADD, 3, 1)),
        wait(4, always(9)),
        end((SET, 0, 42))], [0, 6])


def two_writes():
    """Document 000, Fig. 5: one thread sets a variable to 0 at (5, 0), the other to 1 at (10, 0). It ends as 1; n is 4."""
    return model(100, 1, 0, [wait(5, always(1)), end((SET, 0, 0)), wait(10, always(3)), end((SET, 0, 1))], [0, 2])


def manager_and_workers():
    """Document 001, Fig. 1: a manager and three workers. Every 10 units the manager writes to each worker's input and notifies e;
    the workers wait for e and read. With H = 31 it sends 1, 2 and 3 at 10, 20 and 30; each worker runs one delta later, and adds up
    to 6. The manager is then due at (40, 0), the workers wait since (30, 1); n is 4 and three times 4, 16."""
    segments = [wait(10, always(1)),
                wait(10, always(1), (ADD, 0, 1), (COPY, 1, 0), (COPY, 2, 0), (COPY, 3, 0), (NOTIFY, 0, 0))]
    for w in range(3):
        segments += [wait_for(0, always(3 + 2 * w)), wait_for(0, always(3 + 2 * w), (ADD_VARIABLE, 4 + w, 1 + w))]
    return model(31, 7, 1, segments, [0, 2, 4, 6])


def atomic(writer, reader):
    """Document 002, Fig. 1: one process writes 1 and then 2 to a, the other reads a. A segment runs whole, so that 1 is never read:
    b is 2 where the writer has the lower number, and 0 where the reader has it."""
    return model(1, 2, 0, [end((SET, 0, 1), (SET, 0, 2)), end((COPY, 1, 0))], [writer, reader])


MODELS = [
    ("Model M", model_m(1261)),
    ("Case 2", model_m(1251)),
    ("Case 3", model_m(1250)),
    ("Document 000, Fig. 1", dvd_player()),
    ("Document 000, Fig. 4", two_behaviours()),
    ("Document 000, Fig. 5", two_writes()),
    ("Document 001, Fig. 1", manager_and_workers()),
    ("Document 002, Fig. 1, writer first", atomic(0, 1)),
    ("Document 002, Fig. 1, reader first", atomic(1, 0)),
]

if __name__ == "__main__":
    with open(os.path.join(os.path.dirname(os.path.abspath(__file__)), "stdin"), "wb") as out:
        for name, file in MODELS:
            for part in (name + "\n").encode(), file:
                out.write(struct.pack("<H", len(part)) + part)
