#!/usr/bin/env python3
"""Makes what this crate's program reads, and what it must write.

    python3 make.py         writes data/files, data/runs and stdout, beside this script

`files.py` has the model files and a second reader, `orders.py` the runs and a second make of requests. Before each part stand two
bytes that say its length, and before a list of arguments two that say how many they are.
"""
import os, struct, sys

sys.dont_write_bytecode = True
import files, orders

here = os.path.dirname(os.path.abspath(__file__))
def count(n): return struct.pack("<H", n)
def part(b): return count(len(b)) + b

for n, f in files.TABLE: assert files.judge(f) == (n,), n
for n, f in files.port_edges(): assert files.judge(f)[0] == n, (n, files.judge(f), f)
stored, runs = files.stored(), orders.runs()
with open(here + "/data/files", "wb") as o:
    for f in stored: o.write(part(f))
with open(here + "/data/runs", "wb") as o:
    for name, f, args in runs:
        o.write(part((name + "\n").encode()) + part(f) + count(len(args)) + b"".join(part(a.encode()) for a in args))
with open(here + "/stdout", "w") as o:
    for f in stored: o.write(" ".join(str(x) for x in files.judge(f)) + "\n")
    for name, f, args in runs: o.write("\n".join([name] + orders.lines(f, args)) + "\n")
