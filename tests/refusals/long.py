#!/usr/bin/env python3
"""Files longer than 65,536 bytes: the programs read that many and judge these. The numbers below are worked out by hand from docs/RULES.md.

    tools/programs.sh plainrun replayrun && python3 tests/refusals/long.py

No legal file is longer than 13,934 bytes, so a file reaches the cut only after its end record (9), or by one long record. Such a record has
a length that is not its kind's (3) if it ends at byte 65,536 or before, and goes past the end of what is read (1) if it ends later.
"""
import pathlib
import struct
import subprocess
import sys

ROOT = pathlib.Path(__file__).resolve().parents[2]
READ = 65536
SMALL = (ROOT / "models/case01.model").read_bytes()
HEAD, SEGMENT, THREAD, END = SMALL[:10], SMALL[10:27], SMALL[27:32], SMALL[32:]


def record(kind, length):
    return struct.pack("<HH", length, kind) + bytes(length - 4)


def filled(file, size, byte=b"\0"):
    return file + byte * (size - len(file))


FILES = [
    ("bytes up to the cut after the end record", 9, filled(SMALL, READ)),
    ("one byte past the cut", 9, filled(SMALL, READ + 1)),
    ("many bytes past the cut", 9, filled(SMALL, 300000, b"\xff")),
    ("a second file past the cut", 9, filled(SMALL, READ) + SMALL),
    ("a segment that ends at the cut", 3, HEAD + record(2, READ - 10)),
    ("the same, with a thread and an end past the cut", 3, HEAD + record(2, READ - 10) + THREAD + END),
    ("a segment whose last byte is past the cut", 1, HEAD + record(2, READ - 9) + THREAD + END),
    ("a segment of the greatest length", 1, HEAD + record(2, 65535) + THREAD + END),
    ("an end in the wrong place that ends at the cut", 2, HEAD + record(4, READ - 10) + THREAD),
    ("an end in the wrong place whose last byte is past the cut", 1, HEAD + record(4, READ - 9) + THREAD),
    ("a thread that ends at the cut", 3, HEAD + SEGMENT + record(3, READ - 27) + END),
    ("a thread whose last byte is past the cut", 1, HEAD + SEGMENT + record(3, READ - 26) + END),
    ("ports that end at the cut", 3, HEAD + SEGMENT + THREAD + record(5, READ - 32) + END),
    ("ports whose last byte is past the cut", 1, HEAD + SEGMENT + THREAD + record(5, READ - 31) + END),
    ("segments past the cut", 4, HEAD + SEGMENT * 5000 + THREAD + END),
    ("threads past the cut", 4, HEAD + SEGMENT + THREAD * 15000 + END),
]


def at_once(program, file):
    return subprocess.run([program], input=file, capture_output=True, check=True).stdout


def in_pieces(program, file, size):
    """The file through a pipe, so many bytes at a time. The program may end before it has read all."""
    running = subprocess.Popen([program], stdin=subprocess.PIPE, stdout=subprocess.PIPE)
    try:
        for at in range(0, len(file), size):
            running.stdin.write(file[at:at + size])
            running.stdin.flush()
        running.stdin.close()
    except BrokenPipeError:
        pass
    out = running.stdout.read()
    running.wait()
    return out


def main():
    sheet = b"t 0 0 ended 0 0\nn 1\n"
    wrong = [] if in_pieces(ROOT / "target/bin/plainrun", SMALL, 1) == sheet else ["case01.model byte by byte"]
    for name, number, file in FILES:
        for program in ["plainrun", "replayrun"]:
            path = ROOT / "target/bin" / program
            for out in [at_once(path, file), in_pieces(path, file, 1000)]:
                if out != b"refused %d\n" % number:
                    wrong.append(f"{program}, {name}: expected refused {number}, printed {out!r}")
    print("\n".join(wrong) if wrong else f"{len(FILES)} long files, each with its number")
    return bool(wrong)


sys.exit(main())
