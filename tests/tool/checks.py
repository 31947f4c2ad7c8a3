#!/usr/bin/env python3
"""check, show and build, on stored, shipped and generated files.

Of each refused file the number is the stored one, and the place that the tool names is held against the second reader of
crates/test_files: the records before it must be without fault, and the record, up to the statement, must have that number.
Of each accepted file: build(show(file)) is the file, byte by byte, and its text shown again is the same text.
"""
import collections
import random
import re
import struct
import subprocess
import sys

from tool import MODELS, ROOT, TOOL, generated, printed, ran, stored, stored_runs, vectors
import files as second

PLACE = re.compile(r"record (\d+) \(([a-z 0-9]+)\), byte (\d+)(?:, statement (\d+))?: .+")
IN_RECORD = {2, 3, 4, 5, 6, 7, 17}
CUT = 65536


def starts(file):
    """Where each record begins, and where the bytes go on after the last."""
    out, at = [], 0
    records, _ = second.records(file)
    for _, record in records:
        out.append(at)
        at += len(record)
    return out + [at], records


def number(file):
    return second.judge(file)[0]


def first_unknown(begins, records):
    """The first byte that names a segment that is not there: in the segments, then in the threads."""
    count = sum(kind == 2 for kind, _ in records)
    named = [(begins[i] + at, body[at]) for i, (kind, body) in enumerate(records) if kind == 2 and body[4] for at in (10, 11)]
    named += [(begins[i] + 4, body[4]) for i, (kind, body) in enumerate(records) if kind == 3]
    return next(at for at, x in named if x >= count)


def check_place(file, n, text):
    """The place that was printed, by the second reader's judgement of the file's beginning."""
    match = PLACE.fullmatch(text)
    assert match, f"{n}: {text}"
    record, kind, byte = int(match[1]), match[2], int(match[3])
    begins, records = starts(file)
    assert byte >= begins[record], text
    if n in IN_RECORD:
        start, body = begins[record], records[record][1]
        assert byte < start + len(body) and number(file[:start]) == 1 and number(file[:start] + body) == n, text
        if match[4]:
            check_statement(file[:start], body, int(match[4]), byte - start, n)
        elif kind.startswith("segment") and n in (5, 7):
            assert number(file[:start] + struct.pack("<H", 17) + body[2:17]) == n and 4 <= byte - start < 17, text
    elif n in (1, 9):
        assert record == len(records) and byte == begins[-1] and (n == 1) == (not records or records[-1][0] != 4), text
    elif n == 8:
        assert byte == first_unknown(begins, records), text
    else:
        thread = [i for i, (kind, _) in enumerate(records) if kind == 3].index(record)
        before = b"".join(body for _, body in records[:record]) + second.END
        assert n == 18 and kind == f"thread {thread}" and number(before) == (0 if thread else 2), text


def check_statement(before, body, j, byte, n):
    def upto(count):
        return number(before + struct.pack("<H", 17 + 6 * count) + body[2:17 + 6 * count])

    assert upto(j) == 1 and upto(j + 1) == n and (byte - 17) // 6 == j, (n, j, byte)


def check_refused(file, n):
    lines = printed("check", "-", given=file, status=1).splitlines()
    assert lines[0] == f"refused {n}" and lines[1].endswith("."), (n, lines)
    check_place(file[:CUT], n, lines[2])
    assert len(lines) == (4 if len(file) > CUT else 3), lines


def check_accepted(file):
    held = second.judge(file)
    assert printed("check", "-", given=file) == "accepted: H %d, V %d, E %d, N %d, T %d\n" % held[1:6]
    text = printed("show", "-", given=file)
    code, built, said = ran("build", "-", given=text.encode())
    assert code == 0 and built == file, f"build(show(file)) is another file: {said.decode()}{text}"
    return text


def long_files():
    import ast
    import importlib.util
    source = (ROOT / "tests/refusals/long.py").read_text().rsplit("\n\n", 1)[0]
    held = {"__file__": str(ROOT / "tests/refusals/long.py"), "__name__": "long"}
    exec(compile(ast.parse(source), "long.py", "exec"), held)
    return [(n, file) for _, n, file in held["FILES"]]


def commands():
    """The files of docs/REFUSALS.md, made by its commands, through check in place of plainrun: the number, and a place."""
    count = 0
    for line in (ROOT / "docs/REFUSALS.md").read_text().splitlines():
        match = re.match(r"^\| (\d+) \|.*?\| `(.+?target/bin/plainrun.*?|target/bin/plainrun.+?)` → ", line.replace(r"\|", "\0"))
        if match:
            command = match[2].replace("\0", "|").replace("target/bin/plainrun", f"{TOOL} check -")
            lines = subprocess.run(["bash", "-c", command], capture_output=True, text=True).stdout.splitlines()
            assert lines[0] == f"refused {match[1]}" and PLACE.fullmatch(lines[2]), (command, lines)
            count += 1
    assert count == 11, count
    return count


def texts():
    """The text beside each shipped model builds the model; a model that is refused has none."""
    count = 0
    for path in MODELS:
        text = path.with_suffix(".txt")
        if number(path.read_bytes()):
            assert not text.exists(), text
            continue
        code, built, said = ran("build", text)
        assert code == 0 and built == path.read_bytes(), f"{text}: {said.decode() or 'another file'}"
        count += 1
    return count


def spoilt_texts(count):
    """Texts with a piece taken out, doubled or changed are built or refused with a line and column, whatever they are."""
    r, said = random.Random(5), collections.Counter()
    texts = [path.read_text() for path in sorted((ROOT / "models").glob("*.txt")) + [ROOT / "docs/pictures/school.txt"]]
    for _ in range(count):
        text = r.choice(texts)
        a = r.randrange(len(text))
        b = min(len(text), a + r.randrange(12))
        put = r.choice(["", text[a:b] * 2, r.choice([" ", "\n", "0", "=", "\u00e4", "\t", ",", "end", "4294967296", "p0"])])
        code, out, err = ran("build", "-", given=(text[:a] + put + text[b:]).encode())
        assert code == 0 or (code == 1 and out == b"" and re.match(rb"teaselauger: -: line \d+, column \d+: .+", err)), (text[:a] + put + text[b:], err)
        said[code] += 1
    assert min(said.values()) > count // 10, said
    return count


def main(count):
    refused, accepted = collections.Counter(), 0
    shipped = [(number(path.read_bytes()), path.read_bytes()) for path in MODELS]
    held = [(number(case.given[:CUT]), case.given) for case in vectors()] + [(number(file), file) for file, _ in stored_runs()]
    made = [(0, file) for file in generated(count)]
    for n, file in dict.fromkeys([*stored(), *shipped, *held, *long_files(), *made]):
        if n:
            check_refused(file, n)
            refused[n] += 1
        else:
            check_accepted(file)
            accepted += 1
    assert set(refused) == {*range(1, 10), 17, 18}, refused
    print(f"{sum(refused.values())} refused files and {commands()} of docs/REFUSALS.md, the place found in each; {accepted} accepted files shown and built again; "
          f"{texts()} texts of shipped models, {spoilt_texts(300)} spoilt ones")


if __name__ == "__main__":
    main(int(sys.argv[1]) if sys.argv[1:] else 200)
