#!/usr/bin/env python3
"""Runs every command of docs/TUTORIAL.md as it stands, in one shell, and compares what it prints with what is shown below it. The pictures
of docs/pictures must be those that the tool draws.

  tutorial.py [--write]     --write puts what was printed into the page
"""
import re
import shutil
import subprocess
import sys

from tool import ROOT, TOOL

PAGE = ROOT / "docs/TUTORIAL.md"
BLOCK = re.compile(r"^```sh\n(.*?)^```\n(?:\n```text\n(.*?)^```\n)?", re.M | re.S)
MARK = "--- end of the block ---"
PICTURES = [
    ["trace", "models/m.model", "--names", "models/m.txt", "--order", "most-ahead", "--from", "1190", "--svg", "docs/pictures/m.svg"],
    ["build", "docs/pictures/school.txt", "-o", "target/tutorial/school.model"],
    ["trace", "target/tutorial/school.model", "--names", "docs/pictures/school.txt", "--order", "random", "--seed", "3", "--svg", "docs/pictures/school.svg"],
]


def outputs(blocks):
    """What each block prints, errors included."""
    script = "".join(f"{block}echo '{MARK}'\n" for block in blocks)
    done = subprocess.run(["bash"], input=script, stdout=subprocess.PIPE, stderr=subprocess.STDOUT, text=True, cwd=ROOT)
    parts = done.stdout.split(MARK + "\n")
    assert len(parts) == len(blocks) + 1 and not parts[-1], parts[-1]
    return parts[:-1]


def page(write):
    text = PAGE.read_text()
    found = list(BLOCK.finditer(text))
    printed = outputs([match[1] for match in found])
    for match, out in reversed(list(zip(found, printed))):
        if write and match[2] is not None:
            text = text[:match.start(2)] + out + text[match.end(2):]
        elif out != (match[2] or ""):
            sys.exit(f"docs/TUTORIAL.md:\n{match[1]}shows:\n{match[2]}\nprints:\n{out}")
    if write:
        PAGE.write_text(text)
    return len(found)


def pictures(write):
    for arguments in PICTURES:
        to = arguments[-1]
        out = to if write or not to.endswith(".svg") else "target/tutorial/now.svg"
        subprocess.run([TOOL, *arguments[:-1], out], check=True)
        if out != to and (ROOT / out).read_text() != (ROOT / to).read_text():
            sys.exit(f"{to} is not what the tool draws: tests/tool/tutorial.py --write")


def main():
    write = sys.argv[1:] == ["--write"]
    shutil.rmtree(ROOT / "target/tutorial", ignore_errors=True)
    count = page(write)
    pictures(write)
    print(f"{count} blocks of commands print what the tutorial shows; the pictures are those that the tool draws")


main()
