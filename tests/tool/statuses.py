#!/usr/bin/env python3
"""Exit statuses: 0; 1 for a refusal; 2 for wrong usage; 3 for input or output that failed. Help, and what is said where something is wrong."""
import subprocess
import tempfile

from tool import ROOT, TOOL, ran

M, REFUSED = "models/m.model", "models/refused7.model"
COMMANDS = ["check", "show", "build", "run", "replay", "trace"]
DONE = [["check", M], ["show", M], ["build", "models/m.txt"], ["run", M], ["replay", M], ["replay", M, "7"], ["replay", M, "--order=random", "--seed=5"],
        ["trace", M], ["trace", M, "--svg", "-"], ["trace", M, "--names", "models/m.txt", "--vcd", "-"], ["check", "--", M], ["run", M, "--budget", "0"]]
REFUSALS = [["check", REFUSED], ["show", REFUSED], ["run", REFUSED], ["replay", REFUSED, "0"], ["replay", REFUSED, "--order", "least"], ["trace", REFUSED],
            ["build", "README.md"], ["build", M], ["check", "README.md"], ["trace", M, "--names", "models/loops.txt"], ["trace", M, "--names", M]]
USAGE = [[], ["chek", M], ["check"], ["check", M, M], ["check", "--all", M], ["run", M, "--budget"], ["run", M, "--budget", "x"], ["run", M, "--budget", "-1"],
         ["run", M, "--budget", "18446744073709551616"], ["replay"], ["replay", M, "x"], ["replay", M, "g"], ["replay", M, "1x"], ["replay", M, "--quiet"],
         ["replay", M, "0", "--order", "least"], ["replay", M, "--order", "lest"], ["replay", M, "--seed", "1"], ["replay", M, "--order", "least", "--seed", "1"],
         ["replay", M, "--order", "least", "--order", "least"], ["replay", M, "12345678901234567890"], ["trace", M, "--from", "1"], ["trace", M, "0"], ["build"],
         ["trace", M, "--vcd"], ["run", M, "--budget=5x"], ["trace", M, "--vcd", "-", "--svg", "-"], ["trace", M, "--text", "--svg", "-"], ["trace", "-", "--names", "-"],
         ["check", M, "--names=x"]]
FAILED = [["check", "no/such.model"], ["check", "models"], ["show", "no/such.model"], ["build", "no/such.txt"], ["run", "no/such"], ["replay", "no/such", "0"],
          ["build", "models/m.txt", "-o", "no/such/place"], ["trace", M, "--svg", "no/such/place"], ["trace", M, "--vcd", "models"], ["trace", M, "--names", "no/such"]]


def into_full(arguments):
    """The exit status where nothing can be written to standard output."""
    with open("/dev/full", "wb") as full:
        return subprocess.run([TOOL, *arguments], stdout=full, stderr=subprocess.PIPE).returncode


def main():
    count = 0
    for status, commands in enumerate([DONE, REFUSALS, USAGE, FAILED]):
        for arguments in commands:
            code, out, err = ran(*arguments)
            assert code == status, f"{arguments}: status {code}, must be {status}: {err}"
            assert (status == 0) <= (err == b""), f"{arguments}: {err}"
            assert status < 2 or (out == b"" and err.startswith(b"teaselauger: ") and err.endswith(b"\n")), f"{arguments}: {out} {err}"
            assert status != 2 or b"--help" in err, err
            count += 1
    for arguments in DONE:
        assert into_full(arguments) == 3, arguments
    for words in [["--help"], ["-h"], *([command, "--help"] for command in COMMANDS), ["check", M, "-h"]]:
        code, out, err = ran(*words)
        assert (code, err) == (0, b"") and out.startswith(b"teaselauger ") and max(map(len, out.decode().splitlines())) <= 132, words
        assert words[0] not in COMMANDS or out.startswith(f"teaselauger {words[0]} ".encode()), words
        count += 1
    assert all(f"    {command} ".encode() in ran("--help")[1] for command in COMMANDS)
    with tempfile.NamedTemporaryFile() as kept:
        kept.write(b"as it was")
        kept.flush()
        assert ran("build", "README.md", "-o", kept.name)[0] == 1 and open(kept.name, "rb").read() == b"as it was"
    assert ran("build", "-", given=b"horizon 1\n# \xff\n")[2].endswith(b"line 2, column 3: this is no text (UTF-8)\n")
    print(f"{count} commands with their exit statuses")


main()
