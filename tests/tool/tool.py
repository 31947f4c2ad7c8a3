"""The built tool, and the files that it is tried on."""
import os
import pathlib
import struct
import subprocess
import sys

sys.dont_write_bytecode = True
ROOT = pathlib.Path(__file__).resolve().parents[2]
TOOL = ROOT / "target/tool/release/teaselauger"
BIN = ROOT / "target/bin"
MODELS = sorted((ROOT / "models").glob("*.model"))
sys.path += [str(ROOT / place) for place in ("crates/test_files", "tests/judge", "tests/vectors", "tests/refusals")]
os.chdir(ROOT)


def ran(*arguments, given=b""):
    """Exit status, standard output and standard error."""
    done = subprocess.run([TOOL, *map(str, arguments)], input=given, capture_output=True)
    return done.returncode, done.stdout, done.stderr


def printed(*arguments, given=b"", status=0):
    """What the tool prints, with this exit status."""
    code, out, err = ran(*arguments, given=given)
    assert code == status, f"{' '.join(map(str, arguments))}: status {code}, must be {status}: {out[:200]!r} {err[:300]!r}"
    return out.decode()


def stored():
    """The files of crates/test_files, two bytes of length before each, with their numbers."""
    held = (ROOT / "crates/test_files/data/files").read_bytes()
    lines = (ROOT / "crates/test_files/stdout").read_text().splitlines()
    for line in lines:
        if not held:
            return
        n = struct.unpack("<H", held[:2])[0]
        yield int(line.split()[0]), held[2:2 + n]
        held = held[2 + n:]


def stored_runs():
    """The runs of crates/test_files: the file of each, and its arguments."""
    held = (ROOT / "crates/test_files/data/runs").read_bytes()

    def part():
        nonlocal held
        n = struct.unpack("<H", held[:2])[0]
        out, held = held[2:2 + n], held[2 + n:]
        return out

    while held:
        part()
        file, count = part(), struct.unpack("<H", held[:2])[0]
        held = held[2:]
        yield file, [part().decode() for _ in range(count)]


def generated(count, seed=24000):
    import generator
    return [generator.file_of(generator.model_of(seed + i)) for i in range(count)]


def vectors():
    """The cases of the level in force."""
    import importlib.util
    spec = importlib.util.spec_from_file_location("vectors_run", ROOT / "tests/vectors/run.py")
    module = importlib.util.module_from_spec(spec)
    spec.loader.exec_module(module)
    return list(module.cases(module.level_in_force()))
