#!/usr/bin/env bash
# The tests that prove nothing, on the programs and the library that `rt ci` has left; what is not there, or older than a source, is built first.
# Stops at the first that fails, with a line that says which.
set -u
cd "$(dirname "$0")/.."

stop() {
    echo "tests/run.sh: FAILED: $1"
    exit 1
}

step() { # NAME COMMAND...
    local name=$1 began=$SECONDS
    shift
    echo "tests/run.sh: $name"
    "$@" || stop "$name ($*)"
    echo "tests/run.sh: $name: passed ($((SECONDS - began)) s)"
}

for tool in rt cc cargo python3; do
    command -v $tool >/dev/null || stop "$tool is not on the path"
done

step "programs" tools/programs.sh plainrun replayrun rewrite
step "library" bindings/library.sh
step "examples for C and Rust" tests/examples/run.sh
step "commands of docs/REFUSALS.md" python3 tests/refusals/refusals.py
step "files above 65,536 bytes" python3 tests/refusals/long.py
step "library beside the programs" python3 tests/boundary/boundary.py 200
step "models as numbers and their files" python3 tests/writer/writer.py 100
step "vectors" python3 tests/vectors/run.py
step "command line tool" tests/tool/run.sh
