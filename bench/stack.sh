#!/bin/sh
# The deepest stack, in KB: of each call of the library, and the least with which each program prints what it should.
set -e
cd "$(dirname "$0")/.."
tools/programs.sh plainrun replayrun rewrite
bindings/library.sh
mkdir -p target/bench
cc -O2 -Wall -Wextra -I bindings/c -o target/bench/stack bench/stack.c -L target/staticlib -lexports -lpthread
target/bench/stack models/*.model
least() { # PROGRAM ARGS...
    want=$("$@" <models/m.model)
    low=0 high=4096
    while [ $((high - low)) -gt 1 ]; do
        middle=$(((low + high) / 2))
        if [ "$( (ulimit -s $middle && "$@" <models/m.model) 2>/dev/null)" = "$want" ]; then high=$middle; else low=$middle; fi
    done
    echo "| ${1##*/} | $high |"
}
least target/bin/plainrun
least target/bin/replayrun 0 1 0 1
least target/bin/rewrite
