#!/bin/sh
# Makes target/staticlib/libexports.a, the library for C and Rust, unless it is newer than every source.
set -e
cd "$(dirname "$0")/.."
library=target/staticlib/libexports.a
newer() { find crates.txt crates -name out -prune -o \( -name '*.rt' -o -name '*.antt' -o -name crates.txt \) -newer "$1" -print | head -n 1; }
if [ -e $library ] && [ -z "$(newer $library)" ]; then
    exit 0
fi
mkdir -p target/staticlib
built=crates/exports/out/libexports.a
if [ ! -e $built ] || [ -n "$(newer $built)" ]; then
    if ! (cd crates/exports && rt lib) >target/staticlib.log 2>&1; then
        tail -n 5 target/staticlib.log >&2
        echo "bindings/library.sh: 'rt lib' in crates/exports failed; target/staticlib.log has all that it said" >&2
        exit 1
    fi
fi
cp $built $library
