#!/bin/sh
# Lays the programs named in target/bin. Each is proved and built first, unless what is there is newer than every source.
set -e
cd "$(dirname "$0")/.."
mkdir -p target/bin
for name in "$@"; do
    built=crates/$name/out/$name
    if [ ! -e "$built" ] || [ -n "$(find crates.txt crates -name out -prune -o \( -name '*.rt' -o -name '*.antt' -o -name crates.txt \) -newer "$built" -print | head -n 1)" ]; then
        if ! (cd "crates/$name" && rt run </dev/null >/dev/null) 2>"target/$name.log"; then
            tail -n 5 "target/$name.log" >&2
            echo "tools/programs.sh: 'rt run' in crates/$name failed; target/$name.log has all that it said" >&2
            exit 1
        fi
    fi
    cp "$built" "target/bin/$name"
done
