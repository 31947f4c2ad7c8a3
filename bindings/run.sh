#!/bin/sh
# Builds the library and the examples, and runs them on model M, the one for C by rows and with grants and finishes apart too; that of a
# pool of two threads of the machine also on the two loops.
set -e
cd "$(dirname "$0")/.."
bindings/library.sh
mkdir -p target/examples
cc -O2 -Wall -Wextra -I bindings/c -o target/examples/example bindings/c/example.c -L target/staticlib -lexports
target/examples/example models/m.model
target/examples/example models/m.model rows
target/examples/example models/m.model apart
target/examples/example models/m.model rows apart
cargo run --quiet --offline --manifest-path bindings/rust/Cargo.toml --target-dir target/rust --example threads models/m.model
for model in m loops; do
    cargo run --quiet --offline --manifest-path bindings/rust/Cargo.toml --target-dir target/rust --example pool models/$model.model
done
