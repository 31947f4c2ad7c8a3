#!/bin/sh
# The examples for C and Rust, on model M, must print what the file stdout beside this one has, and with too few words lent 16; then the
# Rust crate's own tests.
set -e
cd "$(dirname "$0")/../.."
mkdir -p target/examples
bindings/run.sh >target/examples/stdout
diff tests/examples/stdout target/examples/stdout
for words in "0" "15" "rows 0" "rows 63" "apart 15" "rows apart 63"; do
    # shellcheck disable=SC2086
    [ "$(target/examples/example models/m.model $words)" = "refused 16" ]
done
for words in "16" "rows 64" "apart 16" "rows apart 64"; do
    # shellcheck disable=SC2086
    [ "$(target/examples/example models/m.model $words | tail -n 1)" = "granted 254, variable 0 is 126" ]
done
echo "the examples print what they must"
if ! cargo test --quiet --offline --manifest-path bindings/rust/Cargo.toml --target-dir target/rust >target/examples/tests.log 2>&1; then
    cat target/examples/tests.log
    exit 1
fi
echo "the Rust crate's tests pass"
