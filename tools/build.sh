#!/bin/sh
# Builds the command line tool: target/tool/release/teaselauger.
set -e
cd "$(dirname "$0")/.."
bindings/library.sh
cargo build --quiet --release --offline --manifest-path tools/teaselauger/Cargo.toml --target-dir target/tool
