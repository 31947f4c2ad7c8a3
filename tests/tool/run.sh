#!/usr/bin/env bash
# The command line tool: builds it, then its own tests, then the tool beside the programs, the stored files and its documents.
# Needs cargo, python3, target/bin/plainrun and target/bin/replayrun. Stops at the first that fails.
set -eu
cd "$(dirname "$0")/../.."
tools/build.sh
log=target/tool/tests.log
if ! cargo test --quiet --offline --manifest-path tools/teaselauger/Cargo.toml --target-dir target/tool >$log 2>&1; then
    cat $log
    exit 1
fi
echo "the tool's own tests pass"
for test in checks runs traces pictures statuses tutorial; do
    python3 tests/tool/$test.py
done
