#!/bin/sh
# Builds target/peer/native, the plain run by plain loops, and target/peer/systemc, the same on SystemC, where SystemC is installed.
set -e
cd "$(dirname "$0")/../.."
mkdir -p target/peer
build="g++ -O3 -std=c++17 -Wall -Wextra"
$build -o target/peer/native bench/peer/native.cpp
if echo '#include <systemc>' | g++ -std=c++17 -E -x c++ - >/dev/null 2>&1; then
    $build -o target/peer/systemc bench/peer/systemc.cpp -lsystemc
else
    rm -f target/peer/systemc
    echo "bench/peer/build.sh: SystemC is not installed (apt-get install libsystemc-dev), so there is no target/peer/systemc" >&2
fi
