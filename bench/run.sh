#!/bin/sh
# Builds and runs the benchmarks. SystemC is compared with where it is installed (libsystemc-dev).
set -e
cd "$(dirname "$0")"
out=$(cd .. && pwd)/target/bench
../bindings/library.sh
peer/build.sh
mkdir -p "$out"
for x in files requests; do
    g++ -O3 -std=c++17 -Wall -Wextra -I peer -c $x.cpp -o "$out/$x.o"
    ar rcs "$out/lib$x.a" "$out/$x.o"
done
link="-L ../target/staticlib -l static=exports -l stdc++"
rustc --edition 2021 -O -o "$out/files" files.rs $link -L "$out" -l static=files
rustc --edition 2021 -O -o "$out/requests" requests.rs $link -L "$out" -l static=requests
rustc --edition 2021 -O -o "$out/plain" plain.rs $link
echo "## Files"
"$out/files"
echo
echo "## Lists of requests"
"$out/requests"
echo
echo "## Plain run, million segments a second"
python3 -B plain.py "$out/plain"
