#!/bin/sh
# Builds the proved search as a static library and the harness with gcc -O3, and runs it (frames: first argument, 200 by default).
set -e
cd "$(dirname "$0")/../crates/nearest_c"
rt lib
gcc -O3 -Wall -o out/bench ../../bench/bench.c out/libnearest_c.a
exec out/bench "$@"
