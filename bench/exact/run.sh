#!/bin/sh
# Builds the benchmark of whole plans beside other exact planners, and prints its tables; it stops with status 1 where lengths differ. Where Python has networkx, its pairings are asked as well. RT, CXX and PYTHON choose other commands.
set -eu
cd "$(dirname "$0")/../.."
rt=${RT:-rt}
python=${PYTHON:-python3}
kit=$(dirname "$("$rt" doc)")
(cd crates/planner_bench && "$rt" lib)
mkdir -p target/bench
"${CXX:-clang++}" -O3 -march=native -std=c++17 bench/exact/exact.cpp crates/planner_bench/out/libplanner_bench.a "$kit/c/liblibc_c.a" "$kit/c/libos_c.a" -o target/bench/exact
target/bench/exact
if "$python" -c 'import networkx' 2>/dev/null; then
    target/bench/exact --towns > target/bench/towns.txt
    "$python" bench/exact/beside.py target/bench/towns.txt
fi
