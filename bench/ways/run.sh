#!/bin/sh
# Builds the benchmark of ways and prints the ratio of the medians. RT and CXX choose other commands.
set -eu
cd "$(dirname "$0")/../.."
rt=${RT:-rt}
kit=$(dirname "$("$rt" doc)")
(cd crates/ways_bench && "$rt" lib)
mkdir -p target/bench
"${CXX:-clang++}" -O3 -march=native -std=c++17 bench/ways/bench.cpp crates/ways_bench/out/libways_bench.a "$kit/c/liblibc_c.a" "$kit/c/libos_c.a" -o target/bench/ways
target/bench/ways
