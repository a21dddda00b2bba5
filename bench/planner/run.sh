#!/bin/sh
# Builds the benchmark of the planner and prints how its least extra drives compare with C++ on several kinds of towns, and what a whole plan takes. RT and CXX choose other commands.
set -eu
cd "$(dirname "$0")/../.."
rt=${RT:-rt}
kit=$(dirname "$("$rt" doc)")
(cd crates/planner_bench && "$rt" lib)
mkdir -p target/bench
"${CXX:-clang++}" -O3 -march=native -std=c++17 -pthread bench/planner/bench.cpp crates/planner_bench/out/libplanner_bench.a "$kit/c/liblibc_c.a" "$kit/c/libos_c.a" -o target/bench/planner
target/bench/planner
