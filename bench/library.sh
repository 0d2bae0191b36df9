#!/usr/bin/env bash
# What the library lembokuj costs, for the tables of docs/PERFORMANCE.md: run it on a machine that has nothing else to do.
#
# usage: library.sh [RUNS]     each of the benches RUNS times, 2 if none is named
#
# It builds first, by cargo without the proofs, and then takes some minutes; every line begins with the table that it is for:
#
#   calls        "The library for Rust and C": a call of the library, of the crates below and of std. Each row is the least of its runs
#   waits        the paragraph under that table: what an idle wait uses, and how long a wake-up takes
#   processes    "Between processes": messages, additions, an idle wait, wake-ups
#   baseline     the first sentence of each section: `bench/baseline.rs` with one thread on file a, if `bench/compare.py` has made both
set -eu
runs=${1-2}
here=$(cd "$(dirname "$0")" && pwd)
top=$(dirname "$here")
for tool in cargo python3; do
  command -v "$tool" >/dev/null || { echo "library.sh: $tool is not installed"; exit 1; }
done
cd "$top/bindings"
./erase >/dev/null
cargo bench --quiet -p lembokuj --features processes --no-run
marked() { sed "s/^/$1: /"; }
bench() { cargo bench --quiet -p lembokuj --features processes --bench "$@"; }
file=${BENCH_DIR-/tmp/lembokuj-bench}
if [ -x "$file/baseline" ] && [ -f "$file/data/a.csv" ]; then
  for _ in 1 2 3; do
    { TIMEFORMAT=%R; time "$file/baseline" g v 1 <"$file/data/a.csv" >/dev/null; } 2>&1 | marked baseline
  done
fi
for run in $(seq "$runs"); do
  bench calls | marked "calls $run"
done
for run in $(seq "$runs"); do
  bench waits | marked "waits $run"
  bench processes -- 200000 | marked "processes $run"
done
uptime | marked load
