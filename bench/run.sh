#!/usr/bin/env bash
# Builds and runs the benchmark: bench/run.sh [REPETITIONS]. The tables are printed in the form that docs/PERFORMANCE.md has.
set -eu
cd "$(dirname "$0")/.."
bench/build.sh benchmark embed_c bench_hooks
exec target/bench/benchmark examples bench/sheets "$@"
