#!/usr/bin/env bash
# Holds the library, through its C exports, against the independent implementation in bench/src:
# tests/differential.sh [SEED [COUNT]]. The last line is 'N passed, M failed', and the status tells the same.
set -eu
cd "$(dirname "$0")/.."
bench/build.sh differential embed_c
exec target/bench/differential "$@"
