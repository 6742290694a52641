#!/usr/bin/env bash
# Builds a program of bench/src/bin against the static archives of some crates of the library:
# bench/build.sh PROGRAM CRATE.., into target/bench.
set -eu
cd "$(dirname "$0")/.."
program=$1
shift
out=target/bench
kit=$(dirname "$(rt doc)")
mkdir -p "$out"

archives=()
for crate in "$@"; do
    (cd "crates/$crate" && rt lib) >"$out/$crate.log" 2>&1 || { tail -n 20 "$out/$crate.log" >&2; exit 1; }
    archives+=(-L "native=crates/$crate/out" -l "static=$crate")
done
if [ $# -gt 0 ]; then
    archives+=(-L "native=$kit/c" -l static=libc_c)
fi

rustc --edition 2024 -C opt-level=3 --crate-type rlib --crate-name vaultginger_bench \
    bench/src/lib.rs -o "$out/libvaultginger_bench.rlib"
rustc --edition 2024 -C opt-level=3 --extern "vaultginger_bench=$out/libvaultginger_bench.rlib" \
    "bench/src/bin/$program.rs" -o "$out/$program" "${archives[@]}"
