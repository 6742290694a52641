#!/usr/bin/env bash
# Builds the static library, links the examples in C and in Rust with it, and runs both on the sheets of examples/.
# What they print is compared with the files of examples/expected, and what each prints with what the other does.
# The last line is 'N passed, M failed', and the status is 0 where all passed.
# With --write the expected files are written anew: look at the difference before you keep it.
set -u
cd "$(dirname "$0")/.."

passed=0
failed=0

report() { # NAME STATUS
    if [ "$2" -eq 0 ]; then
        passed=$((passed + 1))
        echo "passed: $1"
    else
        failed=$((failed + 1))
        echo "FAILED: $1"
    fi
}

finish() {
    echo "$passed passed, $failed failed"
    [ "$failed" -eq 0 ]
    exit
}

for tool in rt gcc rustc; do
    if ! command -v "$tool" >/dev/null; then
        echo "$tool is not on the path"
        report "$tool is here" 1
    fi
done
[ "$failed" -eq 0 ] || finish

kit=$(dirname "$(rt doc)")
work=$(mktemp -d)
trap 'rm -rf "$work"' EXIT

(cd crates/embed_c && rt lib) >"$work/log" 2>&1
status=$?
[ "$status" -eq 0 ] || tail -n 20 "$work/log"
report "the static library" "$status"
[ "$status" -eq 0 ] || finish

gcc -std=c11 -Wall -Wextra -Werror -O2 -o "$work/in_c" examples/c/main.c crates/embed_c/out/libembed_c.a "$kit/c/liblibc_c.a"
report "gcc" $?
rustc --edition 2024 -O -D warnings -o "$work/in_rust" examples/rust/main.rs \
    -L native=crates/embed_c/out -L native="$kit/c" -l static=embed_c -l static=libc_c
report "rustc" $?
[ "$failed" -eq 0 ] || finish

# SHEET RULES: both examples on a sheet, under the rule set with this number
run() {
    local sheet=$1 rules=$2 expected=examples/expected/$1.out
    "$work/in_c" "examples/$sheet.txt" "$rules" >"$work/c.out" &&
        "$work/in_rust" "examples/$sheet.txt" "$rules" >"$work/rust.out"
    report "$sheet: both examples end well" $?
    [ "${write:-no}" = yes ] && cp "$work/c.out" "$expected"
    diff "$expected" "$work/c.out"
    report "$sheet: C prints what is expected" $?
    diff "$work/c.out" "$work/rust.out"
    report "$sheet: Rust prints what C does" $?
}

[ "${1:-}" = --write ] && write=yes
run sram 0
run i386-2147h2 0
run z80-6264-70 0
run ddr3-read 0
run tmr-vote 1
run group-arbiter 2
run contradiction 0
run fault 0
finish
