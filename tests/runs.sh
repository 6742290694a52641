#!/usr/bin/env bash
# Runs `check` on every sheet in examples/ and compares what it prints with the file .out beside it; then on texts of the
# greatest length and of one byte more.
set -u
cd "$(dirname "$0")/.."
check=$PWD/crates/check_sheet/out/check_sheet
(cd crates/check_sheet && rt run </dev/null) >/dev/null 2>&1 || exit 1
passed=0
failed=0

# prints LABEL EXPECTED: what `check` prints for standard input is what the file EXPECTED holds
prints() {
  if "$check" | cmp -s - "$2"; then
    passed=$((passed + 1))
  else
    failed=$((failed + 1))
    echo "$1: not what is expected"
  fi
}

for sheet in examples/*.txt; do
  prints "$sheet" "${sheet%.txt}.out" <"$sheet"
done
# newlines N: so many bytes 10
newlines() { head -c "$1" /dev/zero | tr '\0' '\n'; }
prints '65,536 bytes' <(printf 'fault\t4\t1\t0\n') < <(newlines 65536)
prints '65,537 bytes' <(printf 'fault\t1\t0\t0\n') < <(newlines 65537)
echo "$passed passed, $failed failed"
[ "$failed" -eq 0 ] && [ "$passed" -gt 0 ]
