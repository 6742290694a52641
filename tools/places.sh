#!/usr/bin/env bash
# Lists the lines of the crates' source that docs/DESIGN-PASS.md counts places in, by point. `tools/places.sh COMMIT` reads
# a commit, without an argument the working tree. Not each line that is listed is a place: the page says which are.
set -u
cd "$(dirname "$0")/.." || exit 1
commit=${1:-}

lines() {
  local title=$1 pattern=$2
  local found
  found=$(git grep -nE -e "$pattern" ${commit:+"$commit"} -- 'crates/*/src/*.rt' ':!crates/trials' | sed -E "s/^${commit:-NONE}://")
  printf '## %s: %s\n' "$title" "$(printf '%s' "$found" | grep -c .)"
  printf '%s\n' "$found"
}

# clauses that stand word for word in three or more contracts of one crate
repeated() {
  printf '## 5 clauses repeated\n'
  local crate
  for crate in crates/*/; do
    git grep -hoE '^\s*(requires|ensures)( \w+)? \{.*' ${commit:+"$commit"} -- "${crate}src" | sed 's/^ *//' | sort | uniq -c |
      awk -v crate="$crate" '$1 >= 3 { print crate ": " $0 }'
  done
}

lines '1 enums' '^\s*(pub(\(crate\))? )?enum '
lines '1 refusals as options' '-> Option<\w*(Fault|Refusal)>'
lines '1 kinds as numbers' 'match (kind|number)\b|kind == [0-9]|numbered\('
lines '1 answers as numbers' 'Result<u(8|16|32|64)\b|-> (u8|u16|u32|i64)\b'
lines '3 loops over numbers' 'for \w+ in [^{]*\.\.|\bwhile '
lines '3 other loops' '^\s*(.\w+: )?(for \(?\w+(, \w+\))? in [^.]*(\.iter\(\)|\.iter_mut\(\))?(\.enumerate\(\))?|loop) \{'
lines '4 impls by hand' 'impl(<[^>]*>)? (From|TryFrom|PartialEq|PartialOrd|Ord|Eq|Clone|Copy|Display|Default)\b'
lines '4 casts' ' as (u8|u16|u32|u64|usize|i8|i16|i32|i64)\b'
repeated
lines '6 arrays' '\[\w+; *\w+\]'
lines '6 lengths beside' '^\s*(pub(\(crate\))? )?(len|count|used): '
lines '7 steps' 'match (sheet|call|entry) \{|match RuleChoice|if is_word|\bdyn |: fn\('
