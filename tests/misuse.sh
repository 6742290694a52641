#!/usr/bin/env bash
# Code that must not be built, each for its own reason, beside the same code as it should be written, which must be
# proved: so a broken set-up is not taken for a refusal. The crates are made in a folder outside the repository, beside
# the crates of the library.
set -u
cd "$(dirname "$0")/.."
made=$(mktemp -d)
trap 'rm -rf "$made"' EXIT
passed=0
failed=0

mkdir "$made/crates"
for library in text rules timing solver sheet settle; do
  cp -r "crates/$library" "$made/crates/$library"
  grep "^$library:" crates.txt >>"$made/crates.txt"
done

# check_crate NAME: proves the crate in $made/crates/NAME
check_crate() {
  (cd "$made/crates/$1" && rt check) >"$made/$1.log" 2>&1
}

tell() { # tell LABEL STATUS
  if [ "$2" -eq 0 ]; then
    passed=$((passed + 1))
  else
    failed=$((failed + 1))
    echo "$1"
    head -n 20 "$made/log"
  fi
}

# proved LABEL NAME, and refused LABEL NAME WORDS: refused with a message that has these words
proved() {
  check_crate "$2"
  local status=$?
  cp "$made/$2.log" "$made/log"
  tell "$1: is not proved" "$status"
}

refused() {
  if check_crate "$2"; then
    cp "$made/$2.log" "$made/log"
    tell "$1: is not refused" 1
  else
    cp "$made/$2.log" "$made/log"
    grep -qF -- "$3" "$made/log"
    tell "$1: is refused, but not because of '$3'" "$?"
  fi
}

# crate NAME: a crate whose source is read from standard input, after what all of them use
crate() {
  mkdir -p "$made/crates/$1/src"
  echo "$1: text rules timing sheet settle" >>"$made/crates.txt"
  {
    cat <<'USES'
use rules::Plain;
use settle::reading::Reading;
use settle::settled::Settled;
use settle::settled::settle;
use sheet::drawn::Drawn;
use sheet::fault::CallFault;
use sheet::fault::Refusal;
use timing::bound::Term;
USES
    cat
  } >"$made/crates/$1/src/lib.rt"
}

# 1. a drawn sheet is not read: settle it first
crate reads_drawn <<'CODE'
pub fn separation(sheet: Drawn<Plain>, event: usize) -> Result<Reading, Refusal> {
    sheet.read(event)
}
CODE
crate reads_settled <<'CODE'
pub fn separation(sheet: Drawn<Plain>, event: usize) -> Result<Reading, Refusal> {
    settle(sheet, 0).read(event)
}
CODE
refused 'a drawn sheet is read' reads_drawn 'no method named `read` found for type `Drawn'
proved 'the same after settling' reads_settled

# 2. no bound is added to a settled sheet: reopen it first
crate bounds_settled <<'CODE'
pub fn limit(sheet: &mut Settled<Plain>, term: Term) -> Result<usize, CallFault> {
    sheet.bound(0, 0, 0, &[term])
}
CODE
crate bounds_drawn <<'CODE'
pub fn limit(sheet: &mut Drawn<Plain>, term: Term) -> Result<usize, CallFault> {
    sheet.bound(0, 0, 0, &[term])
}
CODE
refused 'a bound is added to a settled sheet' bounds_settled 'no method named `bound` found for type `Settled'
proved 'the same on a drawn sheet' bounds_drawn

# 3. a drawn sheet is gone once it is settled
crate draws_after_settling <<'CODE'
pub fn event(mut sheet: Drawn<Plain>) -> Result<usize, CallFault> {
    let settled = settle(sheet, 0);
    let _ = settled.source();
    sheet.event(b"A")
}
CODE
crate draws_after_reopening <<'CODE'
pub fn event(sheet: Drawn<Plain>) -> Result<usize, CallFault> {
    let settled = settle(sheet, 0);
    let _ = settled.source();
    let mut sheet = settled.reopen();
    sheet.event(b"A")
}
CODE
refused 'a sheet is drawn on after it was settled' draws_after_settling 'moved'
proved 'the same after reopening' draws_after_reopening

# 4. a rule set whose code answers its meaning, but whose meaning breaks a law: exactly K of the other terms, not at least K
# set_of NAME: the crate buyer under this name
set_of() {
  mkdir "$made/crates/$1"
  cp -r crates/buyer/src crates/buyer/specs "$made/crates/$1"
  find "$made/crates/$1" -type f -exec sed -i "s/Rattle\.buyer\./Rattle.$1./" {} +
  echo "$1: rules" >>"$made/crates.txt"
}
set_of lawful
set_of lawless
sed -i 's/|| nat_le k (count_ones (other_terms 1 set))/|| (k == count_ones (other_terms 1 set))/' "$made/crates/lawless/specs/Lead.antt"
sed -i 's/count_ones() >= u32::from(others)/count_ones() == u32::from(others)/' "$made/crates/lawless/src/lib.rt"
refused 'a rule set breaks a law' lawless 'impl lawless::LeadAddedKinds: not proved'
grep -q 'fn lawless::LeadAddedKinds::passes: proved' "$made/log"
tell 'a rule set breaks a law: its code does not answer its meaning' "$?"
proved 'the same rule set with its laws' lawful

# 5. a rule set need not be given by the kinds that it adds: the trait itself is open
crate_of_rules() {
  mkdir -p "$made/crates/$1/src" "$made/crates/$1/specs"
  echo "$1: rules" >>"$made/crates.txt"
  cat >"$made/crates/$1/src/lib.rt"
}
crate_of_rules direct <<'CODE'
#![tactic(auto)]

ghost use Rattle.rules.specs.Sets.{plain_admits, plain_enough};
ghost use Rattle.rules.specs.SetsLemmas.{plain_adds};
ghost use Rattle.rules.specs.AddedLemmas.{laws_with};

use rules::{RuleSet, is_set};

#[derive(Clone, Copy)]
pub struct Own {}

impl RuleSet for Own {
    ghost admitted = { λ _. plain_admits };

    ghost suffices = { λ _. plain_enough };

    ghost lawful = { λ rules. laws_with plain_adds };

    fn admits(&self, kind: u8, k: u8, count: u8) -> bool {
        kind == 0 && k == 0 && 1 <= count && count <= 8
    }

    fn enough(&self, kind: u8, k: u8, count: u8, set: u8) -> bool {
        self.admits(kind, k, count) && is_set(count, set) && set > 0
    }
}
CODE
proved 'a rule set of its own' direct

echo "$passed passed, $failed failed"
[ "$failed" -eq 0 ] && [ "$passed" -gt 0 ]
