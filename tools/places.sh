#!/bin/bash
# Lists, for each point of docs/DESIGN-PASS.md, the lines of crates/*/src among which its places are looked for, with their number.
# Run it at the top of a checkout; docs/DESIGN-PASS.md says which of the lines are places.
set -u
src() { grep -rnE "$1" crates/*/src --include=*.rt | grep -vE '^[^:]*:[0-9]+: *//'; }
count() { local name=$1; shift; local lines; lines=$("$@"); echo "== $name: $(printf '%s' "$lines" | grep -c '')"; printf '%s\n' "$lines"; }
count "1 enums"      src '^ *(pub(\([a-z]+\))? )?enum '
count "1 flags"      src '^ *(pub(\([a-z]+\))? )?[a-z_]+: bool,'
count "1 numbers"    src 'kind: u8,|parent: u16,|before: u16,|next: u16,|const NEVER|-> u8|fn (seek|answer)\b'
count "2 functions"  bash -c "grep -rhoE '\bfn [a-z_]+' crates/*/src --include=*.rt | sort | uniq -d"
count "2 types"      bash -c "grep -rhoE '\b(struct|enum) [A-Z][A-Za-z]*' crates/*/src --include=*.rt | sort | uniq -d"
count "3 loops"      src '\bfor .* in |\bwhile\b|\bloop \{'
count "4 conversion" src 'fn (number|detail|put_[a-z]+|from|fmt)\b|const (BLANK|MARK)|Step::new'
count "5 clauses in three functions or more" bash -c "grep -rhoE '^ *(requires|ensures)( [a-z_]+)? \{.*' crates/*/src --include=*.rt | sed 's/^ *//' | sort | uniq -c | awk '\$1>2'"
count "5 functions of four parameters or more" bash -c "cat \$(find crates/*/src -name '*.rt') | tr '\n' ' ' | grep -oE 'fn [a-z_]+(<[^(]*>)?\([^)]*\)' | awk -F: 'NF>4'"
count "6 arrays and lengths" src '\[(u16|Link|Node); *[0-9A-Z]+\],|^ *(pub(\([a-z]+\))? )?(n|len): (u16|usize),|: Vec<'
count "7 switches"   src '\bmatch (call|line|\(line)|trait Test|impl Fn|dyn |F: Fn'
