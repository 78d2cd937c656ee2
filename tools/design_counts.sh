#!/bin/bash
# usage: tools/design_counts.sh REV [list]
#
# The counts of docs/DESIGN-PASS.md at a commit, over src/ of all crates; with `list` each place too.
# Point 2 is counted by another tool: the pairs of places in src/ that share six or more lines, to the letter or in their shape.
set -euo pipefail
cd "$(dirname "$0")/.."
rev=$1 list=${2:-}
show() { # NAME PATTERN
    local found
    found=$(git grep -nE "$2" "$rev" -- 'crates/*/src/*.rt' | sed "s/^$rev://" || true)
    echo "$1: $(printf '%s' "$found" | grep -c . || true)"
    if [ -n "$list" ] && [ -n "$found" ]; then echo "$found" | sed 's/^/    /'; fi
}
show '1a enums' '^\s*(pub )?enum '
show '1b a number or a flag in a struct, with what it is about beside it' '^\s+(pub )?(result|found|there|track): (u8|bool),'
show '1c refusals and kinds as numbers' '(pub const [A-Z_0-9]+: u8 = [0-9]+;|number: u8|source: u8|kind: usize|refusals::[A-Z_0-9]+\b)'
show '3 loops by while or loop' '^\s*(while|loop)\b'
show '4 functions that compare, copy, convert or print by hand' 'fn (same_|is_same|are_equal|number_of|kind_of|mark|byte\(|unsigned|signed|magnitude|to_signed|to_unsigned|put_decimal|digits_of|put_sign|smaller|eight_at|put_eight|is_known)'
show '5a clauses that ask what three or more functions ask' 'requires.*(Sound pen|RoomForText|HasRoom|RoomForBits|table_length|flat_length ≤|place_length ≤)'
show '5b signatures in which parameters travel together' 'fn .*(out: &mut \[u8\], (at: usize|pen: Pen)|(s|input): &\[u8\], (at|i|start): usize|refresh: bool, count: u8|row: &(mut )?\[i32\], at|number: u8, element: Element|m: Met, targets|min_pq: u16, max_pq|kind: Kind, value|bits: u32, skipped)'
show '6 arrays of a fixed number of entries' '\[[A-Za-z0-9_.:]+; [A-Za-z0-9_:]+\]'
show '7 parameters that say which step to run' 'fn .*(more|test|good|beside|usable|remains|further|inner): bool'
echo "8 files and lines of answers: $(git ls-tree -r --name-only "$rev" | grep -cE 'proofs/.*/Answers\.antt$') $(git ls-tree -r --name-only "$rev" | grep -E 'proofs/.*/Answers\.antt$' | while read -r f; do git show "$rev:$f"; done | wc -l)"
