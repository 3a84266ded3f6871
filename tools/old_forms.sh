#!/usr/bin/env bash
# Lists the places in src/, tests aside, that a search can find of each older form, with their number: tools/old_forms.sh [FOLDER]
# docs/DESIGN-PASS.md has the numbers before and after, and the places that only reading finds.
set -uo pipefail
cd "${1:-$(dirname "$0")/..}"

places() {
    local title=$1
    shift
    local found
    found=$("$@" --include='*.rt' -rnE crates/*/src | grep -vE '^[^:]*:[0-9]+:\s*//|_tests/|=> break')
    echo "== $title: $(grep -c . <<<"$found")"
    [ -z "$found" ] || sed -E 's/^crates\///; s/:\s+/: /' <<<"$found"
}

search() { grep -e "$1" "${@:2}"; }

places "1a own enums with a case for 'none'" search '^\s+(Nothing|NotHeld|Blank|Nobody|Absent),$'
places "1b a refusal kept beside a value" search 'refusal: Option<Refusal>,'
places "1c numbers for kinds" search '(ten_bytes|page_head|on_lock)\((station, )?[0-9]|\[[0-9], station|^\s+[0-9](\.\.=[0-9]+)?( if .*)? =>|^\s+[0-9] \| [0-9.=]+ =>|number: u32\) -> Result<\(\), Fault>'
places "1d results in results" search 'Result<Result<|\.is_err\(\)$|return Ok\(Err\('
places "1e a number returned that says nothing" search 'pub fn [a-z_]+\(\) -> u8'
places "1f an error enum where only memory can fail" search '-> Result<\(\), Fault>'
places "3 loops that count or cut by hand" search '\bfor [a-z_]+ in [^{]*\.\.|\bwhile '
places "4a plain types without comparison and printing" search '^#\[derive\(Clone, Copy\)\]'
places "4b printing by pieces" search 'fn push_[a-z_]+\('
places "4c errors turned by hand" search 'Err\(why\) => |if let Err\(why\)|return Err\([A-Za-z]+::[A-Za-z]+\(why\)\)|Err\(_\) => unreachable'
places "6 a buffer with its length or cursor beside it" search 'filled: usize|let mut at = |let mut rest = '
places "7 a switch on the step" search 'match form|self\.each_[a-z]+\('

echo "== 5 facts that stand in three or more clauses"
grep -rhoE '^\s+(requires|ensures) .*' --include='*.rt' crates/*/src \
    | sed -E 's/^\s+//; s/(requires|ensures) [a-z_]+ \{/\1 {/; s/\.(old|now|new)//g' \
    | sort | uniq -c | sort -rn | awk '$1 >= 3'
echo "== 8 lines of proofs: $(find crates -path '*/proofs/*' -name '*.antt' -not -path '*/out/*' -exec cat {} + | wc -l)"
