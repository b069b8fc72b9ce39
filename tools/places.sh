#!/bin/sh
# The places of docs/DESIGN-PASS.md in src/, by text: sh tools/places.sh [COMMIT] (the checkout where none is given). Each line is FILE:LINE:TEXT under
# the head of its point; the last lines count them.
set -u
cd "$(dirname "$0")/.." || exit 1
commit=${1:-}
out=$(mktemp)
find_in() {
    if [ -n "$commit" ]; then
        git grep -nE "$1" "$commit" -- 'crates/*/src/*.rt' | sed "s/^$commit://"
    else
        git grep -nE --untracked "$1" -- 'crates/*/src/*.rt'
    fi
}
point() {
    find_in "$2" | { [ -n "${3:-}" ] && grep -vE "$3" || cat; } | sed "s/^/$1 /" >>"$out"
}
# 1: enums and structs of the repository's own with a payload; booleans beside a value; numbers for faults, kinds and what may stand next
point 1a '^ *(pub )?enum [A-Z]'
point 1b '^ *(pub )?[a-z_]+: bool,$'
point 1c '(refused|Stop|Fault)\([0-9]+|code: [0-9]+,|\.code [!=]= 0|=> [0-9]+,$' 'lookups/src/lib.rt.*=> 0,$|ridge_rule|portable_rule'
point 1d 'phase: [0-9u]|\.phase [<!=]|u16_at\([^)]*\) [!=]= [0-9]|kind_at\(.*\) [!=]= [0-9]|number == [0-9]|kind == [0-9]|put_le\(2, [0-9]+, '
# 2: functions of one name in several files of src/, or names that differ only in a type or size (docs/DESIGN-PASS.md lists the pairs)
point 2 'fn (least|larger|larger_of|entry_at|byte_at|word_at|byte_in|byte_from|u16_at|u64_at|eight_at|last_at|whole_at|put_le|put_part|copy|copy_part|one_state|row_of|store|store_weight|refused|fill|put|fine_by_words|fine_by_bytes|send|sent|all_one|weights_fine|lowest_weight|lowest_entry|lowest_slot|put_each|print_numbers|print_bytes|print_words|print_longs|read_case|check_case|next_book|next_case|fill_weights|fill_table|ridge_entry|portable_entry|at_most|shown|phi|psi|command_at|percept_at)\b'
# 3: loops that count or step by hand
point 3 '^ *(.[a-z]+: )?(while|loop)\b'
# 4: conversions and printing by hand
point 4 'fn (of|code_of|kind_of|with_units|result_of|leg_of|wide|answered|print_[a-z]+|put_right|put_field|put_number|put_numbers|kind_at|last_two)\b'
# 5: parameters that travel together, facts that stand in several contracts
point 5a 'tabled: bool'
point 5b '\(n ≤ 64\)|\(m ≤ 32\)'
point 5c 'length ends\.(now|old) ≡ 64|Limits st|Limits start|CountsFine'
point 5d 'lent table\.old slots\.old weights\.old'
# 6: a buffer with the place reached or a length beside it, parallel arrays
point 6a 'fn .*&mut \[u8\].*(at|to|q): usize'
point 6b '\[[0-9a-z]+; (33|64)\];?$' 'masks.rt'
# 7: switches
point 7 'tabled[,)]|if tabled|summing[,)]|if !summing|device == 0|kind == [0-9a-z]' 'tabled n m'
cat "$out"
echo
for p in 1a 1b 1c 1d 2 3 4 5a 5b 5c 5d 6a 6b 7; do
    printf '%s %s\n' "$p" "$(grep -c "^$p " "$out")"
done
rm -f "$out"
echo "8 walks $(if [ -n "$commit" ]; then git ls-tree -r --name-only "$commit" crates; else git ls-files -co --exclude-standard crates; fi | grep -c '/proofs/.*/Proof\.antt$')"
echo "8 answers $(if [ -n "$commit" ]; then git ls-tree -r --name-only "$commit" crates; else git ls-files -co --exclude-standard crates; fi | grep -c '/proofs/.*/Answers\.antt$')"
