#!/bin/sh
# Makes the source files of the constant tables of what the program `tables` prints: make.sh [--check]
# Needs crates/tables/out/tables: (cd crates/tables && rt run). With --check it writes nothing, and its status is 1 where a file would change.
set -eu
cd "$(dirname "$0")/../.."
case ${1:-} in
'') check= ;;
--check) check=1 ;;
*) echo "usage: $0 [--check]" >&2; exit 2 ;;
esac
program=crates/tables/out/tables
[ -x $program ] || { echo "no $program: (cd crates/tables && rt run) builds it" >&2; exit 2; }
work=$(mktemp -d)
trap 'rm -rf "$work"' EXIT
$program >"$work/lines"
[ "$(wc -l <"$work/lines")" -eq 1408 ] || { echo "$program printed other than 1,408 lines" >&2; exit 2; }

source_of() { # the device in words, its crate, its first entry's line, entries, commands
    file=crates/$2/src/masks.rt
    {
        printf "// The %s's constant table: the outcomes of each command in each state, entry state * %d + command. " "$1" "$5"
        printf 'Made by crates/tables/make.sh.\npub(crate) const MASKS: [u64; %d] = [\n' "$4"
        tail -n "+$3" "$work/lines" | head -n "$4" |
            awk -v m="$5" '{ printf "    %s, // state %d, command %d\n", $1, int((NR - 1) / m), (NR - 1) % m }'
        printf '];\n'
    } >"$work/source"
    if [ "$check" ]; then cmp "$work/source" "$file"; else cp "$work/source" "$file"; fi
}
source_of 'ridge repeater' ridge 1 1024 16
source_of 'portable relay' portable 1025 384 12
