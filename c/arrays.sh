#!/bin/sh
# 02: "No local array has over 64 elements", of assembling with a scratch: arrays.sh [ROOT]
# Reads the source of planner, which has rollback_assemble_small, of planner_c, which exports it, of the crates that
# planner calls there, and of all that these stand on (crates.txt). Each array in a function, a type or a constant there, `[v; N]`, `[T; N]` or a list,
# one of arrays too, has 64 elements at most, or stands below with the call that it is for, or with the
# values of its const parameter. Status 1 if one has more,
# if its length can't be read, or if one that is listed is not there.
set -eu
cd "${1:-$(dirname "$0")/..}"
allowed='planner rollback_assemble_legs the legs as bytes
planner fill_legs              the same
octets chunk_at                N is 2 or 8, the bytes of a number
octets bytes_at                the same'
planner=crates/planner/src

# The numbers whose bytes these two read: no other function names them, and where one gives N in angle brackets it is 2 or 8.
callers=$(awk '
    { sub(/\/\/.*/, "") }
    match($0, /fn [a-z0-9_]+/) { item = substr($0, RSTART + 3, RLENGTH - 3) }
    /fn (chunk|bytes)_at/ { next }
    /(chunk|bytes)_at/ { print item; gsub(/_at::<[28]>/, ""); if (/_at::/) print item, "with another N" }
' crates/octets/src/lib.rt | sort -u | paste -s -d , -)
[ "$callers" = 'bytes_at,u16_at,u64_at,whole_at' ] || { echo "c/arrays.sh: chunk_at and bytes_at are named by $callers"; exit 1; }

# The crates that a function of planner calls, one to a line.
called_by() {
    sed -n "/fn $1(/,/^}/p" $planner/*.rt | sed -n '/^{/,/^}/p' | grep -o '[a-z_]*::' | tr -d : | sort -u
}
# A crate and all that it stands on, one to a line; crates.txt has what each stands on.
with_all_below() {
    awk -v wanted="$*" '
        { sub(/#.*/, ""); name = $1; sub(/:$/, "", name); $1 = ""; below[name] = $0 }
        END {
            count = split(wanted, queue)
            for (i = 1; i <= count; i++) {
                if (seen[queue[i]]++)
                    continue
                print queue[i]
                more = split(below[queue[i]], next_ones)
                for (j = 1; j <= more; j++)
                    queue[++count] = next_ones[j]
            }
        }' crates.txt
}
roots=$(called_by rollback_assemble_small)
[ -n "$roots" ] || { echo "c/arrays.sh: no rollback_assemble_small in $planner"; exit 1; }
# shellcheck disable=SC2086
crates=$(with_all_below $roots)
files=''
for crate in $crates planner planner_c; do
    [ "$crate" != io ] || continue # the kit's
    [ -d "crates/$crate" ] || { echo "c/arrays.sh: no crate $crate"; exit 1; }
    for file in crates/"$crate"/src/*.rt; do
        [ ! -r "$file" ] || files="$files $file"
    done
done
# shellcheck disable=SC2086
awk -v allowed="$allowed" '
    # The number that a length stands for: digits, or a constant of its own crate or of the one that it names.
    function value(text, crate,    name) {
        gsub(/[ \n]/, "", text)
        if (text ~ /^[0-9][0-9_]*(usize)?$/) {
            gsub(/_|usize/, "", text)
            return text + 0
        }
        name = text
        sub(/.*::/, "", name)
        if (text ~ /::/ && text !~ /^(crate|self|super)::/) {
            crate = text
            sub(/::.*/, "", crate)
        }
        return (crate, name) in constant ? constant[crate, name] : -1
    }
    # Takes note of an array.
    function found(count, text) {
        if (count > largest && !((crate, item) in listed))
            largest = count
        if (count >= 0 && count <= 64)
            return
        if ((crate, item) in listed) {
            listed[crate, item] = 2
            return
        }
        gsub(/[ \n]+/, " ", text)
        printf "c/arrays.sh: %s: %s: %s: %s\n", FILENAME, item, text,
            count < 0 ? "a length that can not be read" : "an array of " count " elements, over 64"
        wrong = 1
    }
    BEGIN {
        lines = split(allowed, line, "\n")
        for (i = 1; i <= lines; i++) {
            split(line[i], word, " ")
            listed[word[1], word[2]] = 1
        }
    }
    FNR == 1 { crate = FILENAME; sub(/^crates\//, "", crate); sub(/\/.*/, "", crate) }
    { sub(/\/\/.*/, ""); gsub(/"[^"]*"/, "\"\"") }
    # First all constants, then the text of each file.
    pass == 1 {
        if (match($0, /const [A-Z_0-9]+: usize = [0-9_]+;/)) {
            split(substr($0, RSTART, RLENGTH), word, /[ :=;]+/)
            gsub(/_/, "", word[4])
            constant[crate, word[2]] = word[4] + 0
        }
        next
    }
    FNR == 1 { depth = 0; item = "" }
    {
        if (match($0, /fn [A-Za-z_0-9]+/) || depth == 0 && match($0, /(struct|enum|const|type) [A-Za-z_0-9]+/)) {
            item = substr($0, RSTART, RLENGTH)
            sub(/.* /, "", item)
        }
        rest = $0 "\n"
        # What stands between two brackets, commas or semicolons belongs to the innermost bracket that is open.
        while (match(rest, /[][(){};,]/)) {
            before = substr(rest, 1, RSTART - 1)
            sign = substr(rest, RSTART, 1)
            rest = substr(rest, RSTART + 1)
            for (i = 1; i <= depth; i++)
                text[i] = text[i] before sign
            after[depth] = after[depth] before
            if (before ~ /[^ \n]/)
                filled[depth] = 1
            if (sign ~ /[[({]/) {
                filled[depth] = 1
                depth++
                open[depth] = sign
                text[depth] = sign
                after[depth] = ""
                semicolon[depth] = filled[depth] = elements[depth] = 0
                each[depth] = 1
            } else if (sign == ";") {
                semicolon[depth] = 1
                after[depth] = ""
            } else if (sign == ",") {
                elements[depth] += filled[depth]
                filled[depth] = 0
            } else if (depth > 0) {
                count = 0
                if (open[depth] == "[" && semicolon[depth]) {
                    count = value(after[depth], crate)
                    count = count < 0 ? -1 : count * each[depth]
                    found(count, text[depth])
                } else if (open[depth] == "[" && elements[depth] > 0) {
                    count = (elements[depth] + filled[depth]) * each[depth]
                    found(count, substr(text[depth], 1, 40) " ..")
                }
                depth--
                # An array of arrays has as many elements as these together.
                if (count > 1 && open[depth] == "[" && !semicolon[depth])
                    each[depth] = count
            }
        }
        for (i = 1; i <= depth; i++)
            text[i] = text[i] rest
        after[depth] = after[depth] rest
        if (rest ~ /[^ \n]/)
            filled[depth] = 1
    }
    END {
        for (pair in listed)
            if (listed[pair] == 1) {
                split(pair, word, SUBSEP)
                printf "c/arrays.sh: %s: %s: listed, and has no array over 64\n", word[1], word[2]
                wrong = 1
            }
        if (!wrong)
            printf "no array over 64 elements under rollback_assemble_small; the largest has %d\n", largest
        exit wrong
    }
' pass=1 $files pass=2 $files
