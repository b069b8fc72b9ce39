#!/bin/sh
# Holds the names that an archive exports to those of rollback.h, and the page of claims to these names:
# names.sh [ARCHIVE [PAGE]]
# On the page each exported call has a claim about its own routine, the one of planner by that name, and no claim
# that is called exported_.. is about another routine. The archive is made of planner_c, on which no crate can stand:
# each function there has the parameters, the result and the clauses of planner's, its words are brought in from where
# planner has them, and it only passes its arguments on to planner's. What the archive needs from elsewhere is memcpy and
# memset. Status 1 if one of these is not so.
set -eu
archive=${1:-target/staticlib/libplanner.a}
page=${2:-$(dirname "$0")/../crates/claims/proofs/Page.antt}
expected='rollback_assemble
rollback_assemble_legs
rollback_assemble_small
rollback_check
rollback_find
rollback_forecast
rollback_page
rollback_portable
rollback_read
rollback_ridge
rollback_write'
[ -r "$archive" ] || { echo "no $archive: c/archive.sh writes it" >&2; exit 2; }
[ -r "$page" ] || { echo "no $page" >&2; exit 2; }
exported=$(nm -P -g --defined-only "$archive" | awk 'NF > 1 { print $1 }' | LC_ALL=C sort)
if [ "$exported" != "$expected" ]; then
    printf 'exported:\n%s\nexpected:\n%s\n' "$exported" "$expected"
    exit 1
fi
printf 'exports exactly these eleven:\n%s\n' "$exported"

# The claims of exported calls are those called exported_.. and assembling_legs, a call that no crate below planner
# has. A routine is a name and code of one symbol. A statement is what stands between a claim's name and the next line that begins at the left.
awk -v exported="$exported" '
    function wrong(what) {
        print "c/names.sh: " FILENAME ": " what
        status = 1
    }
    # The routines that a statement names, each once; whether they are all of exported calls.
    function judge(    word, count, i, about) {
        count = split(statement, word, /[^-A-Za-z0-9_]+/)
        for (i = 1; i <= count; i++) {
            if (word[i] !~ /_routine$/)
                continue
            about++
            if (!(word[i] in call_of))
                wrong(claim " is about " word[i] ", which is the routine of no exported call")
            else if (statement ~ /^[A-Za-z]*Claims /)
                claimed[call_of[word[i]]] = 1
        }
        if (!about)
            wrong(claim " is about no routine")
        claim = ""
    }
    BEGIN {
        count = split(exported, call, "\n")
        for (i = 1; i <= count; i++)
            is_exported[call[i]] = 1
    }
    /^use .*\.Symbol as / {
        symbol = $4
        if (symbol in taken)
            wrong(symbol " stands for two symbols")
        taken[symbol] = 1
        if ($2 ~ /^Rattle\.planner\.proofs\.rollback_[a-z_]*\.Symbol$/) {
            name = $2
            sub(/^Rattle\.planner\.proofs\./, "", name)
            sub(/\..*/, "", name)
            if (name in is_exported)
                named_by[symbol] = name
        }
    }
    /^[a-z_]+_routine = / {
        if ($1 in defined)
            wrong($1 " stands for two routines")
        defined[$1] = 1
        symbol = $7
        sub(/\.name;$/, "", symbol)
        if ($0 != $1 " = record { name = " symbol ".name; code = " symbol ".code }")
            wrong($1 " is not the name and the code of one symbol")
        else if (symbol in named_by)
            call_of[$1] = named_by[symbol]
    }
    claim != "" && /^[^ ]/ { judge() }
    claim != "" { statement = statement " " $0 }
    /^pub (exported_[^ ]*|assembling_legs) : / {
        claim = $2
        statement = $0
        sub(/^pub [^ ]* : /, "", statement)
    }
    END {
        if (claim != "")
            judge()
        for (i = 1; i <= count; i++)
            if (!(call[i] in claimed))
                wrong(call[i] " has no claim about its own routine")
        exit status
    }
' "$page"
printf 'each has claims about its own routine (%s)\n' "${page##*/}"

# planner's functions, then planner_c's: each as one line, from its name to its body.
crates=$(dirname "$0")/../crates
awk -v exported="$exported" '
    function wrong(what) {
        print "c/names.sh: " FILENAME ": " what
        status = 1
    }
    # A text on one line, however it was laid out.
    function plain(text) {
        gsub(/ +/, " ", text)
        gsub(/\( /, "(", text)
        gsub(/,? \)/, ")", text)
        sub(/^ /, "", text)
        return text
    }
    # The words that a ghost use line brings in, each with where it stands.
    /^ghost use / {
        if ($0 !~ /^ghost use [A-Za-z_.]+\.\{[^{}]*\};$/ || / as /)
            wrong("can not be read: " $0)
        from = $3
        sub(/\{.*/, "", from)
        count = split(substr($0, index($0, "{") + 1), word, /[ ,};]+/)
        for (i = 1; i <= count; i++) {
            if (word[i] == "")
                continue
            if (FILENAME !~ /planner_c/)
                brought[from word[i]] = 1
            else if (!((from word[i]) in brought))
                wrong(from word[i] " is not what planner brings in")
        }
    }
    /^pub (extern "C" )?fn / {
        sub(/^pub (extern "C" )?fn /, "")
        name = $0
        sub(/\(.*/, "", name)
        text = ""
        part = "head"
    }
    part == "head" && /^\{/ {
        head = plain(text)
        text = ""
        part = "body"
        next
    }
    part == "body" && /^\}/ {
        part = ""
        if (FILENAME !~ /planner_c/) {
            head_of[name] = head
            next
        }
        passed[name] = 1
        if (!(name in head_of) || head != head_of[name])
            wrong(name " has other parameters, another result or other clauses than planner has")
        # The names of the parameters, in their order.
        sub(/^[^(]*\(/, "", head)
        sub(/\) -> .*/, "", head)
        gsub(/: [^,]*/, "", head)
        if (plain(text) != "planner::" name "(" head ")")
            wrong(name " does not only pass its arguments on to planner")
    }
    part != "" {
        text = text " " $0
    }
    END {
        count = split(exported, call, "\n")
        for (i = 1; i <= count; i++)
            if (!(call[i] in passed))
                wrong(call[i] " is not there")
        exit status
    }
' "$crates/planner/src/lib.rt" "$crates/planner_c/src/lib.rt"
printf 'each passes on to the function of planner by its name, with the same clauses\n'
needed=$(nm -P -g --undefined-only "$archive" | awk 'NF > 1 { print $1 }' | LC_ALL=C sort -u)
if [ "$needed" != 'memcpy
memset' ]; then
    printf 'needs:\n%s\nand not memcpy and memset alone, as README.md and rollback.h say\n' "$needed"
    exit 1
fi
printf 'needs these two from whoever links it:\n%s\n' "$needed"
