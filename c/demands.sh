#!/bin/sh
# Holds docs/DEMANDS.md to the page of claims: demands.sh [ROOT]
# Each claim that it cites with a field, as `reading` .says, is on the page, and what it says of a routine has that
# field; and each field of these records of claims is cited. So a field that is left out, which no proof would
# notice where nothing stands on it, is noticed here. Status 1 if one of these is not so.
set -eu
cd "${1:-$(dirname "$0")/..}"
claims=crates/claims/specs/Claims.antt
page=crates/claims/proofs/Page.antt
demands=docs/DEMANDS.md
awk -v claims="$claims" -v page="$page" '
    function wrong(what) {
        print "c/demands.sh: " what
        status = 1
    }
    # The records of claims about routines, and their fields.
    FILENAME == claims && /^pub record [A-Za-z]+ .*Compiled\)/ { record = $3; next }
    FILENAME == claims && /^[^ ]/ { record = "" }
    FILENAME == claims && record != "" && /^  pub [^ ]+ :/ { field[record, $2] = 0; next }
    # The claims on the page, with the record that each one is of.
    FILENAME == page && /^pub [^ ]+ : [A-Z]/ { of[$2] = $4 }
    FILENAME == claims || FILENAME == page { next }
    {
        rest = $0
        while (match(rest, /`[a-z_-]+`( \.[a-z_-]+,?)+/)) {
            cited = substr(rest, RSTART, RLENGTH)
            rest = substr(rest, RSTART + RLENGTH)
            count = split(cited, word, /[ ,`]+/)
            if (!(word[2] in of))
                continue
            for (i = 3; i <= count; i++) {
                if (word[i] == "")
                    continue
                name = substr(word[i], 2)
                if ((of[word[2]], name) in field)
                    field[of[word[2]], name] = 1
                else if (of[word[2]] ~ /Claims$|^EqualForms$/)
                    wrong("`" word[2] "` ." name " is cited, and " of[word[2]] " has no such field")
            }
        }
    }
    END {
        for (key in field) {
            total++
            if (!field[key]) {
                split(key, part, SUBSEP)
                wrong(part[1] " ." part[2] " is cited nowhere")
            }
        }
        if (!total)
            wrong("no record of claims in " claims)
        if (!status)
            print total " fields of the claims, each beside a sentence"
        exit status
    }' "$claims" "$page" "$demands"
