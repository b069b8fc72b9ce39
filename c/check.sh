#!/bin/sh
# The tests from outside, with no part of the gate: check.sh [CALLS]
# The headers and each field of each result under every standard that gcc and clang have; the archive's names; local
# arrays with little memory; the constant tables against the generator, where rt run has built it in crates/tables; the
# program without standard input, where rt run has built it in crates/rollback; every call between guard pages and, where
# valgrind is present, under it, CALLS times each (100,000); the stack that rollback.h states; the C and the Rust example
# on the same inputs, as a plan, as a plan with little memory and as a page, and those that find a reverse; README's
# example and docs/FORMAT.md's bytes, page and answers of finding. Its last line says it all.
set -eu
cd "$(dirname "$0")/.."
calls=${1:-100000}
archive=target/staticlib/libplanner.a
cases=crates/case_vectors/data/cases.bin
data=crates/rollback/data
[ -r "$archive" ] || { echo "no $archive: c/archive.sh writes it" >&2; exit 2; }
strict='-Wall -Wextra -Wpedantic -Wconversion -Werror'
work=$(mktemp -d)
part=start
trap 'status=$?; rm -rf "$work"; [ $status -eq 0 ] || echo "c/check.sh: FAILED at: $part"' EXIT
said=''
say() { echo "$1"; said="$said${said:+; }$1"; }

# Builds and runs c/header.c by a compiler in the standards that it has.
headers() { # compiler, language, standards
    ! command -v "$1" >/dev/null && return
    for standard in $3; do
        part="headers, $1 -std=$standard"
        echo 'int main(void) { return 0; }' >"$work/empty.c"
        "$1" -x "$2" "-std=$standard" -fsyntax-only "$work/empty.c" 2>/dev/null || continue
        # shellcheck disable=SC2086
        "$1" -x "$2" "-std=$standard" $strict -Iinclude -o "$work/header" c/header.c -x none "$archive"
        "$work/header"
        done_in=$((done_in + 1))
    done
}
c='c89 c99 c11 c17 c2x'
cxx='c++98 c++11 c++14 c++17 c++20 c++2b'
compilers=''
for pair in 'gcc g++' 'clang clang++'; do
    done_in=0
    headers "${pair% *}" c "$c"
    headers "${pair#* }" c++ "$cxx"
    [ $done_in -eq 0 ] || compilers="$compilers${compilers:+, }${pair% *} $done_in"
done
part='headers'
[ -n "$compilers" ]
say "headers in C89 to C23 and C++98 to C++23 ($compilers standards)"

part='version'
grep -qx "version = \"$(sed -n 's/^#define ROLLBACK_VERSION "\(.*\)"$/\1/p' include/rollback.h)\"" rust/Cargo.toml

# The bytes that docs/FORMAT.md takes apart are those of the files.
part='docs/FORMAT.md'
bytes_between() { sed -n "/^$1/,/^$2/p" docs/FORMAT.md | grep -o '`[0-9a-f][0-9a-f ]*`' | tr -d '` \n'; }
bytes_of() { od -An -v -tx1 "$1" | tr -d ' \n'; }
[ "$(bytes_between '### Q, ' '## A run')" = "$(bytes_of $data/book.bin)" ]
[ "$(bytes_between 'Q5, ' 'A history')" = "$(bytes_of $data/run.bin)" ]
# The ring: its device, first and last move.
ring=$work/ring
printf '\2\0\1\0\10\2' >"$ring"
for move in $(seq 0 15); do
    state=$((move / 2)) command=$((move % 2))
    to=$(((state + command + 1) % 8))
    # shellcheck disable=SC2059
    printf "\\12\\0\\2\\0\\$state\\$command\\$(printf %o $((1 << to)))\\0\\0\\0\\0\\0\\0\\0" >>"$ring"
done
[ "$(wc -c <"$ring")" -eq 230 ]
(head -c 20 "$ring"; tail -c 14 "$ring") >"$work/ends"
[ "$(bytes_between '## Finding' '## What')" = "$(bytes_of "$work/ends")" ]

part='names'
c/names.sh "$archive"
say '11 names'

part='sentences and claims'
c/demands.sh
say 'each field of the claims beside a sentence'

part='constant tables'
if [ -x crates/tables/out/tables ]; then
    crates/tables/make.sh --check
    say 'constant tables as generated'
else
    say 'no crates/tables/out/tables'
fi

part='local arrays'
c/arrays.sh
say 'local arrays of 64 at most'

# Its files then have the number 0.
part='the program without standard input'
if [ -x crates/rollback/out/rollback ]; then
    program=$PWD/crates/rollback/out/rollback
    (cd $data && "$program" <&-) >"$work/out"
    printf '0 0 1 1\n0\n' | cmp - "$work/out"
    say 'the program without standard input'
else
    say 'no crates/rollback/out/rollback'
fi

part='build'
for program in plan find guard stack; do
    # shellcheck disable=SC2086
    ${CC:-cc} -std=c99 -O2 $strict -Iinclude -o "$work/$program" "c/$program.c" "$archive" -lpthread
done

part='guard pages'
"$work/guard" pages "$cases" "$calls" >"$work/out" || { cat "$work/out"; exit 1; }
cat "$work/out"
say "between guard pages $(tail -n 1 "$work/out")"

part='valgrind'
if command -v valgrind >/dev/null; then
    valgrind -q --error-exitcode=9 "$work/guard" heap "$cases" "$calls" >"$work/out" || { cat "$work/out"; exit 1; }
    say "under valgrind $(tail -n 1 "$work/out"), lent buffers uninitialised"
else
    say 'no valgrind'
fi

part='stack'
"$work/stack" "$cases"
say 'stack as stated'

# The two examples on the same files: status, standard output and error.
part='examples'
byte() { # file, offset, value in octal: the file with that byte changed
    head -c "$2" "$1"; printf "\\$3"; tail -c +"$(($2 + 2))" "$1"
}
into() { # file, offset, bytes as printf takes them: the file with these put in
    head -c "$2" "$1"; printf "$3"; tail -c +"$(($2 + 1))" "$1"
}
q=$data/book.bin
mkdir "$work/in"
cp "$q" "$data/run.bin" "$work/in"
(
    : >"$work/in/2-empty"
    head -c 103 "$q" >"$work/in/2-cut"
    byte "$q" 36 7 >"$work/in/3-kind"
    byte "$q" 2 2 >"$work/in/3-first"
    byte "$q" 34 13 >"$work/in/4-length"
    byte "$q" 129 25 >"$work/in/4-item"
    byte "$q" 10 5 >"$work/in/5-field"
    byte "$q" 39 1 >"$work/in/6-rising"
    head -c 6 "$q" >"$work/in/7-items"
    for i in $(seq 65); do tail -c +179 "$q" | head -c 23; done >>"$work/in/7-items"
    byte "$q" 145 3 >"$work/in/8-stays"
    byte "$q" 137 1 >"$work/in/12-phi"
    byte "$q" 145 0 >"$work/in/12-psi"
    byte "$q" 217 6 >"$work/in/12-stuck"
    into "$q" 20 '\6\0\5\0\2\0\2\0\2\0' >"$work/in/3-weights"
    into "$q" 6 '\4\0\5\0\2\0\2\0' >"$work/in/4-weights"
    into "$q" 6 '\6\0\5\0\1\0\1\0\351\3' >"$work/in/5-weights"
    into "$q" 6 '\6\0\5\0\1\0\1\0\1\0' >"$work/in/13-ones"
    into "$q" 6 '\6\0\5\0\5\0\1\0\350\3' >"$work/in/book-weights"
)
printf '\11\0\4\0\0\0\0\0\0\0\0\0\0' >"$work/in/run-10"
printf '\22\0\4\0\1\1\7\0\0\0\0\0\0\0\7\0\0\0\0\0\0\0' >"$work/in/run-11"
printf '\33\0\4\0\2\1\1\1\0\0\0\0\0\0\0\7\0\0\0\0\0\0\0\7\0\0\0\0\0\0\0' >"$work/in/run-q8"
printf '\11\0\4\0\0\7\0\0\0\0\0\0\0' >"$work/in/run-q11"
if command -v cargo >/dev/null; then
    cargo build -q --release --manifest-path rust/Cargo.toml --example plan --example find --example ridge
    rust=rust/target/release/examples
    tried=0
    # Without an option, with --small and with --page: one status, the same words. With little memory the plan is
    # the same. A page has lines of 40 characters, and the commands down the page are the plan.
    try() { # status, arguments
        expected=$1
        shift
        for option in '' --small --page; do
            part="examples: $option $*"
            status=0; "$work/plan" ${option:+"$option"} "$@" >"$work/c.out" 2>"$work/c.err" || status=$?
            [ $status -eq "$expected" ] || { echo "C: status $status"; cat "$work/c.out" "$work/c.err"; exit 1; }
            status=0; $rust/plan ${option:+"$option"} "$@" >"$work/rust.out" 2>"$work/rust.err" || status=$?
            [ $status -eq "$expected" ] || { echo "Rust: status $status"; cat "$work/rust.out" "$work/rust.err"; exit 1; }
            cmp "$work/c.out" "$work/rust.out"
            cmp "$work/c.err" "$work/rust.err"
            if [ "$expected" -ne 0 ]; then
                [ -s "$work/c.err" ]
                [ ! -s "$work/c.out" ]
            fi
            [ -n "$option" ] || { cp "$work/c.out" "$work/plan.out"; cp "$work/c.err" "$work/plan.err"; }
            [ "$option" != --small ] || cmp "$work/plan.out" "$work/c.out"
            cmp "$work/plan.err" "$work/c.err"
        done
        tried=$((tried + 1))
        if [ "$expected" -eq 0 ]; then
            [ -z "$(grep -v '^.\{40\}$' "$work/c.out")" ]
            [ "$(sed -n '1s/^send \(nothing\)\{0,1\}//p' "$work/plan.out")" = "$(cut -c 17- "$work/c.out" | xargs)" ]
        fi
    }
    in=$work/in
    try 0 "$in/book.bin" "$in/run.bin"
    try 0 "$in/book.bin" "$in/run-q8"
    part='docs/FORMAT.md: the page'
    sed -n '/^## A page/,/^## /p' docs/FORMAT.md | sed -n 's/|$//p' | grep -v '^|' >"$work/page.txt"
    diff "$work/page.txt" "$work/c.out"
    try 0 "$in/book.bin" "$in/run-q11"
    try 0 "$in/book-weights" "$in/run.bin"
    for book in "$in"/[0-9]*-*; do
        try 1 "$book" "$in/run.bin"
        code=${book##*/}
        grep -q "(code ${code%%-*})" "$work/c.err"
        sed "s|$in/||" "$work/c.err"
    done
    try 1 "$in/book.bin" "$in/2-cut"
    try 1 "$in/book.bin" "$in/run-10"
    try 1 "$in/book.bin" "$in/run-11"
    try 2
    try 2 "$in/book.bin"
    try 2 "$in/book.bin" "$in/run.bin" "$in/run.bin"
    try 2 "$in/book.bin" "$in/run.bin" --page
    try 2 "$in/book.bin" "$in/run.bin" --small
    try 2 "$in/missing" "$in/run.bin"
    try 2 "$in/book.bin" "$in/missing"
    try 2 "$in" "$in/run.bin"
    # Files without an end, and a book of which one byte more would give another code, 7.
    try 1 /dev/zero "$in/run.bin"
    try 1 "$in/book.bin" /dev/zero
    try 1 crates/rollback_folders/data/book_31180/book.bin "$in/run.bin"
    grep -q '(code 2)' "$work/c.err"
    # Where the plan can't be written: one status, the same words.
    mkfifo "$work/closed"
    for program in "$work/plan" $rust/plan; do
        for option in '' --small --page; do
            part="examples: $program $option, full disk"
            status=0; "$program" ${option:+"$option"} "$in/book.bin" "$in/run.bin" >/dev/full 2>"$work/err" || status=$?
            [ $status -eq 2 ]
            echo 'standard output: No space left on device' | cmp - "$work/err"
            part="examples: $program $option, closed pipe"
            # The plan is printed only after the reader has gone.
            {
                read -r gone <"$work/closed"
                status=0; "$program" ${option:+"$option"} "$in/book.bin" "$in/run.bin" 2>"$work/err" || status=$?
                echo "$gone $status" >"$work/status"
            } | { exec <&-; echo gone >"$work/closed"; }
            [ "$(cat "$work/status")" = 'gone 2' ]
            echo 'standard output: Broken pipe' | cmp - "$work/err"
        done
    done
    say "C and Rust example alike on $tried inputs, plan, with little memory too, and page, and on a full disk and a closed pipe"

    # The two that find a reverse: one status, the same words.
    sought=0
    find() { # status, output or a part of the error's words, arguments
        expected=$1 answer=$2
        shift 2
        part="examples: find $*"
        for program in "$work/find" $rust/find; do
            status=0; "$program" "$@" >"$work/out" 2>"$work/err" || status=$?
            [ $status -eq "$expected" ] || { echo "$program: status $status"; cat "$work/out" "$work/err"; exit 1; }
            if [ "$expected" -eq 0 ]; then
                [ "$(cat "$work/out")" = "send $answer" ]
                [ ! -s "$work/err" ]
            else
                [ ! -s "$work/out" ]
                [ "$(grep -cF "$answer" "$work/err")" -eq 1 ]
            fi
            [ "$program" != "$work/find" ] || cp "$work/err" "$work/c.err"
            cmp "$work/c.err" "$work/err"
        done
        sought=$((sought + 1))
    }
    # What docs/FORMAT.md says is found.
    sed -n '/^## Finding/,/^## What/s/^| \([Qr][^|]*\) | \([^|]*\) | \([^|]*\) | \([^|]*\) | \([^|]*\) | .*/\1;\2;\3;\4;\5/p' \
        docs/FORMAT.md >"$work/found"
    while IFS=';' read -r book forward phi psi answer; do
        file=$q
        [ "$book" != ring ] || file=$ring
        # shellcheck disable=SC2086
        case $answer in
            code*) find 1 "($answer)" "$file" "$phi" "$psi" $forward ;;
            *) find 0 "$answer" "$file" "$phi" "$psi" $forward ;;
        esac
    done <"$work/found"
    [ "$sought" -eq 14 ]
    for book in "$in"/[0-9]*-*; do
        code=${book##*/}
        find 1 "(code ${code%%-*})" "$book" 8 7 3
    done
    cat "$q" >"$work/q3"
    printf '\24\0\3\0\1\1\2\2\7\0\0\0\0\0\0\0\7\0\0\0\0\0\0\0' >>"$work/q3"
    find 1 'item 5 (record at 225): the reverse commands can get stuck' "$work/q3" 8 7 3
    find 1 '(code 14)' "$q" 7 7
    find 1 '(code 14)' "$q" 7 7 0 0 0 0 0 0 0 0 0
    find 1 '(code 14)' "$q" 18446744073709551615 0xffffffffFFFFFFFF 255
    find 0 nothing "$q" 0x7 0x2 0x1
    for wrong in '' 7 '7 7 256' '7 7 -1' '7 +7 1' '7 7 1a' '0x 7 1' '18446744073709551616 7 1' '0x10000000000000000 7 1'; do
        # shellcheck disable=SC2086
        find 2 'usage: find BOOK PHI PSI COMMAND...' "$q" $wrong
    done
    find 2 'No such file or directory' "$in/missing" 7 7 1
    for program in "$work/find" $rust/find; do
        part="examples: $program, full disk"
        status=0; "$program" "$q" 7 7 2 >/dev/full 2>"$work/err" || status=$?
        [ $status -eq 2 ]
        echo 'standard output: No space left on device' | cmp - "$work/err"
    done
    say "C and Rust example of finding alike on $sought inputs, and answers as in docs/FORMAT.md"

    part='crate without std'
    cargo build -q --release --manifest-path rust/Cargo.toml --no-default-features --lib

    part='documents of the crate'
    for features in '' --no-default-features; do
        # shellcheck disable=SC2086
        RUSTDOCFLAGS='-D warnings' cargo doc -q --manifest-path rust/Cargo.toml --no-deps $features
    done

    part='README: the ridge example'
    $rust/ridge "$work/ridge" >"$work/ridge.txt"
    sed -n '/^The book: the ridge repeater/,/^```$/p' README.md | sed '$d' >"$work/readme.txt"
    diff "$work/readme.txt" "$work/ridge.txt"
    find 0 '8 1 9' "$work/ridge/book.bin" 0xffffffffffffffff 0x22220000 2
    try 0 "$work/ridge/book.bin" "$work/ridge/run.bin"
    part='README: the page'
    sed 's/ *$//' "$work/c.out" >"$work/page.txt"
    sed -n '/^  1  3  2/,/^```$/p' README.md | sed '$d' | diff - "$work/page.txt"
    say "crate without std; its documents; README's example as printed"
else
    say 'no cargo'
fi
part=done
echo "c/check.sh: passed: $said"
