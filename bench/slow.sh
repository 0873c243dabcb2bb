#!/usr/bin/env bash
# bash bench/slow.sh [BOOK ..]: books made to be slow, by paths that repeat or by classes under classes. For each the milliseconds
# of a whole run, the best of three, and where the library is built already of the slowest direct verdict and of the slowest
# questions for rounds and for the nearest spare. The report must be the reference's. PROGRAM names the program (default
# crates/validate/out/validate); nothing of it is built or proved here.
set -eu
here=$(cd "$(dirname "$0")" && pwd)
program=${PROGRAM:-$here/../crates/validate/out/validate}
export MELIVANOUP_LIB=${MELIVANOUP_LIB:-$here/../crates/melivanoup/out}
out=$here/target/slow
[ -x "$program" ] || { echo "slow.sh: there is no $program" >&2; exit 2; }

build() {
    cargo build --release --offline --quiet --manifest-path "$1/Cargo.toml"
}

build "$here/books"
build "$here/../tests/reference"
questions=
if [ -f "$MELIVANOUP_LIB/libmelivanoup.a" ]; then
    build "$here"
    questions=$here/target/release/bench
fi
mkdir -p "$out"
books=$("$here/books/target/release/books" slow "$out")

# microseconds as milliseconds
ms() {
    printf '%d.%d' $(($1 / 1000)) $(($1 % 1000 / 100))
}

wrong=0
echo "| Book | ms | slowest verdict, ms | slowest rounds, ms | slowest nearest, ms |"
echo "|---|---|---|---|---|"
for book in ${*:-$books}; do
    best=
    for _ in 1 2 3; do
        begun=${EPOCHREALTIME/./}
        "$program" <"$out/$book.book" >"$out/$book.out" || { echo "$book: the program FAILED" >&2; wrong=1; }
        took=$((${EPOCHREALTIME/./} - begun))
        [ -n "$best" ] && [ "$best" -le $took ] || best=$took
    done
    "$here/../tests/reference/target/release/report" <"$out/$book.book" | cmp - "$out/$book.out" >&2 ||
        { echo "$book: the reports DIFFER" >&2; wrong=1; }
    verdict=
    rounds=
    nearest=
    if [ -n "$questions" ]; then
        verdict=$(ms "$("$questions" verdicts "$out/$book.book")")
        rounds=$(ms "$("$questions" rounds "$out/$book.book")")
        nearest=$(ms "$("$questions" nearest "$out/$book.book")")
    fi
    echo "| $book | $(ms "$best") | $verdict | $rounds | $nearest |"
done
[ $wrong = 0 ] || { echo "a report differs, or the program failed"; exit 1; }
