#!/usr/bin/env bash
# The callers in C and Rust over the proved library, which is built first where it is not up to date: the header, both examples
# on every book of examples, the wrapper's tests, and that header and wrapper declare what the library exports
# (tests/interface). MELIVANOUP_LIB may name a folder that has the archive already.
set -euo pipefail
cd "$(dirname "$0")/.."
. tests/counting.sh
cc=${CC:-cc}
need cargo
need "$cc"
MELIVANOUP_LIB=$(bash callers/archive.sh) || { fail "there is no archive"; finish; }
export MELIVANOUP_LIB

# header LANGUAGE: the header alone, in C or C++
header() {
  echo '#include "melivanoup.h"' | "$cc" -x "$1" -std="$1"11 -Wall -Wextra -Werror -pedantic -I callers/c -fsyntax-only -
}

# report LANGUAGE BOOK: what the example prints is the book's report
report() {
  CFLAGS=-Werror bash "callers/$1/run.sh" "$2" | cmp - "${2%.book}.out"
}

try "header in C" header c
if echo | "$cc" -x c++ -fsyntax-only - 2>/dev/null; then
  try "header in C++" header c++
else
  echo "the header is not compiled in C++: no compiler"
fi
for book in examples/*.book; do
  try "C, $book" report c "$book"
  try "Rust, $book" report rust "$book"
done
cargo_tests callers/rust
cargo_tests tests/interface
grep '^interface:' "$scratch/log" || true
finish
