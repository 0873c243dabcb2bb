#!/usr/bin/env bash
# Every book of tests/vectors, tests/vectors14, tests/w3c and examples through a program that reads a book and writes its report:
# what it writes must be the book's .out file, byte for byte. `rt ci` and ./validate leave the proved program where it is looked for.
# Usage: bash tests/books.sh [PROGRAM]
set -uo pipefail
cd "$(dirname "$0")/.."
. tests/counting.sh
program=${1:-crates/validate/out/validate}
need "$program"

report() {
  "$program" < "$1" | diff - "${1%.book}.out"
}

# docs/W3C.md names every W3C book and no other
named() {
  diff <(grep -o 'core/[^`]*\.book' docs/W3C.md | LC_ALL=C sort) <(cd tests/w3c && find core -name '*.book' | LC_ALL=C sort)
}

while IFS= read -r book; do
  try "$book" report "$book"
done < <(find tests/vectors tests/vectors14 tests/w3c examples -name '*.book' | LC_ALL=C sort)
try docs/W3C.md named
finish
