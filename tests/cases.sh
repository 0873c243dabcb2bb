#!/usr/bin/env bash
# The cases of tests/cases: books, tables and plans with the answer to each, through the proved library, which is built first
# where it is not up to date. MELIVANOUP_LIB may name a folder that has the archive already.
set -euo pipefail
cd "$(dirname "$0")/.."
. tests/counting.sh
need cargo
MELIVANOUP_LIB=$(bash callers/archive.sh) || { fail "there is no archive"; finish; }
export MELIVANOUP_LIB
# each case counts, not each file of them
cargo_tests tests/cases 's/^[a-z]+: ([0-9]+) passed, ([0-9]+) failed$/\1 \2/p'
finish
