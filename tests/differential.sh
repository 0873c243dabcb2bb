#!/usr/bin/env bash
# The proved operations against the implementation in tests/reference, over generated books, tables and plans. Shows its progress
# and compares for at most five minutes; before that the library is proved and built if it is not up to date. MELIVANOUP_LIB may
# name a folder that has it already. The last line is 'N passed, M failed'.
# Usage: bash tests/differential.sh [BOOKS] [SEED]
set -eu
cd "$(dirname "$0")/.."
MELIVANOUP_LIB=$(bash callers/archive.sh)
export MELIVANOUP_LIB
# a book on which they differ is saved there
mkdir -p target
cargo build --release --offline --quiet --manifest-path tests/differential/Cargo.toml
exec tests/differential/target/release/differential "$@"
