#!/usr/bin/env bash
# Every Rust crate of the repository compiles, with its tests and examples; and the tests of the reference by itself, which need no
# proved archive. Nothing else is linked, so an empty file stands for the archive.
set -eu
cd "$(dirname "$0")/.."
. tests/counting.sh
need cargo
export MELIVANOUP_LIB=$scratch
: >"$scratch/libmelivanoup.a"
while IFS= read -r crate; do
  try "$crate" cargo check --quiet --offline --all-targets --manifest-path "$crate"
done < <(find bench callers tests -name target -prune -o -name Cargo.toml -print | LC_ALL=C sort)
cargo_tests tests/reference
finish
