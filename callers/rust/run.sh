#!/usr/bin/env bash
# bash callers/rust/run.sh FILE: the report of a book, printed by a Rust program over the proved library. Builds both first.
set -eu
[ $# -eq 1 ] || { echo "usage: bash callers/rust/run.sh FILE" >&2; exit 2; }
here=$(cd "$(dirname "$0")" && pwd)
MELIVANOUP_LIB=$(bash "$here/../archive.sh")
export MELIVANOUP_LIB
cargo build --release --quiet --manifest-path "$here/Cargo.toml" --example report
exec "$here/target/release/examples/report" "$1"
