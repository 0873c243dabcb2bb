#!/usr/bin/env bash
# Plants faults of one line (relations, constants, operators, flags, exchanged arguments, ..) in the code of the crates, each in a
# copy, and shows those with which the crate is still proved. Refusals that only say that a proof no longer fits the code, and faults
# that are no program, are counted apart; target/faults.txt lists all. FAULT_JOBS are tried at once (default 2).
# Usage: bash tests/faults.sh [N] [SEED] [CRATE..]
set -euo pipefail
cd "$(dirname "$0")/.."
n=${1:-100}
seed=${2:-1}
shift $(($# < 2 ? $# : 2))
# a program is no library
[ $# -gt 0 ] || set -- $(printf '%s\n' crates/*/src/lib.rt | cut -d/ -f2)
# each is checked over what its last check kept, and over the libraries that this builds
for crate in "$@"; do
  said=$(cd "crates/$crate" && rt check | grep '^logic=proved ') || { echo "crates/$crate is not proved as it is"; exit 1; }
  echo "$crate: $said"
done
cargo build --release --offline --quiet --manifest-path tests/faults/Cargo.toml
mkdir -p target
room=$(mktemp -d)
trap 'rm -rf "$room"' EXIT
tests/faults/target/release/faults "$(dirname "$(rt doc)")" "$room" "$n" "$seed" "$@"
