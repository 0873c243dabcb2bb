#!/usr/bin/env bash
# docs/LAYOUT.md against the source of tables and plan: every name there with an offset, and every word there with a code, has
# that number in the source, and none is missing. A constant of the source is a number, or a sum of numbers and of the
# constants above it and of model.
set -eu
cd "$(dirname "$0")/.."

# compare WHAT PAGE SOURCE: both lists are the same
compare() {
  if [ "$2" != "$3" ]; then
    echo "docs/LAYOUT.md and the $1 of crates/tables and crates/plan differ:"
    diff <(printf '%s\n' "$2") <(printf '%s\n' "$3") || true
    exit 1
  fi
}

constants() { sed -nE 's/^pub const ([A-Z_]+): usize = ([A-Z0-9_ +*]+);.*/\1=\2/p' "$@"; }
layout="crates/tables/src/layout.rt crates/plan/src/lib.rt"
while IFS='=' read -r name sum; do
  declare "$name=$((sum))"
done < <(constants crates/model/src/lib.rt $layout)
in_source=$(for name in $(constants $layout | cut -d= -f1); do echo "$name ${!name}"; done | sort)
in_page=$(sed -nE 's/^\| `([A-Z_]+)` \| ([0-9,]+) \|.*/\1 \2/p' docs/LAYOUT.md | tr -d ',' | sort)
compare constants "$in_page" "$in_source"

# `| equal, apart | 15, 16 | .. |` in the table of form entries: FORM_EQUAL 15, FORM_APART 16; steps have no such prefix
in_page=$(awk -F ' *[|] *' '
  $3 == "Code" { prefix = $2 == "Step" ? "" : toupper($2) "_"; sub(/ .*/, "_", prefix); next }
  prefix != "-" && $3 ~ /^[0-9]/ { n = split($2, word, ", "); split($3, code, ", ")
    for (i = 1; i <= n; i++) { sub(/^a /, "", word[i]); print prefix toupper(word[i]), code[i] } }
  !NF { prefix = "-" }' prefix=- docs/LAYOUT.md | sort)
in_source=$(sed -nE 's/^pub const ([A-Z_]+): u16 = ([0-9]+);.*/\1 \2/p' crates/tables/src/codes.rt crates/plan/src/steps.rt |
  grep -vE '(UNKNOWN|LAST) |^KIND_' | sort)
compare codes "$in_page" "$in_source"
