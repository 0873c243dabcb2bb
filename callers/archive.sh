#!/usr/bin/env bash
# Prints the folder of libmelivanoup.a. Proves and builds the archive first where it is missing or older than its source.
# MELIVANOUP_LIB may name a folder that has an archive already; nothing is built then.
set -eu
root=$(cd "$(dirname "$0")/.." && pwd)
folder=${MELIVANOUP_LIB:-$root/crates/melivanoup/out}
archive=$folder/libmelivanoup.a
newer() { find "$root/crates" "$root/crates.txt" -name out -prune -o -type f -newer "$1" -print | head -n 1; }
if [ -z "${MELIVANOUP_LIB:-}" ]; then
    if [ ! -f "$archive" ] || [ -n "$(newer "$archive")" ]; then
        command -v rt >/dev/null || { echo "archive.sh: the Rattle kit (rt) is not on the path" >&2; exit 2; }
        echo "proving and building the library (some minutes the first time)" >&2
        rm -f "$archive"
        mkdir -p "$folder"
        (cd "$root/crates/melivanoup" && rt lib) 2>&1 | tee "$folder/log" | grep --line-buffered '^rt:' >&2 || true
    fi
fi
[ -f "$archive" ] || { echo "archive.sh: there is no $archive; see the file log beside it" >&2; exit 1; }
echo "$folder"
