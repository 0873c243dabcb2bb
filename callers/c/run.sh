#!/usr/bin/env bash
# bash callers/c/run.sh FILE: the report of a book, printed by a C program over the proved library. Builds both first.
set -eu
[ $# -eq 1 ] || { echo "usage: bash callers/c/run.sh FILE" >&2; exit 2; }
here=$(cd "$(dirname "$0")" && pwd)
lib=$(bash "$here/../archive.sh")
mkdir -p "$here/build"
"${CC:-cc}" -std=c11 -O2 -Wall -Wextra ${CFLAGS:-} -o "$here/build/report" "$here/report.c" "$lib/libmelivanoup.a"
exec "$here/build/report" "$1"
