#!/usr/bin/env bash
# bash bench/run.sh [BOOK ..]: the proved library, the Rust reference, SQLite and Apache Jena SHACL on the same books, side by
# side. Every answer is compared with the proved one's, byte for byte. The figures go to bench/target/figures.txt, the table to
# standard output. LIMIT: the most seconds for one system and book (default 60).
set -eu
here=$(cd "$(dirname "$0")" && pwd)
limit=${LIMIT:-60}
out=$here/target/books
figures=$here/target/figures.txt
bench=$here/target/release/bench

MELIVANOUP_LIB=$(bash "$here/../callers/archive.sh")
export MELIVANOUP_LIB
cargo build --release --quiet --manifest-path "$here/Cargo.toml"
cargo build --release --quiet --manifest-path "$here/books/Cargo.toml"
mkdir -p "$out"
books=$("$here/books/target/release/books" timed "$out")
: >"$figures"

systems="proved reference"
if version=$("$bench" sqlite); then
    systems="$systems sqlite"
    echo "SQLite $version" >&2
else
    echo "SQLite is not on this machine (libsqlite3.so.0, Debian's sqlite3): left out" >&2
fi

# Debian's jena-core has the messages of its XML parts under another name than the code looks for: they are unpacked beside it.
jars=/usr/share/java
if [ -f $jars/jena-shacl.jar ] && command -v javac >/dev/null && command -v jar >/dev/null; then
    systems="$systems jena"
    messages=$here/target/messages
    rm -rf "$messages"
    mkdir -p "$messages"
    (cd "$messages" && jar xf $jars/jena-core.jar org/apache/jena/ext/xerces && mv org/apache/jena/ext/xerces .)
    echo "Apache Jena $(cd $jars && echo jena-shacl-*.jar | sed 's/jena-shacl-//; s/\.jar//')" >&2
else
    echo "Apache Jena SHACL is not on this machine (Debian's libapache-jena-java, and a JDK): left out" >&2
fi

# prints the times of a system on a book, and leaves its report
measure() {
    if [ "$1" = jena ]; then
        mkdir -p "$out/$2"
        "$bench" turtle "$out/$2.book" "$out/$2"
        timeout "$limit" java -Xss64m -cp "$messages:$jars/*" "$here/Jena.java" "$out/$2" 10 2>"$out/$2/log" &&
            "$bench" breaks "$out/$2.book" "$out/$2/breaks" "$out/$2.jena"
    else
        timeout "$limit" "$bench" time "$1" "$out/$2.book" "$out/$2.$1"
    fi
}

differ=0
for book in ${*:-$books}; do
    for system in $systems; do
        rm -f "$out/$book.$system"
        status=0
        times=$(measure "$system" "$book") || status=$?
        case $status in
        0)
            echo "$book $system $times" | tee -a "$figures" >&2
            cmp "$out/$book.$system" "$out/$book.proved" >&2 || { echo "$book: $system and proved DIFFER" >&2; differ=1; }
            ;;
        124) echo "$book $system over $limit" | tee -a "$figures" >&2 ;;
        *) echo "$book: $system FAILED" >&2; differ=1 ;;
        esac
    done
done

sed -n 's/^model name[^:]*: */Machine: /p' /proc/cpuinfo | sort | uniq -c | sed -E 's/^ *([0-9]+) (.*)/\2, \1 cores/'
"$bench" table "$figures"
[ $differ -eq 0 ] || { echo "answers DIFFER, or a system failed"; exit 1; }
echo "all answers are equal"
