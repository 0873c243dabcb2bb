#!/usr/bin/env python3
"""Spells this repository's own definitions and lemmas as Rattle's library spells its: words in snake case, a dash only between
the names of two definitions (`size-words_of`), types, modules and facts as they are. Run once, right after port.py, over the
crates below the current folder; docs/PORT.md says when. Code of src/ keeps its names: only clauses and `ghost use` lines have
names of these forms. Usage: respell.py [--dry]
"""

import collections
import os
import re
import sys

TOKEN = re.compile(r"[^\s(){}.;,@\"\[\]|`]+")
DECLARED = re.compile(
    r"^\s*(?:(?:pub|abbrev|unfoldable|private)\s+)*([^\s(){}.;,@\"]+)(?: \{[^{}\n]*\})* :(?: |$)"
)
DEFINED = re.compile(r"^\s*(?:(?:pub|abbrev|unfoldable|record|data)\s+)+([^\s(){}.;,@\"]+)(?: \{[^{}\n]*\})* :")
# a `ghost use` item, and a clause with up to two levels of braces in it
CLAUSE = re.compile(r"ghost use [^;]*;|\b(?:requires|ensures)\*? (?:\w+ )?\{(?:[^{}]|\{(?:[^{}]|\{[^{}]*\})*\})*\}")
MANY = re.compile(r"^  (?:pub )?([a-z]\w*(?: [a-z]\w*)+) : ")
LABEL = re.compile(r"\bensures (\w+)_after \{")
CAMEL = re.compile(r"(?<=[a-z0-9])[A-Z]")
KIT = "/opt/rattle/rattle"
# the library has `bit_and` and `bit_or`
BY_HAND = {"bit-and": "bit-bit_and", "bit-or": "bit-bit_or"}
# fields of a record that would read like counts of the tables
BY_HAND.update({f"{one}-count": f"{one}s_counted" for one in ("name", "fact", "rule", "form", "path")})
HELD = [("crates/itemreader/specs/Held.antt", "pub item_count :", "pub items_counted :"), ("crates/bodyreader/proofs/Shapes.antt", "h.item_count", "h.items_counted"), ("crates/reader/proofs/Runs.antt", "item_count = ap", "items_counted = ap")]
FIELD = re.compile(r"^  (?:pub )?([^\s:]+) :")
DRY = "--dry" in sys.argv


def files(top, ends):
    for root, folders, names in os.walk(top):
        folders[:] = sorted(f for f in folders if f not in ("out", "target", ".git"))
        for name in sorted(names):
            if name.endswith(ends):
                yield os.path.join(root, name)


def read(path):
    with open(path, encoding="utf-8") as f:
        return f.read()


def inside(path):
    """A file of one function's proof: what it declares is its own."""
    return "/proofs/" in path and os.path.dirname(path).split("/proofs", 1)[1] != ""


def snake(name):
    return CAMEL.sub(lambda m: "_" + m[0].lower(), name)


def known_words(ours):
    words = set()
    for path in files(KIT + "/std/specs", (".antt",)):
        words.update(m[1] for l in read(path).splitlines() if (m := DEFINED.match(l)))
    for path in files(KIT + "/core/specs", (".antt",)):
        words.update(m[1] for l in read(path).splitlines() if (m := DEFINED.match(l)))
    words.update(("set", "take", "drop", "length", "get_or", "size", "cond", "not", "ltb", "leb", "eqb"))
    for path in ours:
        if "/specs/" in path:
            words.update(snake(m[1]) for l in read(path).splitlines() if (m := DEFINED.match(l)))
    return {w for w in words if "-" not in w}


def spelled(name, words):
    if name[:1].isupper() or "◌" in name:
        return name
    parts = snake(name).split("-")
    text = parts[0]
    for before, part in zip(parts, parts[1:]):
        text += ("-" if before in words and part in words else "_") + part
    return text


def replace(text, table, dotted):
    def one(m):
        new = table.get(m[0])
        if new is None or not (dotted(m[0]) or text[m.start() - 1 : m.start()] != "."):
            return m[0]
        return new

    return TOKEN.sub(one, text)


def fields_of(text):
    """The dashed fields of records."""
    found, inside_record = set(), False
    for line in text.splitlines():
        if re.match(r"(?:pub |private )*record ", line):
            inside_record = True
        elif line.strip() and not line.startswith(" "):
            inside_record = False
        elif inside_record and (m := FIELD.match(line)) and "-" in m[1]:
            found.add(m[1])
    return found


def main():
    for path, old, new in HELD:
        text = read(path)
        assert text.count(old) == 1, path
        if not DRY:
            with open(path, "w", encoding="utf-8") as f:
                f.write(text.replace(old, new))
    antt = list(files("crates", (".antt",)))
    words = known_words(antt)
    table, where = {}, collections.defaultdict(set)
    local = {}
    taken = set()
    for path in antt:
        own = {}
        for line in read(path).splitlines():
            m = DECLARED.match(line)
            if not m:
                continue
            name, type_of = m[1], line[m.end() :]
            if inside(path):
                if not type_of.lstrip().startswith("tie.") and not name.endswith("-spec"):
                    own[name] = spelled(name, words)
                continue
            taken.add(name)
            where[name].add(path)
            new = spelled(name, words)
            if new != name:
                table[name] = new
        local[path] = {a: b for a, b in own.items() if a != b}
        # several constructors of one type, in one line
        for line in read(path).splitlines():
            if (m := MANY.match(line)) and not inside(path):
                for name in m[1].split():
                    taken.add(name)
                    where[name].add(path)
                    if spelled(name, words) != name:
                        table[name] = spelled(name, words)
    table.update(BY_HAND)
    # names that fall together: the lemma that would have another's name gets `_lem`
    new_names = collections.defaultdict(list)
    for name in sorted(taken):
        new_names[table.get(name, name)].append(name)
    for new, olds in sorted(new_names.items()):
        if len(olds) > 1:
            # the definition has it
            olds.sort(key=lambda n: (not any("/specs/" in p for p in where[n]), "-" in n, n in table, n))
            if len([n for n in olds if any("/specs/" in p for p in where[n])]) > 1:
                print("both in specs:", new, [(n, sorted(where[n])) for n in olds])
            for i, old in enumerate(olds[1:]):
                table[old] = new + "_lem" + ("" if i == 0 else str(i + 1))
            print("together:", new, "<-", " ".join(olds), "->", " ".join(table.get(o, o) for o in olds))
    fields = set().union(*(fields_of(read(path)) for path in antt))
    camel = lambda name: name in fields or ("-" not in name and CAMEL.search(name) is not None)
    changed = 0
    targets = antt + list(files("crates", (".rt", ".edit")))
    for path in targets:
        text = read(path)
        mine = dict(table)
        mine.update(local.get(path, {}))
        tokens = set(TOKEN.findall(text))
        for old, new in mine.items():
            if old in tokens and new in tokens:
                print("meets:", path, old, new)
        if path.endswith(".rt") or (path.endswith(".edit") and "file: src/" in text):
            # code keeps its names: beside the names that code cannot have, only clauses and `ghost use` lines turn
            new = CLAUSE.sub(lambda m: replace(m[0], mine, camel), text)
            new = replace(new, {a: b for a, b in mine.items() if camel(a)}, camel)
        else:
            new = replace(text, mine, camel)
        if path.endswith(".rt"):
            # a clause's label that would read like a definition
            new = LABEL.sub(r"ensures new_\1 {", new)
        if new != text:
            changed += 1
            if not DRY:
                with open(path, "w", encoding="utf-8") as f:
                    f.write(new)
    spans = re.compile(r"`[^`\n]*`")
    for path in ["README.md"] + [p for p in files("docs", (".md",)) if not p.endswith("PORT.md")]:
        text = read(path)
        new = spans.sub(lambda m: replace(m[0], table, lambda n: True), text)
        if new != text and not DRY:
            with open(path, "w", encoding="utf-8") as f:
                f.write(new)
    print(len(table), "names,", changed, "files")


main()
