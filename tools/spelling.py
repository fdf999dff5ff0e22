#!/usr/bin/env python3
"""Brings the repository's own names to today's spelling, by the table tools/spelling.tsv (old, a tab, new).

usage: tools/spelling.py             at the top of the repository, once, after the kit's port.py
       tools/spelling.py --dashes    the second table alone, tools/dashes.tsv
       tools/spelling.py --table     writes the first table anew from what the .antt files declare

A word is snake case: `badRows` becomes `bad_rows`, and a dash an underscore. The second table has the names of which
each part is a name of its own (`length-offsets`); a dash is left where the name without it is another's. Types and
modules keep theirs. Whole words turn: in .antt files everywhere; in .rt files, edits and pages a word with a capital
everywhere, a word with a dash in clauses, `ghost use` items, edits and code spans alone. The second table spares
comments but for their code spans, and pages that are records.
"""

import collections
import os
import re
import sys

TABLE = os.path.join(os.path.dirname(os.path.abspath(__file__)), "spelling.tsv")
DASHES = os.path.join(os.path.dirname(TABLE), "dashes.tsv")
COMMENT = re.compile(r"(?:(?<=\s)|^)(?:--|//)(?=\s).*$", re.M)
RECORDS = ("./docs/landings/", "./docs/PORT", "./CHANGELOG.md")
WORD = re.compile(r'[^\s(){}.;,@"«»`|\[\]]+')
DECLARED = re.compile(
    r"^ *(?:pub |abbrev |unfoldable |ruleset |infix[lr]? \d+ )*([^\s(){}:,;.=|]+(?: [a-z][^\s(){}:,;.=|]*)*) :(?!=)", re.M
)
USED = re.compile(r"^ *(?:ghost )?use ([\w.'+-]+)\.\{([^}]*)\}", re.M)
PATH = re.compile(r"^ *(?:ghost )?use [\w.'+-]+(?=\.\{| as |$)", re.M)
RUST_CLAUSE = re.compile(r"(?:\b(?:requires|ensures)\*?\s*(?:\w+\s*)?\{[^{}]*(?:\{[^{}]*\}[^{}]*)*\}|ghost\s+use[^;]*;|`[^`\n]*`)")
# The spelling of the library's own word, where a name here was made from the older one.
LIBRARY = {"getD": "get_or"}
# Lemmas that the kit's script gave their function's name, and functions whose name stands in proofs as a step or in a comment.
LEMMAS = ["any_at", "hold_at", "number_read", "read_number"]
STEPS = ["byte_table", "rows_short"]


def files(top, ends):
    for folder, dirs, names in os.walk(top):
        dirs[:] = sorted(d for d in dirs if d not in ("out", "target", ".git"))
        for name in sorted(names):
            if name.endswith(ends):
                yield os.path.join(folder, name)


def read(path):
    with open(path, encoding="utf-8") as f:
        return f.read()


def snake(part):
    if part in LIBRARY:
        return LIBRARY[part]
    if not part[:1].islower():
        return part
    return re.sub(r"(?<=[a-z0-9₀-₉])([A-Z])", lambda m: "_" + m[1].lower(), part)


def make_table():
    declared, imported, tokens = collections.Counter(), set(), collections.Counter()
    for path in files("crates", ".antt"):
        text = read(path)
        tokens.update(WORD.findall(PATH.sub("", text)))
        for m in USED.finditer(text):
            if not m[1].startswith("Rattle.") or m[1].startswith("Rattle.std."):
                imported.update(w.split(" as ")[0].strip() for w in m[2].split(","))
        if os.path.basename(path) == "Proof.antt":
            continue
        for m in DECLARED.finditer(text):
            declared.update(m[1].split())
    words = {n for n in declared if "-" not in n} | imported
    words |= {snake(w) for w in words}
    new = {}
    for name in declared:
        if not name[:1].islower():
            continue
        parts = [snake(p) for p in name.split("-")]
        out = ("-" if all(p in words for p in parts) else "_").join(parts)
        if out != name:
            new[name] = out
    taken = collections.Counter(new.values())
    for name, out in sorted(new.items()):
        if "-" in name and (taken[out] > 1 or out in declared):
            # A lemma that would have its function's name gets `_lem`.
            new[name] = out + "_lem"
    new.update({name: name + "_lem" for name in LEMMAS})
    taken = collections.Counter(new.values())
    for name, out in sorted(new.items()):
        if taken[out] > 1 or (out in tokens and out not in new and out not in STEPS):
            print(f"falls together: {name} -> {out}")
            del new[name]
    with open(TABLE, "w", encoding="utf-8") as f:
        for name, out in sorted(new.items()):
            f.write(f"{name}\t{out}\n")
    print(f"{len(new)} names")


def turn(text, table):
    return WORD.sub(lambda m: table.get(m[0], m[0]), text)


def turn_dashes():
    table = dict(line.split("\t") for line in read(DASHES).splitlines())

    def spans(text):
        return re.sub(r"`[^`\n]*`", lambda m: turn(m[0], table), text)

    count = 0
    for path in files(".", (".antt", ".rt", ".edit", ".md")):
        text, end, out = read(path), 0, ""
        if path.startswith(RECORDS):
            continue
        if path.endswith(".md"):
            out = spans(text)
        elif path.endswith(".edit"):
            out = turn(text, table)
        else:
            whole = path.endswith(".antt")
            for m in COMMENT.finditer(text):
                code = text[end : m.start()]
                out += (turn(code, table) if whole else code) + spans(m[0])
                end = m.end()
            out += turn(text[end:], table) if whole else text[end:]
            if not whole:
                out = RUST_CLAUSE.sub(lambda m: turn(m[0], table), out)
        if out != text:
            count += 1
            with open(path, "w", encoding="utf-8") as f:
                f.write(out)
    print(f"{count} files")


def main(argv):
    if argv == ["--table"]:
        return make_table()
    if argv == ["--dashes"]:
        return turn_dashes()
    table = dict(line.split("\t") for line in read(TABLE).splitlines())
    capitals = {a: b for a, b in table.items() if re.search(r"[a-z][A-Z]", a) and "-" not in a}
    count = 0
    for path in files(".", (".antt", ".rt", ".edit", ".md")):
        text = read(path)
        if path.endswith((".antt", ".edit")):
            out = turn(text, table)
        else:
            out, end = "", 0
            for m in RUST_CLAUSE.finditer(text):
                out += turn(text[end : m.start()], capitals) + turn(m[0], table)
                end = m.end()
            out += turn(text[end:], capitals)
        if out != text:
            count += 1
            with open(path, "w", encoding="utf-8") as f:
                f.write(out)
    print(f"{count} files")
    turn_dashes()


main(sys.argv[1:])
