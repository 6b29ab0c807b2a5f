#!/usr/bin/env python3
"""Spells the repository's own definitions and lemmas as today's Rattle does.

usage: python3 tools/respell.py [--list]      at the top of the repository

A word that a file of specs/ declares (a definition, a lemma, a field, a constructor, a helper below `where`) gets snake case. A dash
stays only in a lemma's name and only between two names of definitions, as in `tally-ones`; else it becomes an underscore. Types,
modules, functions of src/, strings, inputs and outputs keep their names, and so does a word that is imported from a library. A name
that would meet another one gets `_lem`, and the script stops where two still meet. --list prints the table and writes
nothing. It serves at the commit that docs/PORT.md names; there a second run writes nothing more.
"""
import glob
import os
import re
import sys

WORD = re.compile(r'[^\s(){}.;,@"«»]+')
DECLARED = re.compile(r"^( *)(?:(?:abbrev|unfoldable|pub|data|record|let|where|mutual) +)*([^\s:(){}.;,@\"«»]+)(?: *\{[^{}\n]*\})* *:(?=\s)")
HEAD = re.compile(r"^(?:(?:abbrev|unfoldable|pub) +)*(data|record)\b")
USE = re.compile(r"\buse ([^\s;{]+)(\{[^}]*\})?")
CLAUSE = re.compile(r"(?:requires|ensures)\s*\*?\s*(?:\w+\s*)?\{|ghost\s+\w+\s*(?::|=)\s*\{")
GHOST_USE = re.compile(r"ghost\s+use\b[^;]*;")
QUIET = re.compile(r'"(?:[^"\\\n]|\\.)*"|(?<![^\s(){}.;,@"«»])--[^\n]*')
SPAN = re.compile(r"`[^`\n]*`")


def read(path):
    with open(path, encoding="utf-8") as f:
        return f.read()


def files(*patterns):
    return sorted(p for it in patterns for p in glob.glob(it, recursive=True) if os.path.isfile(p) and "/out/" not in p)


def snake(name):
    return re.sub(r"(?<=[a-z0-9])([A-Z])", lambda m: "_" + m[1].lower(), name)


def gather():
    """The words that specs/ declares: lemmas and definitions at the margin, and the others."""
    top, inner, imported = {}, set(), set()
    for path in files("crates/*/specs/**/*.antt"):
        in_type = False
        for line in read(path).split("\n"):
            m = USE.search(line)
            if m and re.match(r"\s*(?:pub )?use ", line):
                head = m[1].split(".")
                if head[0] != "Rattle" or not os.path.isdir("crates/" + head[1]):
                    imported |= {it.split(" as ")[0].strip() for it in (m[2] or "{}")[1:-1].split(",")}
                continue
            m = DECLARED.match(line)
            if not m:
                continue
            if m[1]:
                inner.add(m[2])
            else:
                top.setdefault(m[2], set()).add(path)
    return top, inner, imported


def table():
    top, inner, imported = gather()
    names = {it for it in top if "-" not in it}
    rows = {}
    for old in sorted(set(top) | inner):
        if old in imported or not re.search(r"[a-z0-9][A-Z]|-", old) or not re.match(r"[a-z]", old):
            continue
        if "-" not in old:
            rows[old] = snake(old)
            continue
        parts, new = old.split("-"), ""
        for k in range(len(parts)):
            joins = k and old in top and any("-".join(parts[:k][-n:]) in names for n in (1, 2)) and "-".join(parts[k:]) in names
            new += ("" if not k else "-" if joins and "-" not in new else "_") + snake(parts[k])
        rows[old] = new
    part(rows, set(top) | inner, imported)
    return rows, set(top) | inner, imported


def part(rows, known, imported):
    """A lemma that would have the name of a definition, or of a library's, gets `_lem`."""
    taken = {new for old, new in rows.items() if "-" not in old}
    for old in sorted(known):
        new = rows.get(old, old)
        if ("-" in old and (new in taken or new in imported or new in known and new not in rows)) or (old in taken and old not in rows):
            rows[old] = new.replace("-", "_") + "_lem"


def collisions(rows, known, imported):
    by_new = {}
    for old, new in rows.items():
        by_new.setdefault(new, set()).add(old)
    bad = {n: o for n, o in by_new.items() if len(o) > 1}
    for new, olds in by_new.items():
        if new in known and new not in rows or new in imported:
            bad.setdefault(new, set()).update(olds | {new})
    return bad


def turn_words(text, rows):
    return WORD.sub(lambda m: rows.get(m[0], m[0]), text)


def turn_antt(text, rows):
    out, at = [], 0
    for m in QUIET.finditer(text):
        out.append(turn_words(text[at : m.start()], rows))
        out.append(m[0] if m[0].startswith('"') else SPAN.sub(lambda s: turn_words_in_span(s[0], rows), m[0]))
        at = m.end()
    return "".join(out) + turn_words(text[at:], rows)


def turn_words_in_span(span, rows):
    return "`" + turn_words(span[1:-1], rows) + "`"


def turn_rt(text, rows):
    spots = []
    for m in CLAUSE.finditer(text):
        depth, k = 1, m.end()
        while depth:
            depth += {"{": 1, "}": -1}.get(text[k], 0)
            k += 1
        spots.append((m.end(), k))
    spots += [m.span() for m in GHOST_USE.finditer(text)]
    spots += [m.span() for m in re.finditer(r"//[^\n]*", text)]
    for start, end in sorted(spots, reverse=True):
        part = text[start:end]
        turned = SPAN.sub(lambda s: turn_words_in_span(s[0], rows), part) if part.startswith("//") else turn_antt(part, rows)
        text = text[:start] + turned + text[end:]
    return text


def main():
    rows, known, imported = table()
    bad = collisions(rows, known, imported)
    if "--list" in sys.argv:
        for old, new in sorted(rows.items()):
            print(old, new)
    for new, olds in sorted(bad.items()):
        print("meets:", new, *sorted(olds), file=sys.stderr)
    if bad:
        raise SystemExit(1)
    if "--list" in sys.argv:
        return
    for path in files("crates/*/specs/**/*.antt", "crates/*/proofs/**/*.antt"):
        write(path, turn_antt(read(path), rows))
    for path in files("crates/*/src/**/*.rt"):
        write(path, turn_rt(read(path), rows))
    for path in files("crates/*/must-fail/*.edit"):
        write(path, "\n".join(it if it.startswith("file:") else turn_words(it, rows) for it in read(path).split("\n")))
    for path in files("README.md", "docs/*.md", "docs/landings/*.md"):
        write(path, SPAN.sub(lambda s: turn_words_in_span(s[0], rows), read(path)))


def write(path, text):
    if read(path) != text:
        with open(path, "w", encoding="utf-8") as f:
            f.write(text)


main()
