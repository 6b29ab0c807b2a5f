#!/usr/bin/env python3
"""Lists the places in src/ that docs/DESIGN-PASS.md counts, a point at a time.

usage: tools/places.py [FOLDER] [--only POINT]
FOLDER is the top of a checkout (this one if none is given). Each line that is printed is a place to read, not a fault.
"""
import collections
import pathlib
import re
import sys

WORDS = {"let", "mut", "if", "return", "while", "for", "in", "match", "else", "loop", "as", "true", "false"}

# what a comment says of an answer that stands for "none"
NONE = re.compile(r"(\b(0|128|`count`|the end) (where|for)\b|\b0 and 0\b|\b0, 0\b|\b0 none\b|, 0 where|nowhere\.$|both 0)")

POINTS = {
    1: "types and answers that may be of Option's or Result's shape, and numbers for kinds",
    2: "functions whose bodies are alike but for names, numbers and strings",
    3: "loops that are no `for`",
    4: "comparisons, conversions and copies written by hand",
    5: "facts that the contracts of three or more functions ask for",
    6: "a table with its count beside it, and a buffer with a place beside it",
    7: "a choice of which step to run",
}


def sources(top):
    for path in sorted(top.glob("crates/*/src/*.rt")):
        yield path.relative_to(top), path.read_text().split("\n")


def functions(lines):
    """The functions of a file: name, number of the line, signature with clauses, body."""
    at = 0
    while at < len(lines):
        found = re.match(r"^( *)(?:pub )?(?:extern \"C\" )?fn (\w+)", lines[at])
        if not found:
            at += 1
            continue
        close = found.group(1) + "}"
        end = at
        while end < len(lines) and lines[end] != close:
            end += 1
        opens = at
        while opens < end and not (lines[opens] == found.group(1) + "{" or lines[opens].endswith(" {")):
            opens += 1
        yield found.group(2), at + 1, "\n".join(lines[at:opens + 1]), "\n".join(lines[opens + 1:end])
        at = end + 1


def shape(body):
    body = re.sub(r"//.*", "", body)
    body = re.sub(r"b?\"[^\"]*\"", "S", body)
    body = re.sub(r"b'[^']*'", "C", body)
    body = re.sub(r"[A-Za-z_]\w*", lambda m: m.group(0) if m.group(0) in WORDS else "n", body)
    return re.sub(r"\s+", "", re.sub(r"\b\d+\b", "0", body))


def point_1(top):
    for path, lines in sources(top):
        for n, line in enumerate(lines, 1):
            if re.match(r"(pub )?(struct|enum) ", line) or (line.lstrip().startswith("//") and NONE.search(line)):
                yield f"{path}:{n}: {line.strip()}"
            elif re.match(r"pub const [A-Z_]+: (usize|u64|u8) = ", line):
                yield f"{path}:{n}: {line.strip()}"


def point_2(top):
    alike = collections.defaultdict(list)
    for path, lines in sources(top):
        for name, n, _, body in functions(lines):
            if body.strip():
                alike[shape(body)].append((f"{path}:{n} {name}", body.count("\n") + 1))
    for places in alike.values():
        if len(places) > 1 and places[0][1] > 1:
            yield ", ".join(place for place, _ in places)


def point_3(top):
    for path, lines in sources(top):
        for n, line in enumerate(lines, 1):
            if re.match(r" *(while|loop) ", line):
                yield f"{path}:{n}: {line.strip()}"


def point_4(top):
    for path, lines in sources(top):
        for name, n, head, body in functions(lines):
            if re.search(r"^(same|equal|copy|convert|code|number_of|smaller|worse|\w+_number)", name) or name.startswith("same"):
                yield f"{path}:{n}: {name}"
            elif re.search(r"\[at\] = \w+\[at\]|\[at \+ i\] = \w+\[i\]|\[i\] = \w+\[i\]", body):
                yield f"{path}:{n}: {name} copies"


def point_5(top):
    asks = collections.Counter()
    for path, lines in sources(top):
        for found in re.finditer(r"requires (?:\w+ )?\{ (.*) \}", "\n".join(lines)):
            for fact in found.group(1).split(" × "):
                asks[fact.strip("() ")] += 1
    for fact, times in asks.most_common():
        if times > 2:
            yield f"{times}: {fact}"


def point_6(top):
    for path, lines in sources(top):
        for name, n, head, _ in functions(lines):
            if re.search(r": &\w* ?\[u64\][^)]*\b(count|c): ", head.replace("\n", " ").replace("'a ", "")) or re.search(r"out: &mut \[u8\],\s*at: usize", head):
                yield f"{path}:{n}: {name}"


def point_7(top):
    for path, lines in sources(top):
        for name, n, _, body in functions(lines):
            if re.search(r"match (part|block|kind|column|mention)\b", body) or body.count("text::same(word,") > 1 or body.count("same(verb,") > 1:
                yield f"{path}:{n}: {name}"


def main(words):
    only = None
    if "--only" in words:
        only = int(words.pop(words.index("--only") + 1))
        words.remove("--only")
    top = pathlib.Path(words[0] if words else pathlib.Path(__file__).resolve().parent.parent)
    for number, title in POINTS.items():
        if only not in (None, number):
            continue
        places = list(globals()[f"point_{number}"](top))
        print(f"{number}. {title}: {len(places)}")
        for place in places:
            print("   ", place)


if __name__ == "__main__":
    main(sys.argv[1:])
