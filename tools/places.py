#!/usr/bin/env python3
"""Counts the places in crates/*/src that docs/DESIGN-PASS.md speaks of, point by point.

    tools/places.py [--list] [FOLDER]

FOLDER is the top of a checkout, this one where none is named. With --list each place is printed, too: its point, the kind of place, the file
and the line or the function. Comments, imports and ghost imports are left out. A line is counted once for a kind.
"""
import collections
import glob
import os
import re
import sys

# Points that a line of code shows: the kind of place, and the line.
LINES = [
    (1, "an enum that has the shape of Option or Result", r"^\s*(Refused|Broken|Failed|Unread)\b[^:]*,$"),
    (1, "a refusal made by its number", r"\bnumber: \d+|\bnumber: number\b|\bBroken\(\d+\)|\bno(_part)?\(\d+|Refused\(Refusal"),
    (1, "a number for a kind, made or asked", r"\bkind: u(8|32)\b|\bkind: \d|\bkind == |\bkind \{|^\s*\d => (size|apply|plate|place|shift|lift|change)|\bpast: (u32|\d)|\.past ==|\btag: u8\b"),
    (1, "a number that tells that there is none", r"\bdoubt\b|% 8 == 0|axis_of\(n\) == 3|^    3$|^    64$|leaving < 64|digit > 9|return 10;|^    10$|seen < 16|\(s < 16\)|\(15 < s\)|1 < v, |== 1, z"),
    (1, "a refusal passed on by hand", r"Refused\(why\) => \w+::Refused\(why\)|if let Checked::Refused"),
    (3, "a while loop", r"^\s*while "),
    (4, "bits or bytes put together by hand", r"4294967296|256 \*|/ 256|0xffff_ffff|4294967295|18_446_744_073_709_551_615|-1 - "),
    (4, "arithmetic of the library by its long name", r"std::num::wrapping_"),
    (4, "a field filled by its own name", r"^\s*(\w+): \1,$"),
    (4, "a field copied before it is used", r"^\s*let \w+ = \w+\.\w+;$"),
    (4, "a test that returns a constant", r"^\s*return (true|false);"),
    (4, "text said piece by piece", r"\bsay(_count|_whole)?\(rt, "),
    (6, "a list with how many of it are meant", r"\b(triangles|numbers|others|boxes|bounds): &(mut )?\[i32\], (many|m|n|count): usize|^\s*(many|count): usize,|: &\[i32\], (many|from): usize"),
    (6, "two arrays side by side", r"\bcoords: &('a )?(mut )?\[i32\], marks: |^\s*coords: &|marks: &mut \[i32\], table: "),
    (7, "a switch on which step to run", r"\bmatch (call|kind|tag|told)\b|Call::\w+ =>|Call::\w+,$"),
]

HEAD = re.compile(r"^\s*(?:pub(?:\([^)]*\))? )?(?:extern \"C\" )?fn (\w+)")


def code_of(path):
    """The lines of a file, with comments and imports emptied."""
    out = []
    inside = False
    for line in open(path, encoding="utf-8").read().split("\n"):
        text = line.split("//")[0].rstrip()
        if re.match(r"\s*(pub )?(ghost )?use ", text) or inside:
            inside = not text.endswith(";")
            text = ""
        out.append(text)
    return out


def functions_of(lines):
    """Each function: its name, its first line, its header (signature and clauses) and its body."""
    found = []
    i = 0
    while i < len(lines):
        m = HEAD.match(lines[i])
        if not m:
            i += 1
            continue
        indent = len(lines[i]) - len(lines[i].lstrip())
        j = i
        while j < len(lines) and lines[j] != " " * indent + "{" and not lines[j].rstrip().endswith(" {"):
            j += 1
        k = j
        while k < len(lines) and lines[k] != " " * indent + "}":
            k += 1
        found.append((m.group(1), i + 1, lines[i : j + 1], lines[j + 1 : k]))
        i = k + 1
    return found


def parameters_of(head):
    text = " ".join(head)
    depth = 0
    start = text.index("(")
    for at in range(start, len(text)):
        depth += {"(": 1, ")": -1}.get(text[at], 0)
        if depth == 0:
            break
    inner = text[start + 1 : at]
    parts = [p.strip() for p in re.split(r",(?![^\[<(]*[\]>)])", inner) if p.strip()]
    return [p for p in parts if ":" in p]


def facts_of(head):
    """What a contract takes for granted, fact by fact, with the parameters' names left out."""
    names = [p.split(":")[0].strip().removeprefix("mut ") for p in parameters_of(head)]
    facts = []
    for line in head:
        m = re.match(r"\s*requires (?:\w+ )?\{ (.*) \}$", line)
        if not m:
            continue
        for fact in re.split(r" × (?![^(]*\))", m.group(1)):
            words = re.sub(r"^\((.*)\)$", r"\1", fact.strip())
            for name in sorted(names, key=len, reverse=True):
                words = re.sub(r"(?<![\w.])" + re.escape(name) + r"(?!\w)", "_", words)
            facts.append(words)
    return set(facts)


def shape_of(body):
    """A body with each name and number by when it first stands there."""
    seen = {}
    words = []
    for word in re.findall(r"\w+|[^\s\w]", " ".join(body)):
        if re.match(r"\w", word) and word not in ("if", "else", "while", "for", "in", "match", "return", "let", "mut", "true", "false", "as"):
            word = seen.setdefault(word, f"n{len(seen)}")
        words.append(word)
    return " ".join(words)


def places_in(top):
    """All places: the point, the kind, the file, and the line or the function."""
    found = []
    shapes = collections.defaultdict(list)
    facts = collections.defaultdict(list)
    groups = collections.defaultdict(list)
    for path in sorted(glob.glob(os.path.join(top, "crates/*/src/*.rt"))):
        name = os.path.relpath(path, top)
        crate = name.split("/")[1]
        lines = code_of(path)
        for point, kind, pattern in LINES:
            for at, line in enumerate(lines, 1):
                if re.search(pattern, line):
                    found.append((point, kind, name, at))
        for function, at, head, body in functions_of(lines):
            if len(body) >= 3:
                shapes[shape_of(body)].append((name, function))
            if crate in ("bench", "further", "door_c"):
                continue
            for fact in facts_of(head):
                facts[(crate, fact)].append((name, function))
            listed = [p.removeprefix("mut ") for p in parameters_of(head)]
            for a in range(len(listed)):
                for b in range(a + 1, len(listed)):
                    groups[(crate, listed[a], listed[b])].append((name, function))
    for shape, where in shapes.items():
        if len(where) > 1:
            found += [(2, "a function of the same shape as another", n, f) for n, f in where]
    for (crate, fact), where in facts.items():
        if len(where) > 2:
            found.append((5, "a fact that three or more contracts of a crate take for granted", crate, f"{fact}  ({len(where)})"))
    for (crate, one, two), where in groups.items():
        if len(where) > 2:
            found.append((5, "two parameters that three or more functions of a crate take together", crate, f"{one}, {two}  ({len(where)})"))
    for path in glob.glob(os.path.join(top, "crates/*/proofs/**/Answers.antt"), recursive=True):
        if "/out/" in path:
            continue
        for at, line in enumerate(open(path, encoding="utf-8"), 1):
            if re.match(r"pub \S+ : goal\.", line):
                found.append((8, "an answer", os.path.relpath(path, top), at))
    return found


def main():
    arguments = [a for a in sys.argv[1:] if a != "--list"]
    top = arguments[0] if arguments else os.path.join(os.path.dirname(os.path.abspath(__file__)), "..")
    found = places_in(top)
    if "--list" in sys.argv:
        for point, kind, where, at in found:
            print(f"{point}\t{kind}\t{where}\t{at}")
    for (point, kind), many in sorted(collections.Counter(f[:2] for f in found).items()):
        print(f"{point}  {many:5}  {kind}")


main()
