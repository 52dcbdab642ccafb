#!/usr/bin/env python3
"""Brings the repository's own definitions and lemmas to snake case: `turnedOnce` and `sized-turned` become `turned_once` and `sized_turned`.

usage: python3 tools/respell.py      at the top of the repository, after the kit's own port.py; a second run changes nothing

It respells what specs/ and proofs/ of the crates declare (definitions, lemmas, fields, constructors of a table, and what stands
in a `where`, a `let`, or between brackets as a parameter), wherever it is named: in the crates' .antt and .rt files, in the must-fail
edits, and in backquotes in comments and documents. Types and modules, functions of src/, exported names, strings, goals' names and names with
an operator in them (`prove<`, `*ℤ-assoc`) stay. A law that was spelled like the word that it is about but for the hyphens gets a name of
its own, in TOGETHER.
"""
import os
import re

# Names that would fall together, and what the second of each two is called.
TOGETHER = {
    "word-pairs": "word_pairs_law",
    "start-within": "start_within_law",
    "is-of": "is_of_law",
    "checked-back": "checked_back_law",
    "triangle-test": "triangle_test_law",
    "segment-test": "segment_test_law",
    "seen-in": "seen_in_law",
    "segments-test": "segments_test_law",
    "segment-triangle-test": "segment_triangle_test_law",
    "close-test": "close_test_law",
    "triangles-test": "triangles_test_law",
    "beside-line": "beside_line_law",
    "corner-in": "corner_in_law",
    "apart-along": "apart_along_law",
    "last-signs": "last_signs_law",
    "past-no-edge": "past_no_edge_law",
    "triangle-at": "triangle_at_law",
    "is-flat": "is_flat_law",
    "plane-level": "plane_level_law",
    "by-ends": "by_ends_law",
    "segment-space-test": "segment_space_test_law",
    "is-zero": "is_zero_law",
    "slot-entry": "slot_entry_law",
    "all-on-grid": "all_on_grid_law",
    "not-flat": "never_flat",
    "all-on": "all_on_law",
    "mark-of": "mark_of_law",
    "triangles-of": "triangles_of_law",
    "far-above": "far_above_law",
    "far-below": "far_below_law",
    "number-in": "number_in_law",
    "sign-back": "sign_back_law",
    "sign-answer-back": "sign_answer_back_law",
    "value-back": "value_back_law",
    "verdict-back": "verdict_back_law",
    "example-text": "example_text_law",
    "normal-in": "normal_in_law",
    "six-of": "six_of_law",
    "slot-within": "slot_is_within",
    "part-within": "part_is_within",
    "stored-gap": "stored_gap_law",
}

# Fields among them: elsewhere a word behind a dot is a step of a proof, which has the name of a function.
FIELDS = {"not-flat", "slot-within", "part-within"}

# Laws whose spelling was right already, and is now that of the word that they are about; in a file where that word is to be respelled.
IN_FILE = {
    "crates/fields/proofs/Table.antt": ("tagFits", {"tag_fits": "tag_fits_law"}),
    "crates/listing/proofs/Unique.antt": ("answerBack", {"answer_back": "answer_back_law"}),
}

WORD = re.compile(r"(?<![\w\-'′◌<≤≡*+])[^\W\d_][\w'′]*(?:-[\w'′]+)*(?![\w\-'′◌⁻<≤≡])")
SIGNATURE = re.compile(r"^\s*(?:(?:pub|abbrev|unfoldable|let)\s+)*((?:[^\s:(){}]+\s+)*[^\s:(){}]+)\s+:(?:\s|$)")
LET = re.compile(r"\blet\s+([^\s:=(){}]+)\s+[:=]")
PARAMETERS = re.compile(r"[({]((?:[^\s:(){},]+\s+)*[^\s:(){},]+)\s+:\s")
IMPORT = re.compile(r"^\s*(?:pub\s+|ghost\s+)?use\s+([^\s{;]+)\.\{([^}]*)\}")
DOCUMENTS = ["README.md"] + sorted(os.path.join("docs", d) for d in os.listdir("docs") if d.endswith(".md") and not d.startswith("PORT"))


def files(endings):
    for folder, dirs, names in os.walk("crates"):
        dirs[:] = sorted(d for d in dirs if d != "out")
        yield from (os.path.join(folder, n) for n in sorted(names) if n.endswith(endings))


def read(path):
    with open(path, encoding="utf-8") as f:
        return f.read()


def to_respell(word):
    return word[0].islower() and ("-" in word or re.search("[a-z0-9][A-Z]", word) is not None)


def snake(word, dotted=False):
    if word in TOGETHER and (not dotted or word in FIELDS):
        return TOGETHER[word]
    return re.sub("([a-z0-9])([A-Z])", lambda m: m.group(1) + "_" + m.group(2).lower(), word.replace("-", "_"))


def declared():
    """The words that specs/ and proofs/ declare, but for the proofs of single functions, where goals have names of the kit's."""
    words = set()
    for path in files(".antt"):
        if not re.search(r"/(specs|proofs)/[^/]+\.antt$", path):
            continue
        for line in read(path).splitlines():
            if line.strip().startswith("--") or re.match(r"\s*(pub )?(use|mod) ", line):
                continue
            for found in filter(None, [SIGNATURE.match(line)]):
                words.update(found.group(1).split())
            for pattern in (LET, PARAMETERS):
                for found in pattern.finditer(line):
                    words.update(found.group(1).split())
    return {w for w in words if WORD.fullmatch(w) and to_respell(w)}


def from_a_library(text, own):
    """The words that a file takes from a library of the kit."""
    taken = set()
    for line in text.splitlines():
        found = IMPORT.match(line)
        if found and not own.match(found.group(1)):
            taken.update(w.split(" as ")[-1].strip() for w in found.group(2).split(","))
    return taken


def renamed_in(path, text):
    word, more = IN_FILE.get(path, ("", {}))
    return more if word in text else {}


def turned(text, words, more={}):
    def one(m):
        if m.group() in more:
            return more[m.group()]
        if m.group() not in words:
            return m.group()
        return snake(m.group(), m.start() > 0 and text[m.start() - 1] == ".")

    return WORD.sub(one, text)


def quoted(text, words):
    """Words in backquotes alone."""
    return re.sub(r"`[^`\n]+`", lambda m: turned(m.group(), words), text)


def source(text, words, comment, more):
    """Code without its strings and comments; in comments what is in backquotes."""
    pieces = re.split(r'("(?:[^"\\\n]|\\.)*"|' + comment + r"[^\n]*)", text)
    for i, piece in enumerate(pieces):
        if i % 2 == 0:
            pieces[i] = turned(piece, words, more)
        elif not piece.startswith('"'):
            pieces[i] = quoted(piece, words)
    return "".join(pieces)


def edit(text, words):
    """The lines of an edit that are code, and words in backquotes in the others."""
    lines = text.split("\n")
    return "\n".join(turned(l, words) if l.startswith(("old:", "new:")) else quoted(l, words) for l in lines)


def main():
    words = declared()
    # In the proof of a function a step has the name of the function that is called there, with its underscores.
    steps = {f.replace("_", "-") for p in files(".rt") for f in re.findall(r"\bfn ([a-z_0-9]+)", read(p)) if "_" in f}
    own = re.compile(r"Rattle\.(?:" + "|".join(sorted(os.listdir("crates"))) + r")\b")
    for path in list(files((".antt", ".rt", ".edit"))) + DOCUMENTS:
        text = read(path)
        if path.endswith(".edit"):
            after = edit(text, words)
        elif path.endswith(".md"):
            after = quoted(text, words)
        else:
            if re.search(r"/proofs/.+/", path):
                text_steps = re.sub(r"(?<=[\w'])\.([a-z][a-z0-9]*(?:-[a-z0-9]+)+)(?![\w-])", lambda m: "." + m.group(1).replace("-", "_") if m.group(1) in steps else m.group(), text)
            else:
                text_steps = text
            after = source(text_steps, words - from_a_library(text, own), "--" if path.endswith(".antt") else "//", renamed_in(path, text))
        if after != text:
            with open(path, "w", encoding="utf-8") as f:
                f.write(after)


if __name__ == "__main__":
    main()
