#!/usr/bin/env python3
"""Brings the names of definitions and lemmas in specs/ and proofs/ to snake case, once, over the whole repository.

usage: python3 tools/respell.py     at the top of the repository

A name that a file of specs/ or proofs/ declares and that has a capital inside or a dash becomes its words joined by '_': unfitWidth is
unfit_width, one-more-byte is one_more_byte. Types, constructors and modules keep their capitals; functions of src/, goals and what the kit
generates keep their names. Where two names would fall together, SPLIT says what each becomes. Clauses, comments, must-fail edits and the
pages follow.
"""

import glob
import os
import re

# Two names that would be one: a lemma gives way to a definition.
SPLIT = {
    "four_bytes": "four_bytes_lem",
    "whole-bytes": "whole_bytes_lem",
    "first-line": "first_line_lem",
    "first-too-large": "first_too_large_lem",
    "too_large": "too_large_lem",
    "refused-file": "refused_file_lem",
    "own-lines": "own_lines_lem",
    "entry-offset": "entry_offset_lem",
    "byte-of": "byte_of_word_so_far",
}
# Of these, the ones that are also names of functions: where a dot stands before it the name is a function's.
AFTER_A_DOT_KEPT = {"first-too-large", "too_large", "byte-of", "first-line"}

TOKEN = re.compile(r"(\.?)([^\s(){}\[\];,.:⌜⌝⟦⟧`\"]+)")
DECLARED = re.compile(r"^\s*(?:(?:abbrev|unfoldable|ruleset|pub) )*([^\s(){}\[\];,:=]+)(?=(?:\s[^=]*)?\s:(?:\s|$))(.*)$")


def snake(name):
    return re.sub(r"(?<=[a-z0-9])([A-Z])", lambda m: "_" + m.group(1).lower(), name).replace("-", "_")


def read(path):
    with open(path, encoding="utf-8") as f:
        return f.read()


def antt_files():
    return sorted(p for p in glob.glob("crates/**/*.antt", recursive=True) if "/out/" not in p)


def declared_names():
    """The names to change, each with what it becomes."""
    names = {}
    for path in antt_files():
        lines = read(path).split("\n")
        for at, line in enumerate(lines):
            if line.lstrip().startswith(("--", "use ", "let ", "data ", "record ", "pub data", "pub record", "λ", "|")):
                continue
            m = DECLARED.match(line)
            if not m or not m.group(1)[0].islower():
                continue
            name, rest = m.group(1), m.group(2)
            if rest.strip() == ":":
                rest += lines[at + 1]
            if re.search(r"\btie\.(Need-|invariant-|decreases-)", rest):
                continue
            new = SPLIT.get(name, snake(name))
            if new != name:
                names[name] = new
    return names


def imported_from_elsewhere(text, own):
    """The names that the file takes from a library of the kit."""
    found = set()
    for m in re.finditer(r"(?m)^\s*(?:ghost )?use ([^\s{};]+)\.\{([^}]*)\}", text):
        first = m.group(1).split(".")
        if not (first[0] == "Rattle" and len(first) > 1 and first[1] in own):
            found |= {w.split(" as ")[0].strip() for w in m.group(2).split(",")}
    return found


def respelled(text, names, skip, snake_too):
    def turn(m):
        dot, name = m.group(1), m.group(2)
        if name not in names or name in skip:
            return m.group(0)
        if dot and name in AFTER_A_DOT_KEPT:
            return dot + name.replace("-", "_")
        if name in ("four_bytes", "too_large") and not snake_too:
            return m.group(0)
        return dot + names[name]

    return TOKEN.sub(turn, text)


def main():
    own = {c for c in os.listdir("crates") if os.path.isdir(os.path.join("crates", c, "src"))}
    names = declared_names()
    camel = {k: v for k, v in names.items() if "-" not in k and re.search("[A-Z]", k)}
    for path in antt_files():
        text = read(path)
        inside = path.startswith(("crates/basis/", "crates/directory/proofs/", "crates/table/proofs/", "crates/decimals/proofs/"))
        new = respelled(text, names, imported_from_elsewhere(text, own), inside)
        if new != text:
            with open(path, "w", encoding="utf-8") as f:
                f.write(new)
    # In code and in pages only the names with a capital inside are told from other words; in pages also a name in backticks.
    others = glob.glob("crates/*/src/*.rt") + glob.glob("crates/*/must-fail/*.edit") + glob.glob("docs/*.md") + ["README.md"]
    for path in sorted(others):
        text = read(path)
        new = respelled(text, camel, set(), False)
        if path.endswith((".md", ".edit")):
            new = re.sub(r"`([a-zA-Z_₀-₉-]+)`", lambda m: "`" + (names.get(m.group(1), m.group(1)) if "-" in m.group(1) else m.group(1)) + "`", new)
        if new != text:
            with open(path, "w", encoding="utf-8") as f:
                f.write(new)
    print(f"respell: {len(names)} names")


if __name__ == "__main__":
    main()
