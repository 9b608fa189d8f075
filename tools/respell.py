#!/usr/bin/env python3
"""Brings the library's own definitions and lemmas to the spelling of today's Rattle. Run once, at the top of the checkout, right after
the toolchain's port.py: `python3 tools/respell.py`.

respell.tsv beside it has a row a name: old, new, and whether it is a field of a record, a definition or lemma, or both. Words are in
snake case; a dash stays only between two names. Where a lemma's name would fall together with a definition's it ends in `_lem`.
Functions of src/, exported C names, strings, inputs and outputs are left alone: no name of the table is one of those."""

import os
import re
import sys

HERE = os.path.dirname(os.path.abspath(__file__))
FUNCTION_PROOFS = ("Proof.antt", "Answers.antt", "Invariants.antt")
NAME = re.compile(r"(?<![\w'′-])[A-Za-z][\w'′]*(?:-[\w'′]+)*(?![\w'′-])")
# Names that port.py respelled, and that fall together with a definition's: file or folder, pattern, new text.
TOGETHER = [
    ("crates/key/proofs/", r"(?<![\w'.-])kept_by(?![\w'-])", "kept_by_lem"),
    ("crates/rules/proofs/LoadsWorked.antt", r"^(pub )?made_up(?= [:=])", r"\1made_up_lem"),
    ("crates/rules/must-fail/", r"LoadsWorked made[-_]up(?![\w'-])", "LoadsWorked made_up_lem"),
    ("docs/", r"LoadsWorked\.made[-_]up(?![\w'-])", "LoadsWorked.made_up_lem"),
    ("crates/roundtrip/proofs/Word.antt", r"(?<![\w'.-])split_at(?![\w'-])", "split_at_lem"),
]


def table():
    with open(os.path.join(HERE, "respell.tsv"), encoding="utf-8") as rows:
        for row in rows:
            old, new, kind = row.rstrip("\n").split("\t")
            yield old, (new, kind)


ROWS = dict(table())


def is_of_value(text, start):
    """The name stands after a dot, and what is before the dot is no module: it names a field."""
    if text[start - 1 : start] != ".":
        return False
    before = re.search(r"([\w'′-]*)\.$", text[:start])
    return not before[1][:1].isupper()


def turn(text, in_function_proof, old_names=lambda name: True):
    """The text with each name of the table in its new spelling."""

    def new(match):
        name = match[0]
        if name not in ROWS or not old_names(name):
            return name
        spelled, kind = ROWS[name]
        if in_function_proof and kind == "top" and is_of_value(text, match.start()):
            return name
        if kind == "both" and is_of_value(text, match.start()):
            return spelled.removesuffix("_lem")
        return spelled

    return NAME.sub(new, text)


def by_line(text, turned):
    return "".join(turned(line) for line in text.splitlines(keepends=True))


def quoted(line):
    return re.sub(r"`[^`]*`", lambda match: turn(match[0], False), line)


def antt_line(line, in_function_proof):
    at = re.search(r"(?:^|\s)-- ", line)
    code, comment = (line[: at.start()], line[at.start() :]) if at else (line, "")
    comment = quoted(turn(comment, False, lambda name: "-" not in name))
    return turn(code, in_function_proof) + comment


def rust_line(line):
    if line.lstrip().startswith("//"):
        return turn(line, False, lambda name: "-" not in name)
    return turn(line, False)


def edit_line(line):
    return turn(line, False) if re.match(r"(fact|old|new): ", line) else line


def respelled(path, text):
    name = os.path.basename(path)
    for where, pattern, new in TOGETHER:
        if path.startswith(where):
            text = re.sub(pattern, new, text, flags=re.M)
    if name.endswith(".antt"):
        return by_line(text, lambda line: antt_line(line, name in FUNCTION_PROOFS))
    if name.endswith(".rt"):
        return by_line(text, rust_line)
    if name.endswith(".edit"):
        return by_line(text, edit_line)
    return by_line(text, quoted)


def files():
    for top in ("crates", "docs"):
        for folder, folders, names in os.walk(top):
            folders[:] = sorted(one for one in folders if one != "out")
            yield from (os.path.join(folder, name) for name in sorted(names) if name.endswith((".antt", ".rt", ".edit", ".md")))
    yield "README.md"


def main():
    changed = 0
    for path in files():
        with open(path, encoding="utf-8") as file:
            old = file.read()
        new = respelled(path, old)
        if new != old:
            changed += 1
            with open(path, "w", encoding="utf-8") as file:
                file.write(new)
    print(f"respell: {changed} files")


if __name__ == "__main__":
    sys.exit(main())
