#!/usr/bin/env python3
"""Counts, in the sources of a commit, the places that docs/DESIGN-PASS.md speaks of: `tools/places.py COMMIT`, or of the checkout with no
commit. With --lines it shows each. The pairs of point 2 are counted by a tool that compares files (docs/DESIGN-PASS.md says how)."""

import argparse
import collections
import re
import subprocess

LINES = {
    "1 a refusal's number with numbers beside it": r"^ *(?:pub(?:\(crate\))? )?refusal: u32,",
    "1 constants of 32 bits": r"^ *(?:pub(?:\(crate\))? )?const [A-Z0-9_]+: u32",
    "1 tests for a number that is none": r"\bif (?:no|lent|early|refusal|reason|at_once|cut\.refusal) != 0 \{",
    "3 loops with a condition or none": r"^ *(?:while |loop \{)",
    "3 loops over numbers": r"^ *for \w+ in [^{]*\.\.",
    "4 numbers from bytes and back, the lesser and the greater, equality": r"% 256\)? as u8|\b(?:256|65536|4294967296) \*"
    r"|\* (?:256|65536)\b|fn (?:lesser|greater|at_least_one|is_same)\b",
    "6 local buffers": r"^ *let (?:mut )?\w+ = \[\w+; ",
    "7 parameters that choose": r"\b(?:lookup|observe|whole|white|twice|replicate|both|sparse): bool\b",
}
TOGETHER = {
    "bank, written, reasons": r"\bbank: &[^;]*\bwritten: &[^;]*\breasons: &",
    "tile, mode": r"\btile: TileDescriptor,\s*(?:tlut|tlut_fmt|mode): u32",
    "tile, mode, lane": r"\btile: TileDescriptor,\s*(?:tlut|tlut_fmt|mode): u32,\s*lane: u32",
    "entries' questions": r"\blinks: &[^;]*\bplaces: &[^;]*\bvalues: &",
    "the companion's piece": r"\bend: u64,\s*start: u64,\s*held: &",
    "a row of a source": r"\bplace: u32,\s*palette: u32,\s*start: usize",
}


def sources(commit):
    """The names and the texts of the Rattle files, or of the proofs' answers."""
    at = [commit] if commit else []
    listed = ["git", "ls-tree", "-r", "--name-only", *at, "crates/"] if commit else ["git", "ls-files", "crates/"]
    names = subprocess.run(listed, check=True, capture_output=True, text=True).stdout.split()
    for name in names:
        if name.endswith("Answers.antt") or "/src/" in name and name.endswith(".rt"):
            show = ["git", "show", f"{commit}:{name}"] if commit else ["cat", name]
            yield name, subprocess.run(show, check=True, capture_output=True, text=True).stdout


def functions(text):
    """The heads of functions: their parameters, results and clauses."""
    return re.findall(r"^ *(?:pub(?:\(crate\))? )?(?:extern \"C\" )?fn \w+.*?(?=\{$)", text, re.M | re.S)


def named(head):
    return re.search(r"fn (\w+)", head)[1]


def report(name, found, lines):
    print(f"{len(found):5} {name}")
    if lines:
        print("".join(f"        {one}\n" for one in found), end="")


parser = argparse.ArgumentParser(description=__doc__, formatter_class=argparse.RawDescriptionHelpFormatter)
parser.add_argument("commit", nargs="?")
parser.add_argument("--lines", action="store_true")
chosen = parser.parse_args()
files = dict(sources(chosen.commit))
rattle = {name: text for name, text in files.items() if name.endswith(".rt")}
rows = [(name, number, line) for name, text in rattle.items() for number, line in enumerate(text.split("\n"), 1)]
for kind, pattern in LINES.items():
    code = [row for row in rows if not re.match(r" *(?://|ghost use|requires|ensures)", row[2])]
    report(kind, [f"{name}:{number}: {line.strip()}" for name, number, line in code if re.search(pattern, line)], chosen.lines)
heads = [(name, head) for name, text in rattle.items() if "/tulonkasa/" not in name for head in functions(text)]
numbers = [f"{name}: {named(head)}" for name, head in heads if re.search(r"-> u32\b.*(?: first \(|refusal_answered|refuse)", head, re.S)]
report("1 functions that answer a refusal's number", numbers, chosen.lines)
for kind, pattern in TOGETHER.items():
    together = [f"{name}: {named(head)}" for name, head in heads if re.search(pattern, head.split(")\n")[0], re.S)]
    report(f"5 functions that take together: {kind}", together, chosen.lines)
facts = collections.Counter()
for _, text in rattle.items():
    for clause in re.findall(r"^ *requires (?:\w+ )?\{(.*?)\}$", text, re.M | re.S):
        facts[" ".join(clause.split())] += 1
repeated = {fact: count for fact, count in facts.items() if count >= 3}
report("5 facts that three or more contracts require", [f"{count} {fact}" for fact, count in repeated.items()], chosen.lines)
print(f"{sum(repeated.values()):5} 5 clauses that say them")
answers = [name for name, text in files.items() if name.endswith(".antt") for _ in re.findall(r"^pub \S+ :", text, re.M)]
print(f"{len(answers):5} 8 answers in proofs")
