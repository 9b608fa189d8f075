"""What the prover says in the log of a check, and whether it says of a declaration that a fact is not proved. A proof can also be
refused because it no longer fits its function: a field or a goal is gone, it has other arguments, or two types differ. Only these
words say that a fact is not proved; the tests have an example of each (tests/gate/run)."""

import os
import re

import tree

# A tactic finds no proof of its goal.
NO_PROOF = re.compile(
    r"`search`: no proof of `"
    r"|`omega`: (?:the goal|the part `[^`]*` of the goal) does not follow from what it read"
    r"|`omega` found no proof, and no values at which "
    r"|`rw`: no occurrence of the path's (?:left|right) endpoint in "
    r"|`simp`: no equation of the list (?:has an instance|can be applied)"
    r"|`(?:rw|simp)` has no last argument, so what it leaves must be a path whose two ends are equal, and "
    r"|`rw`: the first part of the goal that looks like an instance of this equation's side does not fit it"
    r"|`cc`: the equations do not join "
    r"|`cc` met a bound of its own before the equations had joined "
)
# Two types differ; what they compute to; and the parts in which that differs. Or two terms do, which were to be equal.
TYPES = re.compile(r"expected type `([^`]*)`,? but this has type `([^`]*)")
WHOLES = re.compile(r"computed as far as they go, the two types are `([^`]*)` \(expected\) and `([^`]*)`")
PARTS = re.compile(
    r"computed as far as they go, the two types (?:differ only|first differ) where one has `([^`]*)`.*?the other has `([^`]*)`"
)
SIDES = re.compile(r"`([^`]*)` ≟ `([^`]*)` does not hold")
# A test that does not compute to true, and one of which that is not seen: it waits on a definition that the theorem does not unfold.
TEST = re.compile(r"expected type `(?:[^`\s]*\.)?T \(([^`]*)\)`,? but this has type `(?:[^`\s]*\.)?Unit\b")
STUCK = re.compile(r"computed as far as it goes, the expected one begins |what the two types compute to is not shown")

# A goal that `search` does not prove: in a note, with its place in the source, and in the line of its function.
NOTE = re.compile(r"note: (src/[^\s:]*):(\d+):\d+: it is not proved that .*\(`([^`]*)`\)")
SEARCHED = re.compile(r"fn (\S+): no proof: .*`search` did not prove ((?:`[^`]*`(?:, )?)+)")
FALSE = "allow values at which this goal is false"
# An answer or a lemma that speaks of what the function no longer has.
LOST = re.compile(r"has no `[^`]*` that can be named|is not in scope|has no field")

BETWEEN = {"→", "≡", "≤", "<"}
EQUATIONS = {"≡", "◌≡◌", "Path"}
# Statements that a number is small: one of them can hold of two numbers.
BOUNDS = {"≤", "<", "◌≤◌", "◌<◌", "Fits"}
# A goal of a function, or a place in its code, by the name that the toolchain gives it.
GOAL = re.compile(r"\(*(?:\S*\.)?[gG]oals?\.[^\s.]+")
# A contract, or a part of one, as the toolchain reads it.
CONTRACTS = {"Pre", "Post", "Asked", "Learnt", "AllOf"}


def entries(log):
    """Each thing that a log says, on one line: a line, and the indented lines below it."""
    said = []
    for line in log.split("\n"):
        if line.startswith("  ") and said:
            said[-1] += " " + line.strip()
        else:
            said.append(line)
    return said


def head(text):
    """What a printed type or term begins with, without the modules that lead to it; or the operator between its operands. A long
    text has its middle left out."""
    text = text.split("…[")[0]
    if text.startswith("(") and tree.closing(text, 0) == len(text):
        return head(text[1:-1])
    inner = re.compile(r"[({][^(){}]*[)}]")
    while inner.search(text):
        text = inner.sub(" ", text)
    words = re.split(r"[({]", text.lstrip("( "))[0].split()
    operators = [word for word in words if word in BETWEEN]
    return operators[0] if operators else words[0].split(".")[-1] if words else ""


def is_type(text):
    word = head(text)
    return word in EQUATIONS | BOUNDS | {"→", "ℕ", "⊥"} or word[:1].isupper()


def one_statement(expected, found):
    """The two types are statements that can differ by the values alone that they speak of."""
    one, other = head(expected), head(found)
    both_equations = {one, other} <= EQUATIONS | CONTRACTS
    return both_equations or one == other and one[:1].isupper()


def fits(expected, found):
    """The proof of one type can be meant for the other: neither is a goal, which stands for a place in the code, nor a bound,
    which can be handed over for another number and hold of both."""
    return not any(head(text) in BOUNDS or GOAL.match(text) for text in (expected, found))


def failed_test(message):
    """The words of the test that does not compute to true, without the modules that lead to them; none of another message."""
    test = TEST.search(message)
    return [word.split(".")[-1] for word in test[1].split()] if test else []


def values_differ(message):
    """Of a message that two types differ: they state one thing of different values."""
    types, wholes, parts = TYPES.search(message), WHOLES.search(message), PARTS.search(message)
    if failed_test(message):
        return not STUCK.search(message)
    if not fits(types[1], types[2]):
        return False
    if parts:
        return not is_type(parts[1]) and not is_type(parts[2])
    return one_statement(*(wholes or types).groups())


def unproved(message):
    """The message says that a fact is not proved."""
    if NO_PROOF.search(message):
        return True
    if TYPES.search(message):
        return values_differ(message)
    sides = SIDES.search(message)
    return sides is not None and not is_type(sides[1]) and not is_type(sides[2])


def heading(changes):
    """The line of a log that begins what was said with these changes made."""
    return f"== with {', '.join(change.name for change in changes)}\n"


def checks(log):
    """The checks that a log has: for each, the names of the changes that were made, or none where no line names them; and each thing
    that it says."""
    found = []
    for part in re.split(r"^(?=== with )", log, flags=re.M):
        named = re.match(r"== with (.*)\n", part)
        if named or part.strip():
            found.append((named[1].split(", ") if named else None, entries(part)))
    return found


def function_at(crate, file, line):
    """The names that lead to the function of the crate that has this line; none, where none has it."""
    path = f"crates/{crate}/{file}"
    if not os.path.exists(path):
        return ""
    text = tree.read(path)
    rows = [(text.count("\n", 0, one.start) + 1, text.count("\n", 0, one.end) + 1, one) for one in tree.functions(path)]
    around = [(first, one) for first, last, one in rows if first <= line <= last]
    return "::".join(max(around, key=lambda row: row[0])[1].path) if around else ""


def spoken_of(crate, log, where):
    """What the log of a check says against the declarations of a function, or of a file of theorems: for each a declaration, words,
    and whether they say that a fact is not proved. Where an answer of the function lost what it speaks of, a goal that `search` does
    not prove may only have lost its answer: it counts if values are known at which it is false."""
    *outer, last = where.split("::")
    proof = "/".join(outer + [r"\+?" + last])
    by_hand = re.compile(rf"(?:\S*/)?proofs/{proof}(?:/(?:Proof|Answers|Invariants))?\.antt:\d+:\d+: error: `([^`]*)`: (.*)")
    lost = any(by_hand.match(entry) and LOST.search(entry) for entry in log)
    for entry in log:
        hand, note, line = by_hand.match(entry), NOTE.match(entry), SEARCHED.match(entry)
        if hand:
            yield hand[1], hand[2], unproved(hand[2])
        elif note and function_at(crate, note[1], int(note[2])) == where:
            yield note[3], entry, not lost or FALSE in entry
        elif line and line[1] == f"{crate}::{where}":
            yield from [(goal, entry, not lost) for goal in re.findall(r"`([^`]*)`", line[2])]


def against(crate, made, change):
    """What the checks that have the change say against its function, and all that they say."""
    logs = [log for names, log in made if names is None or change.name in names]
    where = change.fact.split(" ")[0]
    return [one for log in logs for one in spoken_of(crate, log, where)], [entry for log in logs for entry in log]


def fault(crate, made, change):
    """Nothing, where one of these checks refuses the fact of the change; else what is wrong."""
    where, declaration, *test = change.fact.split(" ") if " " in change.fact else (change.fact, "")
    found, entire = against(crate, made, change)
    at_fact = [(words, is_no) for one, words, is_no in found if one == declaration and (not test or failed_test(words) == test)]
    if any(is_no for _, is_no in at_fact):
        return None
    if at_fact:
        return f"its proof only no longer fits: {at_fact[0][0][:200]}"
    others = sorted({" ".join([one] + failed_test(words)) for one, words, is_no in found if is_no})
    return "nothing is refused there" + (f", but at {', '.join(others)}" if others else why_none(crate, entire, where))


def why_none(crate, entire, where):
    """What may be why nothing of the function is refused: its own last line, or the first thing that is said to be wrong."""
    of_function = [entry for entry in entire if f"`{crate}::{where}`" in entry or entry.startswith(f"fn {crate}::{where}: ")]
    wrong = [entry for entry in entire if re.match(r"\S+: error\b|.* cannot be made: |rt: the ", entry)]
    return "".join(f"; the log says: {entry[:200]}" for entry in of_function[-1:] or wrong[:1])
