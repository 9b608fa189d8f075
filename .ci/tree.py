"""What the gate's scripts read of a tree: its crates, the functions and other items of its Rattle files, the declarations of its
antt files, and the changes that its must-fail edits make."""

import functools
import glob
import os
import re
import sys
from typing import NamedTuple

# Text in which a bracket or a word means nothing: comments, strings, characters and bytes.
QUIET = re.compile(r"//[^\n]*|/\*.*?\*/|\bb?\"(?:\\.|[^\"\\])*\"|\"(?:\\.|[^\"\\])*\"|(?:\bb)?'(?:\\[^']+|[^'\\\n])'", re.S)
# What stands in angle brackets, which may hold two more pairs of them: `From<Result<Option<Fault>, Refusal>>`.
ANGLES = r"(?:<(?:[^<>]|<(?:[^<>]|<[^<>]*>)*>)*>)?"
SCOPE = re.compile(rf"\b(?:impl\b\s*{ANGLES}\s*(?:[\w:]+\s*{ANGLES}\s+for\s+)?(\w+)\s*{ANGLES}|mod\s+(\w+))\s*\{{")
FUNCTION = re.compile(r'(?:\b(pub)(\s*\([^)]*\))?\s+)?(?:(?:const|unsafe|extern\s+"C")\s+)*\bfn\s+(\w+)')
# What can follow a function's parameters: a clause, which can have a star and a name, an array's type, its body, or the end of one
# without a body.
AFTER = re.compile(r"\b(requires|ensures|ghost)\b(\*?)(?:\s+\w+)?\s*\{|[\[{;]")
ITEM = re.compile(r"\b(struct|enum|const|type|mod|trait|fn)\s+(?!fn\b)(\w+)")
# What an antt file brings from a crate of the repository: the crate, specs or proofs, the module, and the names where they are
# listed.
USED = re.compile(r"^ *(?:pub )?use Rattle\.(\w+)\.(specs|proofs)\.([^\s{]+?)(?:\.{(?:(.*)})?.*|\s.*)?$", re.M)
NAMED = re.compile(r"(?:^|[,{(])\s*(?:pub(?:\s*\([^)]*\))?\s+)?(?:mut\s+)?(\w+)\s*:(?!:)")
DECLARED = re.compile(
    r"(?:unfoldable )?(?:abbrev )?(?:axiom )?(?:pub )?"
    r"(?:(?:record|data|mod|ruleset) «?([^\s«»:]+)»?|«?([^\s«»:]+)»? :(?=\s|$))"
)


def enter(root=None):
    """Goes to the tree to read: the one that is named, or the repository that has this file."""
    os.chdir(root or os.path.join(os.path.dirname(os.path.abspath(__file__)), ".."))


def read(path):
    with open(path, encoding="utf-8", errors="replace") as file:
        return file.read()


def write(path, text):
    with open(path, "w", encoding="utf-8") as file:
        file.write(text)


def listed():
    """What crates.txt lists, in its order: for each crate the libraries that it names."""
    lines = [line.split("#")[0].partition(":") for line in read("crates.txt").split("\n")]
    return {named.split()[0]: libraries.split() for named, _, libraries in lines if named.strip()}


def crates():
    """The crates that crates.txt lists, in its order."""
    return list(listed())


def named(names):
    """The crates of these names, or all where there is no name."""
    unknown = [name for name in names if name not in crates()]
    if unknown:
        sys.exit(f"{sys.argv[0]}: crates.txt lists no crate {unknown[0]}")
    return names or crates()


def needed(crate):
    """The crates of the repository that a crate needs, those below first, and itself last."""
    found = []
    for name in [one for one in listed()[crate] if one in listed()]:
        found += [one for one in needed(name) if one not in found]
    return found + [crate]


def sources(crate):
    """The Rattle files of a crate."""
    return sorted(glob.glob(f"crates/{crate}/src/**/*.rt", recursive=True))


def module(path):
    """The names that lead to a source file's items in its crate: none for lib.rt or main.rt."""
    names = path[: -len(".rt")].split("/")[3:]
    return [] if names in (["lib"], ["main"]) else names


def bare(text):
    """A text of Rattle or Rust with what is quiet blanked, each character where it was. A string without a bracket stays."""
    blanked = lambda quiet: quiet if re.fullmatch(r'"[^(){}\[\];]*"', quiet) else re.sub(r"[^\n]", " ", quiet)
    return QUIET.sub(lambda quiet: blanked(quiet[0]), text)


def closing(text, opening):
    """Where what follows the bracket that closes this one starts."""
    pair, depth = {"(": "()", "[": "[]", "{": "{}"}[text[opening]], 0
    for mark in re.finditer(r"[()\[\]{}]", text[opening:]):
        if mark[0] in pair:
            depth += 1 if mark[0] == pair[0] else -1
        if depth == 0:
            return opening + mark.end()
    return len(text)


def parts(text):
    """The parts of a bare text between its commas, those inside brackets aside."""
    found, start, place = [], 0, 0
    for mark in re.finditer(r"[,(\[{]", text):
        if mark.start() < place:
            continue
        if mark[0] == ",":
            found.append(text[start : mark.start()])
            start = mark.end()
        else:
            place = closing(text, mark.start())
    return [part.strip() for part in found + [text[start:]] if part.strip()]


class Function(NamedTuple):
    """A function of a source file. The numbers are places in the file's text."""

    path: list  # the names that lead to it in its crate
    public: bool
    parameters: list
    lent: list  # the places, from 0, of the parameters that are lent to be written
    answers: bool
    clauses: list  # pairs: requires, ensures or ghost, with its star if it has one, and the clause's text on one line
    start: int
    body: int
    end: int


def scopes(text):
    """The named blocks of a bare text: where each starts and ends, and its name."""
    return [(part.start(), closing(text, part.end() - 1), part[1] or part[2]) for part in SCOPE.finditer(text)]


def within(blocks, place):
    """The names of the blocks around a place, the outermost first."""
    return [name for start, end, name in blocks if start < place < end]


def head(text, place):
    """What stands between a function's parameters and its body: the clauses, and where the body starts and ends."""
    clauses = []
    while True:
        part = AFTER.search(text, place)
        if part is None or part[0] == ";":
            end = part.end() if part else len(text)
            return clauses, end, end
        place = closing(text, part.end() - 1)
        if part[0] == "{":
            return clauses, part.start(), place
        if part[1]:
            clauses.append((part[1] + part[2], " ".join(text[part.end() : place - 1].split())))


def functions(path):
    """The functions of a source file."""
    text = bare(read(path))
    blocks = scopes(text)
    for part in FUNCTION.finditer(text):
        opening = text.index("(", part.end())
        after = closing(text, opening)
        clauses, body, end = head(text, after)
        names = module(path) + within(blocks, part.start(3)) + [part[3]]
        public = part[1] is not None and part[2] is None
        taken = parts(text[opening + 1 : after - 1])
        lent = [place for place, one in enumerate(taken) if re.search(r":\s*&\s*('\w+\s+)?mut\b", one)]
        answers = re.match(r"\s*->", text[after:]) is not None
        parameters = NAMED.findall(text[opening:after])
        yield Function(names, public, parameters, lent, answers, clauses, part.start(), body, end)


def items(path):
    """The items of a source file, functions and modules among them: the names that lead to each in its crate."""
    text = bare(read(path))
    blocks = scopes(text)
    return [module(path) + within(blocks, part.start(2)) + [part[2]] for part in ITEM.finditer(text)]


def fields(path):
    """The names of the fields of a source file's structs."""
    text = bare(read(path))
    openings = [part.end() - 1 for part in re.finditer(r"\bstruct\s+\w+[^{(;]*\{", text)]
    return [name for opening in openings for name in NAMED.findall(text[opening : closing(text, opening)])]


class Declaration(NamedTuple):
    """A declaration of an antt file, with all that belongs to it. The numbers are places in the file's text."""

    name: str
    brings: list  # its name, and those of a data type's constructors
    text: str  # after the heads of the blocks `module .. where` that it stands in; lines of comment are left out
    start: int
    end: int


@functools.cache
def antt(path):
    """The definitions, theorems, records, data types and modules of an antt file, also those in its blocks `module .. where`."""
    found, blocks, place, opening = [], [(0, "")], 0, False
    for line in read(path).splitlines(keepends=True):
        start, place, bare_line = place, place + len(line), line.strip()
        if not bare_line or bare_line.startswith("--"):
            continue
        level = len(line) - len(line.lstrip(" "))
        while level < blocks[-1][0]:
            blocks.pop()
        said = DECLARED.match(bare_line)
        if level == blocks[-1][0] and said:
            name, opening = said[1] or said[2], False
            found.append(Declaration(name, [name], "".join(head for _, head in blocks) + line, start, place))
        elif level == blocks[-1][0] and bare_line.startswith("module "):
            blocks.append((level + 2, line))
            opening = True
        elif opening:
            blocks[-1] = (blocks[-1][0], blocks[-1][1] + line)
        elif found and not line.startswith("use "):
            made = [said[2]] if said and said[2] and re.search(r"^\s*(?:pub )?data ", found[-1].text, re.M) else []
            found[-1] = found[-1]._replace(brings=found[-1].brings + made, text=found[-1].text + line, end=place)
    return found


def declarations(path):
    """Their names."""
    return {declaration.name for declaration in antt(path)}


def words(text):
    """The words of a text of antt that can be names. An operator stands in a text by its parts."""
    return {word for word in re.split(r"[\s(){}\[\].,;«»◌]+", text) if word}


def brought(path):
    """What the `use` lines of an antt file bring from the crates of the repository: pairs of a name and the declarations that it
    can mean, each as its file and its name. All that a file can mean is meant, where a line lists no names, or one that the file
    does not have."""
    for crate, library, module, names in USED.findall(read(path)):
        files = [f"crates/{crate}/{library}/{module.replace('.', '/')}.antt"]
        while not os.path.exists(files[-1]) and files[-1].count("/") > 3:
            files.append(os.path.dirname(files[-1]) + ".antt")
        file = files[-1]
        if not os.path.exists(file):
            continue  # a module that the toolchain makes
        listed = [part.strip().partition(" as ") for part in names.split(",")] if names else []
        for name, _, other in listed or [(word, "", "") for word in scope(file)]:
            own = {(file, one.name) for one in antt(file) if name in one.brings and len(files) == 1}
            yield other or name, own or set().union(*scope(file).values())


@functools.cache
def scope(path):
    """What the words of an antt file can mean: for each word the declarations of its crate, as pairs of a file and a name."""
    meant = {}
    own = [(name, {(path, declaration.name)}) for declaration in antt(path) for name in declaration.brings]
    for name, declarations in own + list(brought(path)):
        for word in words(name):
            meant.setdefault(word, set()).update(declarations)
    return meant


def rests_on(path, names):
    """The declarations that these names of an antt file rest on, those that they mean among them. A declaration rests on all that
    the words of its text can mean."""
    found, todo = set(), {one for name in names for word in words(name) for one in scope(path).get(word, ())}
    while todo:
        file, name = one = todo.pop()
        found.add(one)
        text = "".join(declaration.text for declaration in antt(file) if declaration.name == name)
        todo |= {other for word in words(text) for other in scope(file).get(word, ())} - found
    return found


class Change(NamedTuple):
    """A change that an edit makes: what the documents call it, where it must be refused, its file, the texts replaced, and those in
    their place."""

    name: str
    fact: str
    file: str
    old: list
    new: list


def edits(crate="*"):
    """The must-fail edits of a crate, or of every crate."""
    return sorted(glob.glob(f"crates/{crate}/must-fail/*.edit"))


def log_of(path):
    """Where the log of an edit is kept."""
    crate, name = path.split("/")[1], os.path.basename(path)[: -len(".edit")]
    return f"target/must-fail/{crate}/{name}/.log"


def changes(path):
    """The changes of an edit."""
    file, made = "", []
    for line in read(path).split("\n"):
        word, _, rest = line.partition(": ")
        if word == "file":
            file = rest
        elif word == "change":
            made.append(Change(rest, "", file, [], []))
        elif word == "fact" and made:
            made[-1] = made[-1]._replace(fact=rest)
        elif word == "old" and made:
            made[-1].old.append(rest)
        elif word in ("new", "new:") and made:
            made[-1].new.append(rest)
    return made
