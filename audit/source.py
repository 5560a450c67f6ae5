"""The source as text: what of it the compiler is to lower, and on what the code of each
function depends.

Contracts have no part in the code, and specs/ and proofs/ would be needed to read them.
So a file is handed to the compiler without them, line for line: without the clauses of
functions, `ghost` items and the choice of tactics.

A function's code is what its own text says, and the items that this names: constants,
types with all of their methods, and the heads of functions, in its own crate and in those
below, and what these name in turn.  Where no such text has changed, neither has the code.
"""

import hashlib
import re
from dataclasses import dataclass
from pathlib import Path

ROOT = Path(__file__).resolve().parent.parent
ROOTS = ("lib", "main")

NO_CODE = re.compile(r'//[^\n]*|/\*.*?\*/|b?"(?:\\.|[^"\\])*"|b?\'(?:\\.|[^\'\\\n])\'', re.S)
TACTIC = re.compile(r"#!?\[tactic\([^\]]*\)\]")
CLAUSE = re.compile(r"\b(?:requires|ensures|ghost(\s+use)?)\b")
ITEM = re.compile(r'(?:pub(?:\([^)]*\))?\s+)?(?:extern\s+"C"\s+)?'
                  r"(fn|struct|enum|const|type|use|mod)\s+(\w+)")
UP_TO = {"use": ";", "const": ";", "type": ";"}     # others end with a block, too
METHODS = re.compile(r"impl\b(?:<[^>]*>)?\s+(?:([^{]*?)\s+for\s+)?(\w+)")
METHOD = re.compile(r"\bfn (\w+)")
DERIVE = re.compile(r"#\[derive\(([^)]*)\)\]")
DERIVED = {"Default": "default"}    # what a derive makes that the source calls
WORD = re.compile(r"\b[A-Za-z_]\w*")
CLOSURE = re.compile(r"[(,=]\s*(?:move\s+)?\|")


class Unread(Exception):
    """A text that is not understood here."""


def blank(text):
    return re.sub(r"[^\n]", " ", text)


def code_of(text):
    """The text with blanks in place of comments, strings and characters."""
    return NO_CODE.sub(lambda found: blank(found[0]), text)


def told(text):
    """What a text says to the compiler: without comments, and with single blanks."""
    said, at = [], 0
    for found in NO_CODE.finditer(text):
        said += [" ".join(text[at:found.start()].split()),
                 "" if found[0].startswith("/") else found[0]]
        at = found.end()
    return " ".join([*filter(None, said), *text[at:].split()])


def end(code, begins, marks):
    """Where what begins here ends: behind one of these marks outside of brackets, or
    behind a bracket that is one and closes the last."""
    deep = 0
    for at in range(begins, len(code)):
        deep += (code[at] in "([{") - (code[at] in ")]}")
        if deep < 0:
            break
        if deep == 0 and code[at] in marks:
            return at + 1
    raise Unread("brackets that do not match")


def without_contracts(text):
    """A file as the compiler is to have it."""
    code, kept, at = code_of(text), [], 0
    while found := CLAUSE.search(code, at):
        ends = end(code, found.start(), ";" if found[1] else "}")
        if found[0] == "ghost" and code[ends:].lstrip()[:1] in (";", ","):
            ends = code.index(code[ends:].lstrip()[0], ends) + 1
        kept += [text[at:found.start()], blank(text[found.start():ends])]
        at = ends
    return TACTIC.sub(lambda found: blank(found[0]), "".join([*kept, text[at:]]))


def has_closure(text):
    return bool(CLOSURE.search(code_of(text)))


# ---- items

@dataclass(eq=False)
class Item:
    kind: str
    name: str           # of an import, as it is called here
    begins: int         # where in the file
    head: str           # of a function what stands before its body; else all of it
    body: str = ""
    of: str = ""        # of methods, which are one item together: what the compiler calls their type

    @property
    def text(self):
        return self.head + self.body

    @property
    def functions(self):
        """The names of the functions that it makes: itself, or what it derives."""
        if self.kind == "fn":
            return [self.name]
        if self.kind == "impl":
            return [f"{self.of}::{method}" for method in METHOD.findall(code_of(self.head))]
        derived = {word for found in DERIVE.findall(self.head) for word in words(found)}
        return [f"{self.name}{trait}::{method}" for trait, method in DERIVED.items()
                if trait in derived]


def items(text):
    """The items of a file that is without contracts."""
    code, found, at = code_of(text), [], 0
    while code[at:].strip():
        begins = at = at + len(code[at:]) - len(code[at:].lstrip())
        while code[at] == "#":
            at = end(code, at, "]")
            at += len(code[at:]) - len(code[at:].lstrip())
            if at == len(code):
                return found
        if methods := METHODS.match(text, at):
            at = end(code, at, "}")
            of = methods[2] + "".join(WORD.findall(methods[1] or ""))
            found.append(Item("impl", methods[2], begins, text[begins:at], of=of))
            continue
        item = ITEM.match(text, at)
        if not item:
            raise Unread(f"no plain item: {text[at:at + 40]!r}")
        closes = end(code, at, UP_TO.get(item[1], ";}"))
        if item[1] == "mod" and code[closes - 1] == "}":
            raise Unread(f"a module inside a file: {item[2]}")
        opens = code.find("{", at, closes) if item[1] == "fn" else closes
        if item[1] == "use":
            found += imports(begins, text[at:closes])
        else:
            found.append(Item(item[1], item[2], begins, text[begins:opens],
                              text[opens:closes]))
        at = closes
    return found


def imports(begins, text):
    """Each name that an import brings, as an item of its own."""
    before, _, tree = text.removesuffix(";").partition("use ")
    for path in leaves(re.sub(r"\s+", " ", tree).strip()):
        of, _, here = path.partition(" as ")
        here = here or of.split("::")[-1]
        yield Item("use", here, begins, f"{before}use {path};")


def leaves(tree):
    """The paths of an import: of `a::{b, c as d}` two."""
    path, braces, rest = tree.partition("{")
    if not braces:
        return [tree.removesuffix("::self")]
    found, begun, deep = [], "", 0
    for mark in rest.rpartition("}")[0] + ",":
        deep += (mark == "{") - (mark == "}")
        if mark == "," and deep == 0:
            found += leaves(path + begun.strip()) if begun.strip() else []
            begun = ""
        else:
            begun += mark
    return found


def words(text):
    return set(WORD.findall(code_of(text)))


# ---- crates

def listed():
    """The crates of crates.txt, from the bottom up, with what each needs."""
    text = (ROOT / "crates.txt").read_text()
    lines = (line.split("#")[0] for line in text.splitlines())
    return {name.split()[0]: rest.split() for name, colon, rest in
            (line.partition(":") for line in lines) if colon}


def needs(starts=("capi",)):
    """The crates that these are made of, the library's first; and the kit's."""
    every = listed()
    found, waiting = [], list(starts)
    while waiting:
        name = waiting.pop()
        if name not in found:
            found.append(name)
            waiting += every.get(name, [])
    return ([name for name in every if name in found],
            ["std", *(name for name in found if name not in every)])


def root(crate):
    """The file that a crate begins with: a program has another than a library."""
    main = crate / "src" / "main.rt"
    return main if main.exists() else crate / "src" / "lib.rt"


def has_code(crate):
    """Whether there is more than comments.  The name of a crate without code would
    stand in the way of a module of that name."""
    return not root(crate).exists() or any(
        TACTIC.sub("", code_of(without_contracts(path.read_text()))).strip()
        for path in (crate / "src").rglob("*.rt"))


@dataclass
class File:
    crate: str
    path: Path          # below the crate's src
    text: str           # without contracts
    items: list

    @property
    def module(self):
        return [*self.path.parts[:-1], self.path.stem] if self.path.stem not in ROOTS else []

    def names(self, other, said):
        """Whether a text of this file that says these words can name an item of another:
        it says its crate, or in one crate its module, or `super` or `crate`."""
        if other is self:
            return True
        if other.crate != self.crate:
            return other.crate in said
        return bool({"super", "crate", *other.module[-1:]} & said)

    def pruned(self, kept, whole):
        """The file with these items alone, line for line, and without the bodies of
        functions but of some."""
        text = list(blank(self.text))
        for item in kept:
            if item.kind == "use":
                text[item.begins] += item.head
                continue
            ends = item.begins + len(item.head)
            text[item.begins:ends] = item.head
            if item in whole:
                text[ends:ends + len(item.body)] = item.body
            elif item.body:
                text[ends] = "{ loop {} }"
        return "".join(text)


class Source:
    """The source of these crates in a folder: each function by its name, and what its
    code depends on."""

    def __init__(self, crates, own):
        self.files, self.functions, self.homes = [], {}, {}
        for crate in own:
            for path in sorted((crates / crate / "src").rglob("*.rt")):
                text = without_contracts(path.read_text())
                self.read(File(crate, path.relative_to(crates / crate / "src"), text,
                               items(text)))

    def read(self, file):
        self.files.append(file)
        for item in file.items:
            for made in item.functions:
                name = "::".join([file.crate, *file.module, made])
                if name in self.functions:
                    raise Unread(f"{name} is there twice")
                self.functions[name] = file, item
            if item.kind != "mod":
                self.homes.setdefault(item.name, []).append((file, item))

    def needed(self, name):
        """The items that a function's code depends on, with their files: those of any
        name that stands in it, or in one of these that is no function's body; and what
        its file imports of the kit, since a method may be one of a trait."""
        first, own = self.functions[name]
        reach, theirs = needs([first.crate])
        found = {id(item): (first, item) for item in first.items
                 if item is own or item.kind == "use" and words(item.head) & set(theirs)}
        waiting = [(first, own.text)]
        while waiting:
            file, text = waiting.pop()
            said = words(text)
            for home, item in (other for word in said for other in self.homes.get(word, ())):
                if id(item) not in found and home.crate in reach and file.names(home, said):
                    found[id(item)] = home, item
                    waiting.append((home, item.head))
        return list(found.values())

    def key(self, name, kit_id):
        """A key for a function, of what its code depends on and the kit."""
        _, own = self.functions[name]
        texts = sorted(f"{file.crate} {file.path}: {told(item.head)}"
                       for file, item in self.needed(name))
        said = "\0".join([kit_id, name, told(own.text), *texts])
        return hashlib.sha256(said.encode()).hexdigest()

    def pruned(self, names):
        """The source with no more than these functions depend on: a text for each file,
        by its crate and then its path below the crate's src."""
        needed = {id(item) for name in names for _, item in self.needed(name)}
        whole = [self.functions[name][1] for name in names]
        found, crates = {}, {name.split("::")[0] for name in names}
        for file in self.files:
            kept = [item for item in file.items if id(item) in needed or item.kind == "mod"]
            found.setdefault(file.crate, {})[file.path] = file.pruned(kept, whole)
            crates |= {file.crate for item in kept if item.kind != "mod"}
        return {crate: files for crate, files in found.items() if crate in crates}

    def module(self, names, path):
        """The same as the text of a module of this path, with a module for each crate."""
        found, texts = self.pruned(names), []
        for crate, files in found.items():
            own = {file.stem for file in files}
            begins = next(file for file in files if file.stem in ROOTS)
            text = with_modules(begins, files)
            said = renamed(text, sorted(set(found) - own), path, f"{path}::{crate}")
            texts.append(f"pub mod {crate} {{\n{said}\n}}\n")
        return "".join(texts)


def with_modules(file, files):
    """The text of a file with that of the modules that it names."""
    folder = file.parent if file.stem in ROOTS else file.with_suffix("")

    def inside(found):
        return f"mod {found[1]} {{{with_modules(folder / f'{found[1]}.rt', files)}}}"

    return re.sub(r"\bmod (\w+);", inside, files[file])


EXPORT = r"#\[unsafe\(no_mangle\)\]|\bextern\s+(?=fn\b)"


def renamed(text, crates, path, itself):
    """A text in which the names of these crates stand below a path, its own crate is the
    module of that name, and that exports nothing to C."""
    said, at, names = [], 0, "|".join(["crate", *crates])
    for found in re.finditer(rf"{EXPORT}|(?<![\w:])({names})(?=::)", code_of(text)):
        stands = itself if found[1] == "crate" else f"{path}::{found[1]}"
        said += [text[at:found.start()], stands if found[1] else ""]
        at = found.end()
    return "".join([*said, text[at:]])
