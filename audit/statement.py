"""What the statement on the constant tables names (document 02, order 12).

The statement is the record EveryTable.  Its fields are said of names that each crate
with tables has in `proofs/Constants.antt`; such a name stands for the function of which
its definition says what is learnt from a call, as `ALIAS.Learnt`, the alias being that
of the function's module `Reads`.  A comment names nothing, and neither does an import.
"""

import re

from terms import Unreadable

STATEMENT = "constants/specs/EveryTable.antt"
THEOREM = "constants/proofs/EveryTable.antt"
RECORD = re.compile(r"pub record EveryTable : Type \d+ where")
LINE = "pub every_table : EveryTable"

NAME = r'[^\s(){}.;,@"«»]+'
TEXT = re.compile(r'"(\\.|[^"\\])*"')
OF_CRATE = r"^use Rattle\.(\w+)\.proofs\."
TABLES = re.compile(OF_CRATE + r"Constants\.\{([^}]*)\}", re.M)
READS = re.compile(OF_CRATE + rf"([\w.]+)\.Reads as ({NAME})$", re.M)
LEARNT = re.compile(rf"({NAME})\.Learnt(?!{NAME})")


def without_comments(crates, file):
    path = crates / file
    if not path.is_file():
        raise Unreadable(f"crates/{file} is not there")
    text = "\n".join(TEXT.sub('""', line) for line in path.read_text().splitlines())
    if "{-" in text:
        raise Unreadable(f"crates/{file}: a comment in braces")
    return "\n".join(line.split("--")[0].rstrip() for line in text.splitlines())


def blocks(lines, margin=""):
    """Each line that begins at a margin, with those below that are further in."""
    found = []
    for line in filter(None, lines):
        if line.startswith(margin) and not line[len(margin)].isspace():
            found.append([line])
        elif found and line.startswith(margin):
            found[-1].append(line)
        else:
            raise Unreadable(f"a line that is not so far in: {line}")
    return found


def fields(text):
    """What the record's fields say."""
    records = [block for block in blocks(text.splitlines())
               if RECORD.fullmatch(block[0])]
    if len(records) != 1 or len(records[0]) < 2:
        raise Unreadable(f"crates/{STATEMENT}: no record EveryTable")
    inside = records[0][1:]
    margin = re.match(r"\s+", inside[0])[0]
    found = [" ".join(map(str.strip, block)) for block in blocks(inside, margin)]
    for line in found:
        if not re.match(rf"pub {NAME} : ", line):
            raise Unreadable(f"crates/{STATEMENT}: no field: {line}")
    return [line.partition(" : ")[2] for line in found]


def functions(crates, crate):
    """The functions that each name of a crate's tables stands for: one, as a rule."""
    text = without_comments(crates, f"{crate}/proofs/Constants.antt")
    reads = {alias: "::".join([home, *path.split(".")])
             for home, path, alias in READS.findall(text)}
    found = {}
    for first, *more in blocks(text.splitlines()):
        learnt = LEARNT.findall(" ".join([first, *more]))
        found.setdefault(first.split()[0], set()).update(
            reads[alias] for alias in learnt if alias in reads)
    return found


def imported(names):
    """What stands between an import's braces: each name, and what it is called here."""
    for item in names.split(","):
        name, _, here = item.strip().partition(" as ")
        yield name, here or name


def named(crates):
    """The functions that the statement names, and the name of each there."""
    text = without_comments(crates, STATEMENT)
    mentioned = {name for line in fields(text) for name in re.findall(NAME, line)}
    found = {}
    for crate, names in TABLES.findall(text):
        stand_for = functions(crates, crate)
        for name, here in imported(names):
            if name not in stand_for:
                raise Unreadable(f"crates/{crate}/proofs/Constants.antt: no {name}")
            if here in mentioned:
                found.update(dict.fromkeys(stand_for[name], here))
    return found


def is_proved(crates):
    """Whether the theorem is there that has the statement for its type."""
    return LINE in without_comments(crates, THEOREM).splitlines()
