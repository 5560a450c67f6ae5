"""The code that the compiler makes of the source.

`rattle check --generated`, the command behind `rt check`, prints the modules that a
proof rests on, each function's code among them, whether or not anything is proved.  To
print all takes some minutes of processor time, and to print one function (`--start`) a
few seconds, most of them to begin.  So what was printed is kept in built/lowered, each
function's code under a key for all that it depends on, and is printed again only where
that has changed, with nothing around it but that; of several copies of the source at once.
What the compiler makes of closures and drops is kept by the crate, all of one together.
"""

import hashlib
import json
import os
import re
import shutil
import subprocess
import tempfile
from pathlib import Path

from source import (ROOT, ROOTS, Source, Unread, has_code, listed, needs, root,
                    has_closure, without_contracts, words)
from terms import Unreadable

KEPT = ROOT / "built" / "lowered"
LONGEST, MOST = 300, 12     # of what the compiler complains of
FEW = 40        # so many functions are printed one by one; where it are more, all are


def kit():
    """What the kit has: the folder that rt takes it from."""
    rt = shutil.which("rt")
    if not rt:
        raise Unreadable("rt is not installed")
    return Path(rt).resolve().parent.parent


# ---- by the compiler

def plain(crates, names):
    """The files of these crates, without contracts, by their paths below the crates."""
    found = {}
    for path in (path for name in names for path in (crates / name / "src").rglob("*.rt")):
        text = path.read_text()
        try:
            text = without_contracts(text)
        except Unread:
            pass                # the compiler says what is wrong with it
        found[path.relative_to(crates)] = text
    return found


def complaint(said):
    """What the compiler says of source that it does not take, as far as it is of use."""
    lines = said.splitlines()
    errors = [line for line in lines if ": error" in line] or lines
    return "\n".join(line[:LONGEST] for line in errors[:MOST])


def printed(files, theirs, starts=()):
    """The modules with the code of these crates, by the function; or of the only crate
    these functions alone.  `theirs` are the kit's."""
    home = kit()
    named = set().union(*map(words, files.values()))
    with tempfile.TemporaryDirectory() as made:
        folder, to = Path(made) / "crates", Path(made) / "printed"
        for path, text in files.items():
            (folder / path).parent.mkdir(parents=True, exist_ok=True)
            begins = "#![tactic(none)] " if path.stem in ROOTS else ""
            (folder / path).write_text(begins + text)
        roots = {name: root(folder / name)
                 for name in dict.fromkeys(path.parts[0] for path in files)}
        above = Path(made) / "above" / "src" / "lib.rt"     # of all, with nothing in it
        above.parent.mkdir(parents=True)
        above.write_text("")
        first = list(roots)[0] if starts else "above"
        asked = ["--crate-name", first, roots.pop(first, above)]
        for name, path in roots.items():
            asked += ["--lib", f"{name}={path}"]
        for name in ["core", *(name for name in theirs if name in named)]:
            asked += ["--extern", f"{name}={home / 'rlibs' / name}.rlib"]
        for name in starts:
            asked += ["--start", name]
        asked += ["-L", f"dependency={home / 'rlibs'}", "--logic-built", home / "logic_built",
                   "--antt-project", home / "rattle" / "logic" / "antt-project.json"]
        done = subprocess.run([home / "bin" / "rattle", "check", *asked, "--generated", to],
                              cwd=folder, text=True, capture_output=True)
        said = done.stdout + done.stderr
        if not re.search(r"^generated=\d+$", said, re.M):
            raise Unreadable(f"the compiler does not take the source:\n"
                             f"{complaint(said).replace(f'{folder}/', '')}")
        return {name: path.read_text() for path in to.rglob("Code/*.antt")
                for name in [name_of(path.relative_to(to))] if name}


def name_of(path):
    """The function whose code is in a file, if it is any's.  Those that call each other
    have theirs in one folder."""
    home, *inside, _, file = path.parts
    own = re.fullmatch(r"Rattle-(\w+)-proofs", home)
    if own and file == "Mir.antt":
        return "::".join([own[1], *inside])
    if own and file[0] == inside[-1][0] == "+":
        return "::".join([own[1], *inside[:-1], path.stem[1:]])
    return None


# ---- and what is kept of it

class Copy:
    """The source of crates in a folder: the code of its functions, as far as it is kept."""

    def __init__(self, crates, starts=None):
        own, self.theirs = needs(listed() if starts is None else starts)
        own = [name for name in own if has_code(crates / name)]
        self.files = plain(crates, own)
        kit_id = (kit() / "KIT-ID").read_text()
        try:
            self.source = Source(crates, own)
            self.keys = {name: self.source.key(name, kit_id) for name in self.source.functions}
            self.closures = self.with_closures(own)
        except Unread:
            self.source, self.keys, self.closures = None, {}, {}

    def with_closures(self, own):
        """The crates with closures, each with a key for the code of all of its functions."""
        crates = {path.parts[0] for path, text in self.files.items() if has_closure(text)}
        return {crate: hashlib.sha256("\0".join(
                    ["made", *(key for name, key in sorted(self.keys.items())
                               if name.startswith(f"{crate}::"))]).encode()).hexdigest()
                for crate in own if crate in crates}

    def made(self, crate, key):
        """The functions that the compiler makes for a crate, beside those of its source."""
        if not (KEPT / key).exists():
            own, theirs = needs([crate])
            files = {path: text for path, text in self.files.items() if path.parts[0] in own}
            more = {name: text for name, text in printed(files, theirs).items()
                    if name.startswith(f"{crate}::") and name not in self.keys}
            self.put(key, json.dumps(more))
        return json.loads((KEPT / key).read_text())

    @staticmethod
    def put(key, text):
        KEPT.mkdir(parents=True, exist_ok=True)
        number, path = tempfile.mkstemp(dir=KEPT)
        with os.fdopen(number, "w") as file:
            file.write(text)
        os.replace(path, KEPT / key)

    @property
    def missing(self):
        return [name for name, key in self.keys.items() if not (KEPT / key).exists()]

    def keep(self, made):
        """Keeps what was printed of those that are missing."""
        for name in self.missing:
            if name in made:
                self.put(self.keys[name], made[name])

    def all(self):
        """What the compiler prints of all of it."""
        return printed(self.files, self.theirs)

    def code(self):
        """The module with the code of each function."""
        if not self.source:
            return self.all()
        if self.missing:
            together([self])
        if self.missing:
            self.keep(self.all())
        if self.missing:
            raise Unreadable(f"the compiler prints no code of {', '.join(self.missing)}")
        found = {name: (KEPT / key).read_text() for name, key in self.keys.items()}
        for crate, key in self.closures.items():
            found |= self.made(crate, key)
        return found


def together(copies):
    """Has the compiler print what is missing of several copies, if it is not much of
    each, as modules of one crate.  What it does not take so is not kept."""
    copies = [copy for copy in copies if 0 < len(copy.missing) <= FEW]
    if not copies:
        return
    path, texts, starts = "crate::copy{}", [], {}
    for number, copy in enumerate(copies):
        texts.append(f"mod copy{number} {{\n"
                     f"{copy.source.module(copy.missing, path.format(number))}}}\n")
        starts.update({f"copies::copy{number}::{name}": (copy, name) for name in copy.missing})
    theirs = list(dict.fromkeys(name for copy in copies for name in copy.theirs))
    try:
        made = printed({Path("copies/src/lib.rt"): "".join(texts)}, theirs,
                       [name.partition("::")[2] for name in starts])
    except Unreadable:
        return
    for copy in copies:
        copy.keep({name: made[long] for long, (of, name) in starts.items()
                   if of is copy and long in made})
