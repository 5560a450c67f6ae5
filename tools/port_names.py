#!/usr/bin/env python3
"""Brings the names of definitions, lemmas, fields and variables from `two-words` to `two_words`, after port.py.

usage: tools/port_names.py [FOLDER]     once, at the top of the tree that port.py has turned
Names that the toolchain or its library makes keep their spelling; so do strings and the prose of comments (a file's
list of names at its head is turned). It prints the names that fall together, and the names left in prose.
"""
import collections
import os
import re
import sys

NAME = r"[A-Za-z_][\w'₀-₉]*(?:-[\w'₀-₉]+)+"
# A name stands between white space or the marks that part names.
TOKEN = re.compile(rf"(?<![^\s(){{}}\[\],;.@λ])({NAME})(?![^\s(){{}}\[\],;.@])")
IN_COMMENT = re.compile(rf"(?<![^\s(){{}}\[\],;.@λ`])({NAME})(?![^\s(){{}}\[\],;.@:`])")
PLAIN = re.compile(r"(?<![^\s(){}\[\],;.@λ])([A-Za-z_][\w'₀-₉]*)(?![^\s(){}\[\],;.@])")
MADE = re.compile(r"(Need|After|At|In|Left|Then|Else|Joined|Low|Post|Pair)-")
DEFINED = re.compile(rf"\s*(?:abbrev |unfoldable |pub |data |record |let |in |ruleset |module )*({NAME})(?![^\s(){{}}\[\],;.@]).*?(:|=)")
USED = re.compile(r"(?ms)^(?:pub )?use ([\w.◌']+)\.\{([^}]*)\}")
PIECES = re.compile(r'("(?:[^"\\\n]|\\.)*")|(--[^\n]*|//[^\n]*)')
# Words of English that are names too.
WORDS = {"card-kind"}
GLOSSARY = re.compile(r"(--   \s*)(\S.*?)(   .*|$)")


def files(root):
    for folder, dirs, names in os.walk(os.path.join(root, "crates")):
        dirs[:] = sorted(d for d in dirs if d not in ("out", "must-fail"))
        for name in sorted(names):
            if name.endswith((".antt", ".rt")):
                yield os.path.join(folder, name)


def code(text):
    return PIECES.sub(" ", text)


def snake(name):
    return name.replace("-", "_")


def main(root):
    texts = {p: open(p, encoding="utf-8").read() for p in files(root)}
    crates = set(os.listdir(os.path.join(root, "crates")))
    functions, own = set(), collections.defaultdict(set)
    for p, t in texts.items():
        if p.endswith(".rt"):
            functions |= set(re.findall(r"\bfn (\w+)", t))
        elif not p.endswith("Proof.antt"):
            for line in code(t).split("\n"):
                m = DEFINED.match(line)
                if m:
                    own[m[1]].add(p)
    kebab = {f.replace("_", "-") for f in functions if "_" in f}
    specs = {f.replace("_", "-") + "-spec" for f in functions}
    together, prose = [], collections.Counter()
    for p, t in texts.items():
        kit = set()
        for m in USED.finditer(code(t)):
            words = m[1].split(".")
            if not (words[0] == "Rattle" and words[1] in crates):
                kit |= {w.strip().split(" as ")[0] for w in m[2].split(",")}
        is_proof = p.endswith("Proof.antt")
        had = set(PLAIN.findall(code(t)))

        def turn(m):
            name = m[1]
            if name in kit or MADE.match(name):
                return name
            if name in own or name in kebab or name in specs or (p.endswith(".antt") and not is_proof):
                if snake(name) in had:
                    together.append((p, name))
                return snake(name)
            return name

        out, at = [], 0
        for m in PIECES.finditer(t):
            out.append(TOKEN.sub(turn, t[at:m.start()]))
            piece = m[0]
            if not piece.startswith('"'):
                g = GLOSSARY.fullmatch(piece)
                if g:
                    piece = g[1] + TOKEN.sub(turn, g[2]) + g[3]
                piece = IN_COMMENT.sub(lambda m: snake(m[1]) if m[1] in own and m[1] not in WORDS else m[1], piece)
                prose.update(n for n in IN_COMMENT.findall(piece) if n in own)
            out.append(piece)
            at = m.end()
        out.append(TOKEN.sub(turn, t[at:]))
        new = "".join(out)
        if new != t:
            with open(p, "w", encoding="utf-8") as f:
                f.write(new)
    for p, name in sorted(set(together)):
        print(f"falls together: {p}: {name}")
    print("in prose: " + ", ".join(f"{n} {k}" for n, k in sorted(prose.items())))


if __name__ == "__main__":
    main(sys.argv[1] if len(sys.argv) > 1 else ".")
