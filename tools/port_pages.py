#!/usr/bin/env python3
"""Brings the names of definitions and lemmas in the pages from `two-words` to `two_words`, where the crates have them so.

usage: tools/port_pages.py [FOLDER]     once, after tools/port_names.py
Only what stands between back quotes is turned.
"""
import glob
import os
import re
import sys

NAME = re.compile(r"(?<![\w./-])((?:\.\.)?[A-Za-z_-][\w']*(?:-[\w']+)+)(?![\w/-])")
TAIL = re.compile(r"(?<![\w-])\.\.-([a-z]+)")


def main(root):
    names = set()
    for kind in ("antt", "rt"):
        for p in glob.glob(os.path.join(root, "crates", "**", "*." + kind), recursive=True):
            if "/out/" not in p:
                with open(p, encoding="utf-8") as f:
                    names |= set(re.findall(r"[A-Za-z_][\w'₀-₉]*", f.read()))
    pages = [p for p in glob.glob(os.path.join(root, "docs", "**", "*.md"), recursive=True) if not p.endswith("/PORT.md")]
    for p in [*pages, os.path.join(root, "README.md")]:
        with open(p, encoding="utf-8") as f:
            text = f.read()

        def turn(m):
            name = m[1].replace("-", "_")
            return name if name in names else m[1]

        new = re.sub(r"`[^`\n]*`", lambda m: TAIL.sub(r".._\1", NAME.sub(turn, m[0])), text)
        if new != text:
            with open(p, "w", encoding="utf-8") as f:
                f.write(new)


if __name__ == "__main__":
    main(sys.argv[1] if len(sys.argv) > 1 else ".")
