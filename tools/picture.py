"""Draws a bank for repairers: five cards of nine chips, and how many bytes of
each chip had to be changed over the bank.  A failing chip or card stands out.

The input is the bank program's: 4 mark bytes, then a bank.  The picture is an
SVG.  On a refusal it prints `refused` and the number to standard error, writes
nothing, and the exit is 1.

    python3 tools/picture.py input -o bank.svg

tools/inspect draws the same picture of a bank without mark bytes.
"""

import argparse
import sys
from pathlib import Path

sys.dont_write_bytecode = True

import drawing                                         # noqa: E402
import files                                           # noqa: E402
from readings import LARGEST, ROOT, Refused, Seen, library, source  # noqa: E402

LONGEST = 4 + LARGEST


def parser():
    made = argparse.ArgumentParser(
        formatter_class=argparse.RawDescriptionHelpFormatter,
        description=__doc__)
    made.add_argument("input", nargs="?", type=Path,
                      help="4 mark bytes and a bank (default: standard input)")
    made.add_argument("-o", "--output", type=Path, metavar="FILE",
                      help="a new file for the picture, never one that is "
                           "there (default: standard output)")
    made.add_argument("--library", type=Path, default=library.ARCHIVE,
                      metavar="FILE", help="static archive (default "
                      f"{library.ARCHIVE.relative_to(ROOT)})")
    made.add_argument("--second", action="store_true",
                      help="take the answers from second/reference.py")
    return made


def read_input(path):
    if path is None:
        return sys.stdin.buffer.read(LONGEST + 1)
    return files.read(path, LONGEST + 1)


def draw(args):
    data = read_input(args.input)
    if len(data) < 4:
        raise Refused(6)
    with source(args.library, args.second) as answers:
        made = drawing.drawing(Seen(answers, data[:4], data[4:]))
    if args.output is None:
        sys.stdout.write(made)
    else:
        files.write_new({args.output: made.encode()})


def main():
    try:
        draw(parser().parse_args())
    except Refused as refused:
        sys.exit(f"refused {refused.number}")
    except files.Unusable as why:
        sys.exit(f"picture: {why}")


if __name__ == "__main__":
    main()
