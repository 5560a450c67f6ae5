"""Compares order 12's program with second/tables.py and with docs/TABLES.txt.

All three must be the same byte for byte, and of the order's form: under each heading
only numbers, in decimal digits and with no zero in front.  The program reads nothing
and takes no arguments: it must print the same with its standard input empty, closed,
a file of bytes or a pipe on which nothing comes, and whatever the arguments are.

At a difference its line is printed as both have it, and the exit is 1.  Where the
program or the file is missing it is 2.
"""

import argparse
import os
import re
import subprocess
import sys
import tempfile
from itertools import zip_longest
from pathlib import Path

sys.dont_write_bytecode = True
ROOT = Path(__file__).resolve().parent.parent
sys.path.insert(0, str(ROOT / "second"))

import tables as second                    # noqa: E402

SECONDS = 20                               # longer than this is no answer
CLOSED = object()                          # a standard input that is closed
UNREAD = b"labels\n255\n" * 1000           # standard input that must stay unread
ARGUMENTS = ("labels",), ("--help",), ("", "-1", "--", "powers", "logs")

# Order 12's headings, and how many numbers come after each.
PARTS = (b"powers\n", 255), (b"logs\n", 255), (b"labels\n", 45)
NUMBER = rb"(0|[1-9][0-9]*)\n"


class Difference(Exception):
    """What differs, in the lines to print."""


# ------------------------------------------------------- running the program

def run(program, *arguments, stdin=subprocess.DEVNULL):
    """What the program prints; how it failed too, if it did."""
    command, given = [program, *arguments], stdin
    if stdin is CLOSED:
        command, given = ["sh", "-c", 'exec "$0" "$@" <&-', *command], None
    try:
        done = subprocess.run(command, stdin=given, capture_output=True,
                              timeout=SECONDS)
    except subprocess.TimeoutExpired:
        return f"(no end within {SECONDS} s)".encode()
    if done.returncode or done.stderr:
        return done.stdout + f"(exit {done.returncode})\n".encode() + done.stderr
    return done.stdout


def run_on_a_file(program):
    """What it prints where standard input is a file; how much it read, if any."""
    with tempfile.TemporaryFile(buffering=0) as file:
        file.write(UNREAD)
        file.seek(0)
        said = run(program, stdin=file)
        return said + (f"({file.tell()} bytes read)\n".encode() if file.tell() else b"")


def run_on_a_pipe(program):
    """What it prints where standard input is a pipe, open, on which nothing comes."""
    reading, writing = os.pipe()
    try:
        return run(program, stdin=reading)
    finally:
        os.close(reading)
        os.close(writing)


def all_runs(program):
    """(how it was started, what it printed)."""
    yield "standard input empty", run(program)
    yield "standard input closed", run(program, stdin=CLOSED)
    yield "standard input a file", run_on_a_file(program)
    yield "standard input a pipe", run_on_a_pipe(program)
    for arguments in ARGUMENTS:
        yield f"arguments {arguments}", run(program, *arguments)


# ---------------------------------------------------------------- comparing

def lines(text):
    """Each line with its newline; the last may have none."""
    return re.findall(rb"[^\n]*\n|[^\n]+", text)


def shown(line):
    if line is None:
        return "(no such line)"
    return repr(line.decode("ascii", "backslashreplace"))


def must_agree(name, how, text, wanted):
    """Raises a difference unless this text is what second/tables.py prints."""
    pairs = zip_longest(lines(text), lines(wanted))
    for at, (line, other) in enumerate(pairs, 1):
        if line != other:
            raise Difference(f"line {at} differs{how}\n{name}: {shown(line)}\n"
                             f"second/tables.py: {shown(other)}")


def must_have_the_form(text):
    """Raises a difference unless every line is a heading or a number, by the order."""
    forms = [form for heading, count in PARTS for form in (heading, *[NUMBER] * count)]
    for at, (line, form) in enumerate(zip_longest(lines(text), forms), 1):
        if line is None or form is None or not re.fullmatch(form, line):
            raise Difference(f"line {at} is not as order 12 has it: {shown(line)}")


def name_of(path):
    """As seen from the project's folder, if it is in there."""
    path = path.resolve()
    return str(path.relative_to(ROOT) if path.is_relative_to(ROOT) else path)


def compare(program, printed):
    """How many lines all of them have."""
    wanted = second.text().encode()
    must_agree(name_of(printed), "", printed.read_bytes(), wanted)
    for how, said in all_runs(str(program.resolve())):
        must_agree(name_of(program), f", {how}", said, wanted)
    must_have_the_form(wanted)
    return len(lines(wanted))


def _parser():
    parser = argparse.ArgumentParser(
        description="Compare the program that prints the tables with the second one "
                    "and with docs/TABLES.txt, byte for byte.")
    parser.add_argument("--program", type=Path, metavar="FILE",
                        default=ROOT / "crates" / "tables" / "out" / "tables",
                        help="the program (default crates/tables/out/tables)")
    parser.add_argument("--printed", type=Path, metavar="FILE",
                        default=ROOT / "docs" / "TABLES.txt",
                        help="what it has printed (default docs/TABLES.txt)")
    return parser


def main():
    wanted = _parser().parse_args()
    if not (wanted.program.is_file() and os.access(wanted.program, os.X_OK)):
        print(f"no program {name_of(wanted.program)}; build it by: rt run, in crates/tables")
        return 2
    if not wanted.printed.is_file():
        print(f"no file {name_of(wanted.printed)}; it is what crates/tables/out/tables prints")
        return 2
    try:
        count = compare(wanted.program, wanted.printed)
    except Difference as difference:
        print(difference)
        return 1
    print(f"tables: {count} lines, program, second program and "
          f"{name_of(wanted.printed)} agree")
    return 0


if __name__ == "__main__":
    sys.exit(main())
