"""Runs the benchmark's program and makes its page: three tables and a legend.
Called by use/bench/run.

Usage: table.py PROGRAM LIBRARY_NOTE FEC_NOTE [FILE]
A note says why a column is empty, and is empty itself where there is one.
With FILE the page is written there as well.
"""

import platform
import re
import shutil
import subprocess
import sys
import tempfile
import textwrap
from pathlib import Path

# Case, its words, and what livomashen is to reach: the mean instructions for a
# block and, where it is set, the most; nothing where no figure is set.
CASES = {
    "store": ("store", (240,)),
    "put": ("put", ()),
    "read-clean": ("read, clean", (230,)),
    "get-clean": ("get, clean", (290,)),
    "get-register": ("get, register", ()),
    "patrol-clean": ("patrol, clean", (275,)),
    "read-chip": ("bad chip", (550,)),
    "get-chip": ("get, chip", (730,)),
    "patrol-chip": ("patrol, chip", ()),
    "read-card": ("bad card", (650,)),
    "read-marked-card-and-chip": ("card* and chip", (890,)),
    "read-two-marked-chips": ("two chips*", (1000,)),
    "read-none": ("none", (600,)),
    "read-any": ("any damage", (960, 2180)),
    "propose": ("propose", (320,)),
    "write-slip": ("write slip", ()),
    "read-slip": ("read slip", ()),
    "patrol-1024": ("patrol, 1,024", (275,)),
    "report-256": ("report, 256", (90,)),
    "report-1024": ("report, 1,024", (90,)),
    "report-mixed": ("report, mixed", (120,)),
}
FULL_BANK = "patrol-1024", "report-1024"
BLOCK = 45
CODECS = {"livomashen": "livomashen", "plain": "plain Rust",
          "words": "in words", "fec": "libfec"}
# With libfec's most as well, the table would be wider than a page.
MEAN_ALONE = "fec",


def output_of(*command):
    return subprocess.run(command, check=True, capture_output=True,
                          text=True).stdout


def times(program):
    """(case, codec) to nanoseconds."""
    found = {}
    for line in output_of(program, "times").splitlines():
        case, codec, time = line.split()
        found[case, codec] = float(time)
    return found


def counts(program):
    """(case, codec) to (mean, most) instructions for a block, by callgrind."""
    found = {}
    for line in output_of(program, "list").splitlines():
        case, codec, function, calls, blocks = line.split()
        for_each = count_calls(program, case, codec, function)
        if len(for_each) != int(calls):
            sys.exit(f"callgrind saw {len(for_each)} calls of {function} in "
                     f"{case}, not {calls}")
        share = int(blocks) // int(calls)
        found[case, codec] = (sum(for_each) / int(blocks),
                              max(for_each) / share)
    return found


def count_calls(program, case, codec, function):
    """Instructions inside each call of the function: one dump for each."""
    with tempfile.TemporaryDirectory() as folder:
        subprocess.run(
            ["valgrind", "--tool=callgrind", f"--toggle-collect={function}",
             f"--dump-after={function}",
             f"--callgrind-out-file={folder}/dump",
             program, "count", case, codec], check=True, capture_output=True)
        # The last dump, without a number, is what is left at the end: nothing.
        return [int(re.search(r"^summary: (\d+)", dump.read_text(), re.M)[1])
                for dump in Path(folder).glob("dump.*")]


# ------------------------------------------------------------------ the tables

def mean_and_most(figures):
    """`1,487/1,786`, or one figure where both are the same or only the mean is
    there; `-` where nothing is."""
    return "/".join(dict.fromkeys(f"{part:,.0f}" for part in figures)) or "-"


def count_cell(counted, case, codec):
    figures = counted.get((case, codec), ())
    return mean_and_most(figures[:1] if codec in MEAN_ALONE else figures)


def time_cell(taken, case, codec, words="{:,.0f}".format):
    return words(taken[case, codec]) if (case, codec) in taken else "-"


def megabytes(nanoseconds):
    """MB/s, by the time for a block."""
    return f"{1000 * BLOCK / nanoseconds:,.0f}"


def table(rows):
    """Rows of cells as a table; the first row is its head."""
    widths = [max(len(row[at]) for row in rows) for at in range(len(rows[0]))]
    lines = ["| " + " | ".join(
        text.ljust(width) if at == 0 else text.rjust(width)
        for at, (text, width) in enumerate(zip(row, widths))) + " |"
        for row in rows]
    rule = "|" + "|".join("-" * (width + 1) + ("-" if at == 0 else ":")
                          for at, width in enumerate(widths)) + "|"
    return "\n".join([lines[0], rule, *lines[1:]])


def instruction_table(counted):
    rows = [["case", *CODECS.values(), "to reach"]]
    for case, (words, limit) in CASES.items():
        cells = [count_cell(counted, case, codec) for codec in CODECS]
        rows.append([words, *cells, mean_and_most(limit)])
    return table(rows)


def time_table(taken):
    rows = [["case", *CODECS.values()]]
    for case, (words, _) in CASES.items():
        rows.append([words, *(time_cell(taken, case, codec)
                              for codec in CODECS)])
    return table(rows)


def speed_table(taken):
    rows = [["full bank", *CODECS.values()]]
    for case in FULL_BANK:
        call = case.partition("-")[0]
        rows.append([call, *(time_cell(taken, case, codec, megabytes)
                             for codec in CODECS)])
    return table(rows)


def above(counted):
    """The cases in which livomashen takes more than it is to reach."""
    return [words for case, (words, limit) in CASES.items()
            if any(round(found) > most for found, most in
                   zip(counted.get((case, "livomashen"), ()), limit))]


def above_line(counted):
    if not any(codec == "livomashen" for _, codec in counted):
        return "What livomashen reaches was not counted."
    words = "; ".join(above(counted)) or "no case"
    return textwrap.fill(f"Above what is to reach: {words}.", 79)


def processor():
    for line in Path("/proc/cpuinfo").read_text().splitlines():
        if line.startswith("model name"):
            return line.split(":", 1)[1].strip()
    return platform.machine()


PAGE = """# Benchmark

Made by `use/bench/run --write`: one process, the codecs taking turns on the
same seeded records and damage.

Instructions inside a call, mean/most over the inputs, of libfec the mean:

{instructions}

{above}

Nanoseconds for a call:

{times}

MB/s over a bank of 1,024 clean blocks, 46,080 bytes, by the times above:

{speeds}

- store, put, read, get, patrol, report, propose, write slip, read slip: the
  library's calls. Clean: no byte is bad. put writes over other bytes. get,
  register: a clean get by command, the block number already in place.
- bad chip, bad card: a read with one chip, or all nine chips of one card, bad
  and nothing marked. A star is a mark: a marked card bad and a further chip;
  two marked chips bad. none: a read with chips of two cards bad and nothing
  marked, which no record fits.
- get and patrol add the positions they change to the window. get, chip and
  patrol, chip have the blocks of "bad chip", a read, which adds none. propose:
  from a full window, nothing marked. Slips are of readings of every kind.
- any damage: reads of random bytes, cards, chips and damage that fits every
  card, under every shape of lawful marks, so "none" and "several" too.
- 256 and 1,024: a bank of so many clean blocks, patrolled or reported whole.
  mixed: 1,024 blocks of which one in 24 is damaged, in one chip, in a card or
  in chips of two cards. Figures are for a block.
- Instructions are callgrind's, over 64 inputs (8,192 for any damage). Where
  mean and most are the same there is one figure. To reach: the limit of
  livomashen's mean and, after a stroke, of its most.
- Times are the median of 151 rounds. Compare them within a row: from run to
  run the machine's speed varies.
- livomashen is called through its C interface. plain Rust is
  use/rust/plain.rs, ordinary tables, no proofs. in words is the same once
  more, use/rust/plain/words.rs, safe Rust written for speed: words of 64 bits
  whose eight bytes are doubled at once, and no table for the sums; its
  proposals and slips are those of plain Rust. Neither has registers.
- libfec is Debian's RS(45,34) over the same field: marks are erasures; an
  unknown card is sought by a decoding without erasures, then by erasing each
  of the five cards in turn. It has no "none", "any damage" or mixed report,
  no proposals, slips or registers; its gets and patrols add to the window as
  those of plain Rust do.
- Outputs are used again and not cleared between calls. Inputs are in cache.

Processor: {processor}.
Compiler of plain Rust and of the benchmark:
{rustc}.
{notes}"""


def page(taken, counted, notes):
    said = "".join(f"{note[0].upper()}{note[1:]}.\n" for note in notes)
    return PAGE.format(
        instructions=instruction_table(counted), above=above_line(counted),
        times=time_table(taken), speeds=speed_table(taken),
        processor=processor(),
        rustc=output_of("rustc", "--version").strip(), notes=said)


def main():
    program, library_note, fec_note, *file = sys.argv[1:]
    taken = times(program)
    notes = [note for note in (library_note, fec_note) if note]
    if shutil.which("valgrind"):
        counted = counts(program)
    else:
        counted = {}
        notes.append("no instruction counts: valgrind is not installed")
    made = page(taken, counted, notes)
    print(made, end="")
    if file:
        Path(file[0]).write_text(made)


if __name__ == "__main__":
    main()
