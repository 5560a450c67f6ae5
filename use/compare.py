"""Compares the library's calls with second/: reference.py, registers.py,
window.py, book.py, slips.py, two_chips.py.

First single calls: every length of every slice, every address of the registers,
each card mark with each set of chips, and every sort of window.  Then seeded lists
of calls, register writes and hits, refused ones too, each from a cleared bank,
registers at their start and an empty window.  Every answer is compared, and after
every entry but a hit every byte of bank, output, registers (8 to 11 are the marks)
and window, the interrupt and the proposal.  A run of 500 lists or more fails if no
entry had a proposal, none had one hidden by a mark, at none one left the window, or
none placed a chip, one of two chips or a card again, by call or by command.
Then slips: every short slice over the values at the limits, every outcome, and what
gets of damaged banks give.  Last two bad chips without marks: every pair of positions.

A difference is printed with its seed, one in a seeded list with the shortest list of
entries found that shows it, and the exit is 1.
"""

import argparse
import random
import sys
import time
from pathlib import Path

sys.dont_write_bytecode = True
ROOT = Path(__file__).resolve().parent.parent
sys.path.insert(0, str(ROOT / "second"))     # for the parts beside this file too

import library                      # noqa: E402
import reference as ref             # noqa: E402
import registers                    # noqa: E402
import single                       # noqa: E402
import single_slips                 # noqa: E402
import single_two_chips             # noqa: E402
from agree import Difference        # noqa: E402
from with_book import Run, shown    # noqa: E402
from entries import next_entries    # noqa: E402
from reference import BLOCK, RECORD  # noqa: E402
from seen import Seen               # noqa: E402

ENOUGH = 500        # lists, to see all that seen.py counts


# ------------------------------------------------------------- running lists

def bank_size(rng):
    return rng.choices([1, 2, 3, 7, rng.randrange(8, 40)], [8, 5, 4, 2, 1])[0]


def difference_of(lib, blocks, entries):
    """Runs a list again: what differs and at which entry, or None."""
    run = Run(lib, blocks)
    for at, entry in enumerate(entries):
        try:
            run.do(entry)
        except (Difference, library.Overrun) as difference:
            return at, str(difference)
    return None


def shortened(lib, blocks, entries):
    """The list with every entry left out that isn't needed to differ."""
    at = 0
    while at < len(entries):
        fewer = entries[:at] + entries[at + 1:]
        found = difference_of(lib, blocks, fewer)
        if found is None:
            at += 1
        else:
            entries = fewer[:found[0] + 1]
    return entries


def print_difference(lib, seed, number, blocks, entries):
    entries = shortened(lib, blocks, entries)
    _, what = difference_of(lib, blocks, entries)
    print(f"difference: --seed {seed}, list {number}, a bank of {blocks} "
          f"blocks, {len(entries)} entries:")
    for entry in entries:
        print("  " + shown(entry))
    print(what)


def run_list(lib, seed, number, entry_count):
    """One list: its number of entries and what they show, or None after a
    difference."""
    rng = random.Random(f"{seed} {number}")
    blocks = bank_size(rng)
    run = Run(lib, blocks)
    done = []
    while len(done) < entry_count:
        for entry in next_entries(rng, run.book):
            done.append(entry)
            try:
                run.do(entry)
            except (Difference, library.Overrun):
                print_difference(lib, seed, number, blocks, done)
                return None
    return len(done), run.seen


def one_large_list(lib, seed):
    """A bank of 1,024 blocks: the largest."""
    rng = random.Random(f"{seed} large")
    run = Run(lib, ref.MOST_BLOCKS)
    entries = [("place_card", 2), ("report",)]
    for k in range(0, ref.MOST_BLOCKS, 16):
        entries += [("put", k, rng.randbytes(RECORD)),
                    ("hit", BLOCK * k + rng.randrange(BLOCK), rng.randrange(256))]
    entries += [("report",), ("patrol", 1023), ("patrol", 1024), ("report",)]
    for k in (1023, 1024):
        entries += [("hit", BLOCK * 1023 + 20, 7),
                    *(("write_register", address, value, bytes(BLOCK))
                      for address, value in ((1, k % 256), (2, k // 256),
                                             (0, registers.GET),
                                             (0, registers.PATROL)))]
    for entry in entries:
        run.do(entry)


def single_calls(lib, seed):
    """Calls alone, and the largest bank; gives how many calls were made."""
    calls = single.compare_all(lib, random.Random(seed))
    one_large_list(lib, seed)
    return calls


def slip_calls(lib, seed):
    return single_slips.compare_all(lib, random.Random(seed))


def two_chip_calls(lib, seed):
    return single_two_chips.compare_all(lib, random.Random(seed))


def or_exit(compare, lib, seed):
    """What a comparison gives; a difference is printed, and the exit is 1."""
    try:
        return compare(lib, seed)
    except (Difference, library.Overrun) as difference:
        print(f"difference: --seed {seed}\n{difference}")
        sys.exit(1)


def main():
    parser = argparse.ArgumentParser(
        formatter_class=argparse.RawDescriptionHelpFormatter,
        description=__doc__)
    parser.add_argument("--seed", type=int, default=1,
                        help="seed of all lists (default 1)")
    parser.add_argument("--lists", type=int, default=3000,
                        help="number of lists (default 3000)")
    parser.add_argument("--from-list", type=int, default=0, metavar="N",
                        help="number of the first list (default 0)")
    parser.add_argument("--entries", type=int, default=120,
                        help="entries of a list, at least (default 120)")
    parser.add_argument("--library", type=Path, default=library.ARCHIVE,
                        metavar="FILE", help="static archive (default "
                        f"{library.ARCHIVE.relative_to(ROOT)})")
    args = parser.parse_args()
    begin = time.monotonic()
    with library.open_library(args.library) as lib:
        calls = or_exit(single_calls, lib, args.seed)
        entries, seen = 0, Seen()
        for number in range(args.from_list, args.from_list + args.lists):
            made = run_list(lib, args.seed, number, args.entries)
            if made is None:
                sys.exit(1)
            entries += made[0]
            seen.update(made[1])
        on_slips = or_exit(slip_calls, lib, args.seed)
        on_two_chips = or_exit(two_chip_calls, lib, args.seed)
    if args.lists >= ENOUGH and seen.lacking():
        print(f"{args.lists} lists, but no entry " + ", none ".join(seen.lacking()))
        sys.exit(1)
    print(f"library and second/reference.py agree: seed {args.seed}, "
          f"{calls} calls of every length and address, {on_slips} calls on "
          f"slips, {on_two_chips} calls on two bad chips, {args.lists} lists, "
          f"{entries} entries, {seen.words()}, "
          f"{time.monotonic() - begin:.0f} s")


if __name__ == "__main__":
    main()
