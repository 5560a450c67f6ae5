"""Compares the bank program with second/bank.py, byte for byte.

First document 01's worked blocks and limits and order 7's roundings, then an
input that arrives in pieces, then seeded banks of 1 to 1,024 blocks: each kind
of damage under each shape of marks, now and then with a wrong length.

A difference is printed with the input and both outputs, and the exit is 1.
The input is saved too, and a seeded bank has a number to run it alone:

  python3 second/compare.py --seed 1 --only 17
"""

import argparse
import random
import subprocess
import sys
import time
from collections import Counter
from itertools import chain
from pathlib import Path

sys.dont_write_bytecode = True
ROOT = Path(__file__).resolve().parent.parent
sys.path.insert(0, str(ROOT / "second"))

import bank as second                      # noqa: E402
import damage                              # noqa: E402
import reference as ref                    # noqa: E402
from reference import BLOCK, FRESH, MOST_BLOCKS  # noqa: E402

LARGEST = BLOCK * MOST_BLOCKS              # 46,080
SECONDS = 20                               # longer than this is no answer
PAUSE = 0.003                              # between the pieces of an input
LARGE_EVERY = 500                          # one seeded bank in so many is full
DIFFERENT = 16                             # blocks of a bank, the rest repeat
WRONG_LENGTH = 1 / 15                      # share of banks cut or made longer


class Difference(Exception):
    """What differs, the input, and both outputs."""


# ------------------------------------------- examples of documents 01 and 02

def with_bytes(*pairs):
    block = bytearray(BLOCK)
    for place, value in pairs:
        block[place] = value
    return bytes(block)


def marks(card=255, *chips):
    return bytes((card, len(chips), *chips, *[255] * (2 - len(chips))))


THREE = with_bytes((0, 8), (1, 6), (2, 1))
IN_ROW = with_bytes((0, 1), (9, 1))
IN_CARD = with_bytes((0, 1), (1, 1))
SEVEN = with_bytes((20, 7))
NAMES = ("clean", "chips", "card", "none", "several")      # of the five totals

# 01, "Blocks to set up", row by row: marks, block, what its line says.  Order 5
# changed the row of card 0 and chip 1; the three after it are by order 5 too.  The
# card after "several" is by order 6, and the last four rows are.
WORKED = (
    (marks(), bytes(BLOCK), "clean"),
    (marks(), SEVEN, "chips 1"),
    (marks(), THREE, "several 0"),
    (marks(0), THREE, "card 0 3"),
    (marks(1), THREE, "card 1 3"),
    (marks(), IN_ROW, "none"),
    (marks(), IN_CARD, "card 0 2"),
    (marks(255, 0), IN_ROW, "chips 2"),
    (marks(255, 0, 9), SEVEN, "several 2"),
    (marks(0), IN_ROW, "card 0 2"),
    (marks(0, 1), with_bytes((9, 1)), "chips 1"),
    (marks(0, 1, 8), with_bytes((9, 1)), "chips 1"),
    (marks(0, 10), with_bytes((9, 1)), "none"),
    (marks(0, 1, 10), with_bytes((9, 1)), "none"),
    (marks(255, 0, 0), bytes(BLOCK), "refused 7"),
    (marks(255, 9), with_bytes((0, 1), (2, 2)), "several 0"),
    (marks(255, 0), with_bytes((10, 1), (12, 1)), "several 1"),
    (marks(255, 0), with_bytes((20, 1), (24, 1)), "several 2"),
    (marks(255, 7), with_bytes((36, 1), (43, 7)), "several 3"),
)


def worked_text(says):
    """The whole output for a bank of the one block."""
    if says.startswith("refused"):
        return says + "\n"
    word = says.split()[0]
    totals = " ".join(f"{name} {int(name == word)}" for name in NAMES)
    line = "" if says == "clean" else f"0 {says}\n"
    sound = 0 if word in ("none", "several") else 1000
    return f"blocks 1\n{line}{totals}\nsound {sound}\n"


def examples():
    """(name, input, output by 01): worked blocks, 01's own input."""
    for at, (record, block, says) in enumerate(WORKED):
        yield f"worked block {at}", record + block, worked_text(says)
    yield "01's input", FRESH + bytes(BLOCK) + THREE, (
        "blocks 2\n1 several 0\n"
        "clean 1 chips 0 card 0 none 0 several 1\nsound 500\n")


# Order 7: the figure where 0, 1, .. 16 blocks of 16 are sound.
OF_16 = (0, 62, 125, 188, 250, 312, 375, 438, 500, 562, 625, 688, 750, 812, 875,
         938, 1000)


def sound_of(sound, blocks, figure):
    """(input, output) of a bank of which the first blocks are sound, in turn clean,
    chips and card, and the others in turn none and several."""
    given = [(("clean", bytes(BLOCK)), ("chips 1", SEVEN), ("card 0 2", IN_CARD))[k % 3]
             for k in range(sound)]
    given += [(("none", IN_ROW), ("several 0", THREE))[k % 2]
              for k in range(blocks - sound)]
    totals = Counter(says.split()[0] for says, _ in given)
    return FRESH + b"".join(block for _, block in given), (
        f"blocks {blocks}\n"
        + "".join(f"{k} {says}\n" for k, (says, _) in enumerate(given)
                  if says != "clean")
        + " ".join(f"{name} {totals[name]}" for name in NAMES)
        + f"\nsound {figure}\n")


def halves():
    """(sound, blocks, figure): every exact half that a bank can come to."""
    for blocks in range(1, MOST_BLOCKS + 1):
        for sound in range(blocks + 1):
            twice, rest = divmod(2000 * sound, blocks)
            if rest == 0 and twice % 2 == 1:
                below = twice // 2
                yield sound, blocks, below if below % 2 == 0 else below + 1


def roundings():
    """(name, input, output by order 7): every share of 16 blocks, some that are
    no half, and every exact half that a bank can come to."""
    others = ((1, 3, 333), (2, 3, 667), (1, 1023, 1), (1, 1024, 1), (1023, 1024, 999))
    for sound, blocks, figure in chain(((k, 16, OF_16[k]) for k in range(17)), others,
                                       halves()):
        yield f"{sound} sound of {blocks}", *sound_of(sound, blocks, figure)


def limits():
    """(name, input, output by 01 or None): lengths and mark records."""
    for length in range(4):
        yield f"{length} bytes", FRESH[:length], "refused 6\n"
    yield "4 bytes", FRESH, "refused 4\n"
    for length in (0, 1, 44, 46, 89, 91, LARGEST - 1, LARGEST + 1, LARGEST + 44,
                   LARGEST + 45, LARGEST + 46, 2 * LARGEST, 200_000):
        yield f"bank of {length}", FRESH + bytes(length), "refused 4\n"
    for n in (1, 2, 1023, 1024):
        yield f"bank of {n} blocks", FRESH + bytes(BLOCK * n), (
            f"blocks {n}\nclean {n} chips 0 card 0 none 0 several 0\n"
            "sound 1000\n")
    for p in range(BLOCK):
        yield f"chip {p} marked", marks(255, p) + THREE + SEVEN, None
        yield f"byte {p} bad", FRESH + with_bytes((p, 1)), worked_text("chips 1")
    for card in range(5):
        yield f"card {card} marked", marks(card) + THREE + SEVEN + IN_ROW, None
    lawful = (marks(255, 44), marks(255, 44, 0), marks(255, 0, 44), marks(4, 44))
    for record in lawful:
        yield f"marks {tuple(record)}", record + SEVEN + THREE + IN_ROW, None
    outside = (
        (5, 0, 255, 255), (254, 0, 255, 255), (128, 0, 255, 255),
        (255, 3, 0, 1), (255, 255, 0, 1), (255, 3, 255, 255),
        (255, 1, 45, 255), (255, 2, 45, 0), (255, 2, 0, 45), (0, 1, 45, 255),
        (255, 1, 255, 255), (255, 2, 0, 255), (255, 2, 255, 255),
        (255, 0, 0, 255), (255, 0, 255, 0), (255, 0, 44, 44), (255, 1, 0, 0),
        (255, 1, 0, 44), (255, 1, 0, 254), (0, 0, 254, 255),
        (5, 2, 1, 1), (255, 2, 45, 45), (255, 3, 1, 1), (0, 0, 0, 0))
    for record in outside:
        yield f"marks {record}", bytes(record) + SEVEN, "refused 6\n"
        yield f"marks {record}, bad bank", bytes(record) + SEVEN[1:], "refused 4\n"
    for record in ((255, 2, 0, 0), (255, 2, 44, 44), (0, 2, 7, 7), (4, 2, 44, 44)):
        yield f"marks {record}", bytes(record) + SEVEN, "refused 7\n"
        yield f"marks {record}, bad bank", bytes(record) + SEVEN[1:], "refused 4\n"
    # Every byte in each place of a lawful record.
    for at in range(4):
        for value in range(256):
            record = bytearray(marks(1, 3, 20))
            record[at] = value
            yield f"marks {tuple(record)}", bytes(record) + SEVEN, None


def pieces():
    """(name, pieces): one input, cut at different places."""
    small = FRESH + bytes(BLOCK) + THREE + SEVEN
    full = FRESH + MOST_BLOCKS // 4 * (bytes(BLOCK) + THREE + SEVEN + IN_ROW)
    for data, cuts in ((small, ((1,), (3,), (4,), (2, 4), (5,), (48,), (49,),
                                (3, 50), (4, 138), (1, 2, 3, 4))),
                       (full, ((4,), (4, 4096), (1, 40_000), (46_083,),
                               (4096, 8192, 20_001))),
                       (full + b"\0", ((46_084,), (3, 46_084))),
                       (FRESH[:3], ((1,), (1, 2))),
                       (FRESH, ((2,),)),
                       (b"", ((0,),))):
        for places in cuts:
            ends = (0, *places, len(data))
            yield f"{len(data)} bytes cut at {places}", [
                data[a:b] for a, b in zip(ends, ends[1:])]
    yield "byte by byte", [bytes((x,)) for x in small]


# -------------------------------------------------------------- seeded banks

SHAPES = tuple(damage.MARK_SHAPES)
KINDS = tuple(damage.DAMAGE)
PAIRS = tuple((shape, kind) for kind in KINDS for shape in SHAPES)

# Any number of blocks may come, a large one less often: 17 or more in every
# sixth bank, 512 or more in every hundredth.
SIZES = range(1, MOST_BLOCKS + 1)
SIZE_WEIGHTS = tuple(n ** -1.5 for n in SIZES)


def blocks_with(rng, record, kind):
    """Blocks of a bank, one of them with damage of the kind."""
    count = rng.choices(SIZES, SIZE_WEIGHTS)[0]
    pool = [damage.damaged_block(rng, record)
            for _ in range(min(count - 1, DIFFERENT))]
    blocks = pool + rng.choices(pool or [b""], k=count - 1 - len(pool))
    blocks.insert(rng.randrange(count), damage.damaged_block(rng, record, kind))
    return blocks


def seeded(seed, at):
    """(name, input) of seeded bank number `at`; the same one every time."""
    rng = random.Random(f"{seed} {at}")
    if at % LARGE_EVERY == LARGE_EVERY - 1:
        record = bytes(damage.lawful_marks(rng))
        return (f"1,024 blocks under marks {tuple(record)}",
                record + damage.damaged_bank(rng, record, MOST_BLOCKS))
    shape, kind = PAIRS[at % len(PAIRS)]
    record = bytes(damage.MARK_SHAPES[shape](rng))
    data = record + b"".join(blocks_with(rng, record, kind))
    # The first of each pair has its right length.
    if at >= len(PAIRS) and rng.random() < WRONG_LENGTH:
        by = rng.choice((1, 44, rng.randrange(1, BLOCK)))
        data = rng.choice((data[:-by], data + rng.randbytes(by)))
    return f"{kind} under {shape} {tuple(record)}", data


# ---------------------------------------------------------------- comparing

def run(program, parts):
    """What the program prints; the parts are written one after the other."""
    with subprocess.Popen([program], stdin=subprocess.PIPE,
                          stdout=subprocess.PIPE,
                          stderr=subprocess.PIPE) as process:
        try:
            for part in parts[:-1]:
                process.stdin.write(part)
                process.stdin.flush()
                time.sleep(PAUSE)
        except BrokenPipeError:
            pass           # it has stopped reading; what it printed decides
        try:
            out, err = process.communicate(parts[-1], timeout=SECONDS)
        except subprocess.TimeoutExpired:
            process.kill()
            return f"(no end within {SECONDS} s)".encode()
    if process.returncode or err:
        return out + f"(exit {process.returncode})\n".encode() + err
    return out


def shown(output):
    return output.decode("ascii", "backslashreplace") or "(nothing)\n"


def compare(program, name, parts, stated=None):
    data = b"".join(parts)
    said, wanted = run(program, parts), second.text(data).encode()
    if stated is not None and wanted != stated.encode():
        raise Difference(name, data, "documents 01 and 02", stated.encode(), wanted)
    if said != wanted:
        raise Difference(name, data, "program", said, wanted)


def report(difference, seed):
    name, data, who, said, wanted = difference.args
    place = ROOT / "built" / "difference.bin"
    place.parent.mkdir(exist_ok=True)
    place.write_bytes(data)
    print(f"seed {seed}: {name}")
    print(f"input: {len(data)} bytes, saved as "
          f"{place.relative_to(ROOT).as_posix()}")
    if len(data) <= 4 + 16 * BLOCK:
        print(data.hex())
    print(f"{who}:\n{shown(said)}second/bank.py:\n{shown(wanted)}", end="")


def all_inputs(wanted):
    """(name, pieces, output by the documents or None) for every input to compare."""
    if wanted.only is not None:
        name, data = seeded(wanted.seed, wanted.only)
        yield f"bank {wanted.only}: {name}", [data], None
        return
    for name, data, stated in chain(examples(), limits(), roundings()):
        yield name, [data], stated
    for name, parts in pieces():
        yield name, parts, None
    for at in range(wanted.banks):
        name, data = seeded(wanted.seed, at)
        yield f"bank {at}: {name}", [data], None


def _parser():
    parser = argparse.ArgumentParser(
        description="Compare the bank program with the second one, "
                    "byte for byte.")
    parser.add_argument("--program", type=Path, metavar="FILE",
                        default=ROOT / "crates" / "cabinet" / "out" / "cabinet",
                        help="the bank program (default crates/cabinet/out/cabinet)")
    parser.add_argument("--seed", type=int, default=1,
                        help="seed of the banks (default 1)")
    parser.add_argument("--banks", type=int, default=3000,
                        help="how many seeded banks (default 3000); "
                             f"{len(PAIRS)} have each kind of damage under "
                             "each shape of marks once")
    parser.add_argument("--only", type=int, metavar="N",
                        help="seeded bank number N alone")
    return parser


def main():
    wanted = _parser().parse_args()
    program = str(wanted.program.resolve())
    if not wanted.program.is_file():
        print("no bank program there; build it by: rt run, in crates/cabinet")
        return 1
    done = 0
    try:
        for name, parts, stated in all_inputs(wanted):
            compare(program, name, parts, stated)
            done += 1
    except Difference as difference:
        report(difference, wanted.seed)
        return 1
    print(f"{done} inputs, 0 differ")
    return 0


if __name__ == "__main__":
    sys.exit(main())
