"""Compares plain.rs with second/ on seeded cases.

Usage: python3 use/rust/check_plain.py PROGRAM [--seed N] [--cases N]
PROGRAM is plain_cases.rs, compiled.  Prints the number of cases, or the first
case that differs and exit 1.
"""

import argparse
import random
import subprocess
import sys
from pathlib import Path

sys.dont_write_bytecode = True
sys.path.insert(0, str(Path(__file__).resolve().parents[2] / "second"))

import damage             # noqa: E402
import reference as ref   # noqa: E402
import slips              # noqa: E402
import window             # noqa: E402

FILL = 0xA5               # what plain_cases.rs fills its output with


def word(part):
    return part.hex() or "-"


def any_length(rng, right):
    """The right length nine times in ten."""
    return right if rng.random() < 0.9 else rng.randrange(2 * right)


def store_case(rng):
    record = rng.randbytes(any_length(rng, ref.RECORD))
    output = bytearray([FILL]) * any_length(rng, ref.BLOCK)
    line = f"store {word(record)} {len(output)}"
    answer = ref.store_into(output, record)
    return line, f"{answer.number} {output.hex()}"


def put_case(rng):
    _, bank, k, _ = any_block(rng)
    record = rng.randbytes(any_length(rng, ref.RECORD))
    line = f"put {word(bank)} {k} {word(record)}"
    answer = ref.put(bank, k, record)
    return line, f"{answer.number} {bank.hex()}"


def told(answer, *after):
    """The answer, and the bytes after it."""
    return " ".join((*map(str, answer), *(part.hex() for part in after)))


def read_case(rng, marks=None, block=None):
    marks = damage.any_marks(rng) if marks is None else marks
    block = damage.damaged_block(rng, marks) if block is None else block
    if rng.random() < 0.05:
        block = rng.randbytes(rng.randrange(91))
    output = bytearray([FILL]) * any_length(rng, ref.BLOCK)
    line = f"read {word(block)} {word(marks)} {len(output)}"
    return line, told(ref.read_into(output, block, marks), output)


def any_bank(rng, blocks=None):
    """A mark record, and a bank that is cut short one time in ten."""
    marks, bank = damage.case(rng, blocks)
    if rng.random() < 0.1:
        bank = bank[:rng.randrange(len(bank))]
    return marks, bytearray(bank)


def any_block(rng):
    """The same, and a block that is mostly there, and a window."""
    marks, bank = any_bank(rng, rng.randrange(1, 4))
    k = rng.randrange(len(bank) // ref.BLOCK + 1)
    return marks, bank, k, bytearray(damage.any_window(rng, marks))


def get_case(rng):
    marks, bank, k, held = any_block(rng)
    output = bytearray([FILL]) * any_length(rng, ref.BLOCK)
    line = f"get {word(bank)} {k} {word(marks)} {len(output)} {word(held)}"
    return line, told(window.get(bank, k, output, marks, held), output, held)


def patrol_case(rng):
    marks, bank, k, held = any_block(rng)
    line = f"patrol {word(bank)} {k} {word(marks)} {word(held)}"
    return line, told(window.patrol(bank, k, marks, held), bank, held)


def propose_case(rng):
    marks = damage.any_marks(rng)
    held = damage.any_window(rng, marks)
    number, chip = window.propose(held, marks)
    return f"propose {word(held)} {word(marks)}", f"{number} {chip}"


def report_case(rng):
    marks, bank = any_bank(rng)
    answer, totals = ref.report(bank, marks)
    wanted = [answer.number, *(totals or ())]
    return f"report {word(bank)} {word(marks)}", " ".join(map(str, wanted))


def any_reading(rng):
    """What a call may say of a block, or might if n and card were any."""
    card, n = (rng.choice((0, 1, 2, 3, 4, 5, 10, 11, 12, 255)) for _ in range(2))
    return rng.choice((ref.Answer(), ref.Answer(kind=ref.IN_CHIPS, n=n),
                       ref.Answer(kind=ref.IN_CARD, card=card, n=n),
                       ref.Answer(ref.NONE), ref.Answer(ref.SEVERAL, card=card),
                       ref.Answer(rng.randrange(1, 18))))


def any_slips(rng):
    """A run of slips, now and then cut or with a byte of another value, and an
    offset that is mostly in it."""
    run = bytearray(rng.randrange(24))
    at = 0
    for _ in range(8):
        at = slips.write(run, at, rng.randrange(1030), any_reading(rng)).offset
    if run and rng.random() < 0.5:
        run[rng.randrange(len(run))] = rng.choice((0, 1, 2, 3, 4, 10, 11, 15, 17, 21))
    at = rng.choice((0, 4, 5, rng.randrange(30)))
    return run, at if rng.random() < 0.95 else 2 ** 64 - 1 - at


def write_slip_case(rng):
    run, at = any_slips(rng)
    k, reading = rng.choice((0, 255, 256, 1023, 1024, 65536)), any_reading(rng)
    line = f"write_slip {word(run)} {at} {k} {told(reading)}"
    return line, told(slips.write(run, at, k, reading), run)


def read_slip_case(rng):
    run, at = any_slips(rng)
    number, offset, k, reading = slips.read(run, at)
    return (f"read_slip {word(run)} {at}",
            " ".join(map(str, (number, offset, k, *reading))))


def cases(rng, count):
    """Each shape of marks with each kind of damage, then any case."""
    for _, _, marks, block in damage.every_pair(rng):
        yield read_case(rng, marks, block)
    for _ in range(count):
        make = rng.choices([store_case, put_case, read_case, get_case,
                            patrol_case, propose_case, report_case,
                            write_slip_case, read_slip_case],
                           [3, 1, 8, 2, 2, 4, 1, 2, 4])[0]
        yield make(rng)


def main():
    parser = argparse.ArgumentParser(description=__doc__.splitlines()[0])
    parser.add_argument("program")
    parser.add_argument("--seed", type=int, default=1)
    parser.add_argument("--cases", type=int, default=8000)
    args = parser.parse_args()
    made = list(cases(random.Random(args.seed), args.cases))
    given = "".join(line + "\n" for line, _ in made)
    run = subprocess.run([args.program], input=given, capture_output=True,
                         text=True, check=True)
    answers = run.stdout.splitlines()
    if len(answers) != len(made):
        sys.exit(f"{len(made)} cases, but {len(answers)} answers")
    for (line, wanted), got in zip(made, answers):
        if got != wanted:
            sys.exit(f"seed {args.seed}: {line}\n  got    {got}\n  wanted {wanted}")
    print(f"plain.rs and second/ agree on {len(made)} cases, "
          f"seed {args.seed}")


if __name__ == "__main__":
    main()
