"""The library's C interface for Python scripts, over ctypes.

open_library(archive) links the static archive into a shared object in a
temporary folder and gives a Library, which makes document 01's calls and those
of order 1's registers, order 2's window and order 8's slips on bytearrays.  The
slices of a call are lent between guard bytes, which are compared after it.
"""

import contextlib
import ctypes
import subprocess
import tempfile
from collections import namedtuple
from pathlib import Path

ROOT = Path(__file__).resolve().parent.parent
ARCHIVE = ROOT / "built" / "livomashen" / "liblivomashen.a"
GUARD = bytes(range(0xC0, 0xD0))

REGISTERS = 12                  # bytes of the registers, lent without a length
WINDOW = 64                     # bytes of the window, likewise
WIDEST = 2 ** 32 - 1            # of a chip, a card or an address

# What read, get and patrol say, what report says, a register read, a proposal.
Answer = namedtuple("Answer", "number kind card n")
Report = namedtuple("Report", "number totals")
Register = namedtuple("Register", "number byte")
Proposal = namedtuple("Proposal", "number chip")
# A slip written, and one read.  offset: with 0 that of the next slip; with a
# reader's refusal that of its cause, with a writer's the one asked for.
Written = namedtuple("Written", "number offset")
Slip = namedtuple("Slip", "number offset k reading")

_AT, _LEN = ctypes.c_void_p, ctypes.c_size_t
_U8, _U32, _U64 = ctypes.c_uint8, ctypes.c_uint32, ctypes.c_uint64

# Each call's arguments in order: "in" and "out" are lent slices, the second
# kind may be written; "in12" and "out12" are the registers, "in64" and "out64"
# the window, likewise; "k" is a block number, "mark" a chip's or card's number,
# "byte" what a register gets, "at" an offset, "code" an answer_code.
CALLS = {
    "store": (_U32, ("in", "out")),
    "read": (_U32, ("in", "in", "out")),
    "clear": (_U32, ("out",)),
    "put": (_U32, ("out", "k", "in")),
    "get": (_U32, ("in", "k", "in", "out", "out64")),
    "patrol": (_U32, ("out", "k", "in", "out64")),
    "report": (_U64, ("in", "in")),
    "place_chip": (_U32, ("out", "mark")),
    "lift_chip": (_U32, ("out", "mark")),
    "place_card": (_U32, ("out", "mark")),
    "lift_card": (_U32, ("out",)),
    "write_register": (_U32, ("out12", "address", "byte", "out", "out", "out64")),
    "read_register": (_U32, ("in12", "address")),
    "interrupt": (_U32, ("in12",)),
    "clear_window": (_U32, ("out64",)),
    "propose": (_U32, ("in64", "in")),
    "write_slip": (_U32, ("out", "at", "k", "code")),
    "read_slip": (_U64, ("in", "at")),
}
# How many bytes a slice must have; where they may be any, their number is passed
# along.
_SLICES = {"in": None, "out": None, "in12": REGISTERS, "out12": REGISTERS,
           "in64": WINDOW, "out64": WINDOW}
_NUMBERS = {"k": _LEN, "mark": _U32, "address": _U32, "byte": _U8, "at": _LEN,
            "code": _U32}
_BELOW = {kind: 1 << 8 * ctypes.sizeof(of) for kind, of in _NUMBERS.items()}


class Overrun(Exception):
    """Bytes outside a lent slice, or of a slice lent for reading, changed."""


class Beyond(ValueError):
    """A number that the call's argument can't hold; not twelve registers, or
    not a window's 64 bytes."""


class NoLibrary(SystemExit):
    """There is no archive, or it can't be loaded; the message says why."""


def _types(kind):
    if kind in _NUMBERS:
        return (_NUMBERS[kind],)
    return (_AT, _LEN) if _SLICES[kind] is None else (_AT,)


def _between_guards(slices):
    return GUARD.join((b"", *slices, b""))


def _passed(kinds, arguments, at):
    """What a call gets, where its slices stand between guards from `at` on."""
    for kind, value in zip(kinds, arguments):
        if kind in _NUMBERS:
            if not 0 <= value < _BELOW[kind]:
                raise Beyond(f"{value} does not fit an argument of the call")
            yield value
            continue
        at += len(GUARD)
        yield at
        if _SLICES[kind] is None:
            yield len(value)
        elif _SLICES[kind] != len(value):
            raise Beyond(f"{len(value)} bytes where the call takes {_SLICES[kind]}")
        at += len(value)


def _take_over(kinds, arguments, after):
    """Gives the slices lent for writing their bytes after a call."""
    at = 0
    for kind, value in zip(kinds, arguments):
        if kind in _SLICES:
            at += len(GUARD)
            if kind.startswith("out"):
                value[:] = after[at:at + len(value)]
            at += len(value)


def answer_of(code):
    """An answer's code taken apart."""
    return Answer(*(code >> at & 0xFF for at in (0, 8, 16, 24)))


def answer_code(answer):
    """The code of an answer, as read, get and patrol give it."""
    return int.from_bytes(bytes(answer), "little")


def _slip_of(code, slips, at):
    """A slip's code taken apart; no bit of it is passed over."""
    number, further = code & 0xFF, code >> 8 & 0xFF
    offset = (len(slips) if number == 15 else at) + further
    return Slip(number, offset, code >> 16 & 0xFFFF, answer_of(code >> 32))


class Library:
    def __init__(self, shared_object):
        self._calls = {}
        loaded = ctypes.CDLL(str(shared_object))
        for name, (result, kinds) in CALLS.items():
            function = getattr(loaded, "livomashen_" + name)
            function.restype = result
            function.argtypes = [of for kind in kinds for of in _types(kind)]
            self._calls[name] = function, kinds

    def code(self, name, *arguments):
        """Makes a call; slices lent for writing get their bytes after it."""
        function, kinds = self._calls[name]
        slices = [value for kind, value in zip(kinds, arguments, strict=True)
                  if kind in _SLICES]
        before = _between_guards(slices)
        lent = ctypes.create_string_buffer(before, len(before))
        code = function(*_passed(kinds, arguments, ctypes.addressof(lent)))
        after = lent.raw
        if after != before:
            _take_over(kinds, arguments, after)
            if after != _between_guards(slices):
                raise Overrun(f"{name} wrote outside the slices lent for writing")
        return code

    def call(self, name, *arguments):
        code = self.code(name, *arguments)
        if name == "report":
            totals = tuple(code >> at & 0x7FF for at in range(8, 63, 11))
            return Report(code & 0xFF, totals)
        if name == "read_register":
            return Register(code & 0xFF, code >> 8)
        if name == "propose":
            return Proposal(code & 0xFF, code >> 8)
        if name == "write_slip":
            return Written(code & 0xFF, arguments[1] + (code >> 8))
        if name == "read_slip":
            return _slip_of(code, *arguments)
        if name in ("write_register", "interrupt"):
            return code
        return answer_of(code)


@contextlib.contextmanager
def open_library(archive=ARCHIVE):
    """The archive as a Library, while the with statement lasts."""
    archive = Path(archive)
    if not archive.is_file():
        raise NoLibrary(f"{archive} is not there; `use/build` builds it, or name "
                        "another archive with --library")
    with tempfile.TemporaryDirectory() as folder:
        shared = Path(folder) / "livomashen.so"
        yield _loaded(archive, shared)


def _loaded(archive, shared):
    command = ["gcc", "-shared", "-o", shared, "-Wl,--whole-archive", archive,
               "-Wl,--no-whole-archive"]
    try:
        subprocess.run(command, check=True, capture_output=True, text=True)
        return Library(shared)
    except FileNotFoundError:
        raise NoLibrary("gcc is not installed, and the archive is loaded by it")
    except subprocess.CalledProcessError as error:
        raise NoLibrary(f"{archive} cannot be loaded:\n{error.stderr.strip()}")
    except (AttributeError, OSError) as error:
        raise NoLibrary(f"{archive} is not this library: {error}")
