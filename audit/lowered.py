"""The library as the compiler lowers it: each function, with every value that it has and
that value's type.

In the language that audit/terms.py reads no type is left to be inferred, no length is a
name, and a value that the source does not name has a place of its own.  Of a function of
the kit, which is written for any types, this is what it comes to at those of a call.
"""

import functools
import json
import sys
from dataclasses import dataclass, field

from compiled import Copy, kit
from source import ROOT
from terms import EMPTY, Held, Printed, Unreadable, at, items, parts

sys.setrecursionlimit(100000)       # a body is as deep as it has statements

NUMBERS = {"ty_int": "u", "ty_float": "f"}
SLICE = ["ty_struct", "&[]"]
WRITES = ("assign", "call", "lend_static")


# ---- functions

def steps(body):
    """Every step in a function's body that writes something."""
    waiting = [body]
    while waiting:
        step = waiting.pop()
        if step in ("skip", "return", "unreachable", "no_default"):
            continue
        if step[0] in WRITES:
            yield step
        elif step[0] in ("seq", "block", "loop", "default"):
            waiting += reversed(step[1:])
        elif step[0] in ("cond", "switch", "arm"):    # the first is what is tested
            waiting += reversed(step[2:])
        elif step[0] != "exit":
            raise Unreadable(f"the step {step[0]}")


def written_by(step):
    """The place that such a step writes."""
    return step[3] if step[0] == "call" else step[1]


def called(step):
    """What a call calls: a function's name, or of a method of what is handed in how it
    comes there."""
    _, callee, *_ = step
    return callee[1] if callee[0] == "fn" else f"{callee[0]} {callee[2]} of {callee[1][1]}"


@dataclass
class Function:
    name: str
    values: list        # the type of each value: the result, the parameters, the others
    handed: int         # how many parameters there are
    body: list = "skip"     # all that it does
    steps: list = field(init=False)     # those of it that write something

    def __post_init__(self):
        self.steps = list(steps(self.body))
        for step in self.steps:
            if step[0] == "call" and step[1][0] not in ("fn", "method"):
                raise Unreadable(f"{self.name}: a call of no function by name")

    @property
    def parameters(self):
        return self.values[1:1 + self.handed]

    @property
    def callees(self):
        """The functions and methods that it names."""
        return [part for part in parts(self.body) if part[0] in ("fn", "method")]

    @property
    def calls(self):
        """The functions that it names, those of dictionaries too."""
        methods = [name for part in parts(self.body) if part[0] == "impl"
                   for name in items(part[1])]
        return {*methods, *(part[1] for part in self.callees if part[0] == "fn")}


def is_reference(kind):
    """A plain pointer, a reference, or a slice, which is a reference and a length."""
    return kind == "ty_ptr" or kind[0] == "ty_ref" or kind[:2] == SLICE


@dataclass
class Program:
    functions: dict     # by name
    types: dict         # the structs and enums, by name
    kit_too: bool = False   # whether the functions of the kit are followed

    def declare(self, types):
        for name, shape in types:
            if self.types.setdefault(name, shape) != shape:
                raise Unreadable(f"{name} is two types")

    # ---- what is reached

    def named(self, name):
        """The function of this name, of the source or of the kit."""
        if name in self.functions:
            return self.functions[name]
        held = library(kit(), name.split("::")[0]).get(name) if self.kit_too else None
        if not held:
            raise Unreadable(f"{name} is called, and has no body here")
        self.declare(Held(held).types())
        return function(name, Held(held).function())

    def instance(self, callee):
        """What a call comes to."""
        head, of, *rest = callee
        if head == "fn":
            name, types, dictionaries = of, *map(items, rest)
        elif of[0] == "impl":
            methods, *own = map(items, of[1:])
            number, *more = rest
            name = methods[int(number)]
            types, dictionaries = (a + items(b) for a, b in zip(own, more))
        else:
            raise Unreadable(f"a method of {of}")
        function = self.named(name)
        if not types and not dictionaries:
            return function
        body = at(function.body, types, dictionaries)
        shown = f"{name}<{', '.join(map(self.written, types))}>"
        return Function(shown, [at(kind, types, dictionaries) for kind in function.values],
                        function.handed, body)

    def reached(self, starts, beside=()):
        """The functions that these names or calls can reach, themselves first; only by
        ways that do not lead through those of `beside`."""
        found, waiting = {}, [["fn", start, EMPTY, EMPTY] if isinstance(start, str) else
                              start for start in starts]
        while waiting:
            function = self.instance(waiting.pop(0))
            if function.name not in found and function.name not in beside:
                found[function.name] = function
                waiting += function.callees
        return list(found.values())

    def mentioned(self, starts):
        """The names of those that these can reach by what is named anywhere in them; the
        kit's are not followed."""
        found, waiting = set(), set(starts)
        while waiting:
            name = waiting.pop()
            found.add(name)
            if name in self.functions:
                waiting |= self.functions[name].calls - found
        return found

    # ---- types

    def fields(self, kind):
        """The types that a value of this type has inside, for each of its forms."""
        if kind[0] == "ty_named" and kind[1] in self.types:
            head, inside = at(self.types[kind[1]], items(kind[2]), [])
            if head == "fields":
                return [items(inside)]
            if head == "variants":
                return [items(form) for form in items(inside)]
        raise Unreadable(f"the type {kind}")

    def size(self, kind):
        """The bytes that a value of this type holds.  What it refers to it does not."""
        if kind == "ty_unit" or is_reference(kind):
            return 0
        if kind == "ty_bool":
            return 1
        if kind[0] in NUMBERS:
            return bits(kind) // 8
        if kind[0] == "ty_array":
            return int(kind[2]) * self.size(kind[1])
        forms = [sum(map(self.size, form)) for form in self.fields(kind)]
        return max(forms, default=0) + (len(forms) > 1)     # a byte says which form it is

    def array_bytes(self, kind):
        """The bytes of it that are in arrays."""
        if isinstance(kind, str) or kind[0] in NUMBERS or is_reference(kind):
            return 0
        if kind[0] == "ty_array":
            return self.size(kind)
        return max(sum(map(self.array_bytes, form)) for form in self.fields(kind))

    def refers(self, kind):
        """Whether a value of this type refers to bytes that are not its own."""
        if isinstance(kind, str) or kind[0] in NUMBERS or is_reference(kind):
            return is_reference(kind)
        if kind[0] == "ty_array":
            return self.refers(kind[1])
        return any(self.refers(inner) for form in self.fields(kind) for inner in form)

    def written(self, kind):
        """A type as the source writes it; a number of either sign as one without."""
        if isinstance(kind, str):
            return kind.removeprefix("ty_")
        if kind[0] in NUMBERS:
            return f"{NUMBERS[kind[0]]}{bits(kind)}"
        if kind[0] == "ty_array":
            return f"[{self.written(kind[1])}; {kind[2]}]"
        if kind[0] == "ty_const":
            return kind[1]
        if kind[0] == "ty_ref":
            return f"&{'mut ' * (kind[1] == 'mut')}{self.written(kind[2])}"
        if kind[:2] == SLICE:
            _, mut, element = items(kind[2])[0]
            return f"&{'mut ' * (mut == 'mut')}[{self.written(element)}]"
        if kind[0] == "ty_named":
            of = ", ".join(map(self.written, items(kind[2])))
            return f"{kind[1]}<{of}>" if of else kind[1]
        raise Unreadable(f"the type {kind}")


def bits(kind):
    """How long a number of this type is."""
    return int(kind[1].removeprefix("binary").removeprefix("w"))


# ---- where functions come from

def function(name, code):
    """A function of this code."""
    return Function(name, [local[1] for local in items(code["locals"])],
                    int(code["params"]), code["body"])


@functools.cache
def read(name, text):
    """The function of a module, and the types that it lays out."""
    code, types = Printed(text).function()
    return function(name, code), types


def program(modules, kit_too=False):
    """The program of these modules, each with a function's code."""
    made = Program({}, {}, kit_too)
    for name, text in modules.items():
        made.functions[name], types = read(name, text)
        made.declare(types)
    return made


@functools.cache
def library(home, crate):
    """What a library of the kit has, by the function."""
    path = home / "rlibs" / f"{crate}.rlib" / "toolchain" / "mir.json"
    return dict(json.loads(path.read_text())) if path.exists() else {}


def lower(crates=ROOT / "crates"):
    """The library in this folder, with what it needs of the kit."""
    return program(Copy(crates, ["capi"]).code(), kit_too=True)


def lower_all(crates=ROOT / "crates"):
    """Every crate in this folder, the programs too, without what is the kit's."""
    return program(Copy(crates).code())
