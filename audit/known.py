"""What a function's values are, as far as that stands in the source.

A walk goes once through a function as audit/lowered.py has it, and knows of each value
whether it is a number that stands in the source, or is made of such numbers alone: by
sums and the like, in arrays, structs and forms of an enum, or by a call that is handed
nothing else.  Anything else has a text that says what it is of, so that two tests of
the same thing are seen to be that.  Where ways meet, or a loop goes around, only what
is the same on each of them stays known.
"""

from dataclasses import dataclass, field

from lowered import SLICE, called
from terms import Unreadable, items, parts
from values import EACH, Asked, At, Made, Sign, is_known

LONGEST = 200       # a text that would be longer is replaced by a new one
COMPARED = {"eq", "ne", "lt", "le"}


# ---- terms

def operation(name):
    """The name of an operation, without what says on which numbers it is."""
    return name if isinstance(name, str) else name[0]


def changed(step):
    """The values that a step writes, or takes the address of."""
    for part in parts(step):
        if part[0] in ("assign", "addr_of"):
            yield int(part[1][1])
        elif part[0] == "call":
            yield int(part[3][1])


def arms(term):
    """What is done in each arm of a switch, and if no arm is for the number."""
    found = []
    while term[0] == "arm":
        found.append(term[2])
        term = term[3]
    return [*found, term[1] if term[0] == "default" else term]


def constant(term):
    """The value of a constant that lies in memory of its own."""
    if term == "c_unit":
        return Sign("unit")
    head, *rest = term
    if head in ("c_int", "c_float"):
        return int(rest[1])
    if head == "c_bool":
        return Sign(rest[0])
    if head == "c_ints":
        return tuple(map(int, items(rest[1])))
    if head == "c_repeat":
        return (constant(rest[0]),) * int(rest[1])
    if head == "c_parts":
        return tuple(map(constant, items(rest[0])))
    raise Unreadable(f"the constant {head}")


def common(ways):
    """What is the same on each way."""
    first, *others = ways
    return {at: value for at, value in first.items()
            if all(way.get(at) == value for way in others)}


# ---- the walk

@dataclass
class Walk:
    program: object
    function: object
    known: dict = field(default_factory=dict)
    tests: list = field(default_factory=list)   # the ways taken: of what, by, which
    begun: int = 0                              # how many tests and new texts there are
    around: int = 0                             # how many blocks and loops are around
    left: list = field(default_factory=list)    # those that are left, and -1 if all are
    constants: dict = field(default_factory=dict)   # what is lent of the source, by text
    # What is found on the way:
    made: list = field(default_factory=list)    # aggregates: where, type, parts
    handed: list = field(default_factory=list)  # to each call: its arguments
    written: dict = field(default_factory=dict)     # into which text: index and value
    given: list = field(default_factory=list)   # what is put where: text, value, tests
    shifted: list = field(default_factory=list)     # what is known, by what is not

    def new(self):
        self.begun += 1
        return f"?{self.begun}"

    def text(self, *values):
        """A text for what is made of these."""
        text = f"({' '.join(map(str, values))})"
        return text if len(text) <= LONGEST else self.new()

    # ---- places

    def kind(self, place):
        """The type of a place."""
        kind, form = self.function.values[int(place[1])], None
        for way, *rest in items(place[2]):
            if way == "deref":
                kind = rest[0]
            elif way == "variant":
                form = int(rest[0])
            elif kind[:2] == SLICE:
                kind = items(kind[2])[int(rest[0])]
            elif form is None:
                kind = self.program.fields(kind)[0][int(rest[0])]
            else:       # the first says which form it is
                inside = [["ty_int", "w8"], *self.program.fields(kind)[form]]
                kind, form = inside[int(rest[0])], None
        return kind

    def inside(self, value, way, form):
        """What is found one way further in; form: whether in a form of an enum."""
        if way[0] == "variant":
            return value
        if way[0] == "field":
            at = int(way[1])
            if isinstance(value, tuple) and at < len(value):
                return value[at]
            if form and at == 0:
                return Asked("")        # which form it is, and no number
            return self.text(value, f".{at}")
        if way[0] != "deref":
            raise Unreadable(f"the way {way[0]}")
        if isinstance(value, At) and str(value) == f"value {value.value}":
            return self.known.get(value.value, str(value))
        if isinstance(value, At) and str(value) in self.constants:
            return self.constants[str(value)]
        return self.text("*", value)

    def read(self, value, ways):
        """What is found at a place."""
        found, form = self.known.get(value, f"value {value}"), False
        for way in ways:
            found = self.inside(found, way, form)
            form = way[0] == "variant"
        return found

    def address(self, place):
        """The address of a place."""
        value, ways = int(place[1]), items(place[2])
        behind = max((at for at, way in enumerate(ways) if way[0] == "deref"),
                     default=-1)
        pointer = At(f"value {value}", value)
        if behind >= 0:
            pointer = self.pointer(self.read(value, ways[:behind]))
        fields = [f".{way[1]}" for way in ways[behind + 1:] if way[0] == "field"]
        return At(self.text(pointer, *fields), pointer.value) if fields else pointer

    def pointer(self, value):
        return value if isinstance(value, At) else At(self.text("*", value))

    def write(self, place, value):
        """Puts a value at a place."""
        to = self.address(place)
        self.give(str(to), value)
        if items(place[2]):
            self.note(to, to.index, value)
            self.known.pop(to.value, None)
            return
        if self.function.values[to.value][0] == "ty_array":
            for part in dict.fromkeys(value) if isinstance(value, tuple) else [value]:
                self.note(to, EACH, part)
        self.known[to.value] = value

    def note(self, to, index, value):
        self.written.setdefault(to.text, []).append((index, value))

    def give(self, where, value):
        self.given.append((where, value, tuple(self.tests)))

    # ---- what is written

    def operand(self, term):
        if isinstance(term, str):
            return Sign(term.removeprefix("opd_"))
        if term[0] in ("int", "float"):
            return int(term[2])
        if term[0] == "copy":
            return self.read(int(term[1][1]), items(term[1][2]))
        raise Unreadable(f"the operand {term[0]}")

    def single(self, name, a):
        """What an operation on one value gives."""
        if isinstance(a, Asked) or (name == "cast" and isinstance(a, int)):
            return a
        return Made(name, (a,)) if is_known(a) else self.text(name, a)

    def pair(self, name, a, b):
        """What an operation on two values gives."""
        if name == "offset":
            to = self.pointer(a)
            return At(to.text, to.value, b if to.index is None else (to.index, b))
        if name in ("shl", "shr") and is_known(a) and not is_known(b):
            self.shifted.append(a)
        if name in COMPARED and is_known(a) != is_known(b):
            other = b if is_known(a) else a
            return other if isinstance(other, Asked) else Asked(str(other))
        made = Made(name, (a, b))
        if is_known(made):
            return made
        if is_known(a) or is_known(b):
            self.give(self.text(name, b if is_known(a) else a), a if is_known(a) else b)
        return self.text(name, a, b)

    def aggregate(self, place, values):
        kind = self.kind(place)
        if kind[0] == "ty_named":
            self.program.fields(kind)       # it is declared
            if self.program.types[kind[1]][0] == "variants":
                values = (Sign(f"form {values[0]}"), *values[1:])
        self.made.append((place, kind, values))
        return values

    def constant(self, place, kind, term):
        """The address of a constant that is lent."""
        address, value = At(self.new()), constant(term)
        self.constants[address.text] = value
        if isinstance(value, tuple):
            self.made.append((place, kind, value))
        return address

    def lend(self, address, kind):
        """An address.  If it may be written by, what is there is known no more."""
        if kind != "ty_ptr" and (kind[0] != "ty_ref" or kind[1] != "imm"):
            self.note(address, None, self.new())
            self.known.pop(address.value, None)
        return address

    def result(self, place, what):
        """The value that an assignment puts at a place."""
        head, *rest = what
        if head == "rv_opd":
            return self.operand(rest[0])
        if head == "aggregate":
            return self.aggregate(place, tuple(map(self.operand, items(rest[0]))))
        if head == "repeat":
            return (self.operand(rest[0]),) * int(rest[1])
        if head == "op1":
            return self.single(operation(rest[0]), self.operand(rest[1]))
        if head == "op2":
            return self.pair(operation(rest[0]), *map(self.operand, rest[1:]))
        if head == "addr_of":
            return self.lend(self.address(rest[0]), self.kind(place))
        raise Unreadable(f"the value {head}")

    def call(self, made):
        self.handed.append(made.of)
        if not is_known(made):
            for at, value in enumerate(made.of, 1):
                self.give(f"parameter {at} of {made.name}", value)

    # ---- steps: each says whether anything comes after it

    def one_of(self, of, by, ways):
        """Walks each way of a test, and goes on with what they have in common.  If not
        all lead on, what follows is on the way that does, or on one of its own."""
        self.begun += 1
        number, deep, left = self.begun, len(self.tests), len(self.left)
        before, lead_on = self.known, {}
        for at, way in enumerate(ways):
            self.known = dict(before)
            self.tests.append((of, by, (number, at)))
            if self.walk(way):
                lead_on[at] = self.known
            del self.tests[deep:]
        self.known = common(lead_on.values()) if lead_on else before
        if any(to < self.around for to in self.left[left:]):
            at = list(lead_on)[0] if len(lead_on) == 1 else len(ways)
            self.tests.append((of, by, (number, at)))
        return bool(lead_on)

    def within(self, body):
        """Walks what may be left from inside, or gone through again."""
        for value in set(changed(body)):
            self.known.pop(value, None)
        deep, before = len(self.tests), dict(self.known)
        self.around += 1
        self.walk(body)
        self.around -= 1
        del self.tests[deep:]
        self.known = before

    def leave(self, to):
        self.left.append(to)
        return False

    def walk(self, step):
        leads_on = True
        while step[0] == "seq":
            leads_on = self.walk(step[1]) and leads_on
            step = step[2]
        return self.step(step) and leads_on

    def step(self, step):
        if step in ("skip", "no_default", "unreachable"):
            return step == "skip"
        if step == "return":
            return self.leave(-1)
        if step[0] == "exit":
            return self.leave(self.around - 1 - int(step[1]))
        if step[0] == "assign":
            self.write(step[1], self.result(step[1], step[2]))
        elif step[0] == "call":
            made = Made(called(step), tuple(map(self.operand, items(step[2]))))
            self.call(made)
            self.write(step[3], made if is_known(made) else self.new())
        elif step[0] == "lend_static":
            self.write(step[1], self.constant(*step[1:]))
        elif step[0] in ("block", "loop"):
            self.within(step[1])
        elif step[0] in ("cond", "switch"):
            return self.test(*step)
        else:
            raise Unreadable(f"the step {step[0]}")
        return True

    def test(self, by, asked, *ways):
        asked = self.operand(asked)
        if by == "switch":
            ways = arms(ways[0])
            asked = Asked(asked) if isinstance(asked, str) else asked
        return self.one_of(asked.of if isinstance(asked, Asked) else "", by, ways)


def walked(program, function):
    """A walk through all of a function."""
    walk = Walk(program, function)
    walk.walk(function.body)
    return walk
