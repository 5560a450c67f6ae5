"""Code in the language that the compiler lowers to, as terms: `["assign", place, value]`.

A proof rests on a module for each function that has its code, and the compiler prints it
when asked: applications, with each list as a chain of pairs, each name of a type as its
bytes, and statements under names of their own.  A library of the kit has its functions'
code in a file, mir.json.  Both are read here into the same terms, where

- a list is `["list", ..]`;
- a function that is called is `["fn", NAME, types, dictionaries]`, a method of a
  dictionary `["method", dictionary, number, types, dictionaries]`;
- a dictionary is `["impl", methods' names, types, dictionaries]`, or `["given", number]`;
- a type that is declared is `["ty_named", NAME, types]`, and a reference
  `["ty_ref", "mut" or "imm", type]`.
"""

import re


class Unreadable(Exception):
    """Something that is not understood here, so that nothing may be said of it."""


TOKEN = re.compile(r'"[^"]*"|[(){},;]|[^\s(){},;"]+')
COPY = re.compile(r"^copies::copy\d+::")       # where a copy of the source is read
HOME = re.compile(r"(?:Syntax|List|Table|MapTy|Ieee)'*\d*\.(?=.)")
PAIRS = {"◌∷◌", "tcons", "ttcons", "dcons", "ccons"}
ENDS = {"[]", "tnil", "ttnil", "dnil", "cnil"}
EMPTY = ["list"]


def items(list_term):
    """The members of a list."""
    if not isinstance(list_term, list) or list_term[:1] != EMPTY:
        raise Unreadable(f"no list: {list_term}")
    return list_term[1:]


def parts(some_term):
    """Every term within, itself first."""
    waiting = [some_term]
    while waiting:
        part = waiting.pop()
        if part and isinstance(part, list):
            yield part
            waiting += reversed(part)


# ---- what is printed

def grouped(groups):
    """What stands between brackets: one term, or several behind commas."""
    if groups and not groups[-1]:
        groups = groups[:-1]                        # behind the last comma
    terms = [group[0] if len(group) == 1 else group for group in groups]
    if not terms or [] in terms:
        raise Unreadable("brackets with nothing inside")
    return terms[0] if len(terms) == 1 else ["tuple", *terms]


def term(text):
    """`a (b, c)` as ["a", ["tuple", "b", "c"]], with lists still as chains."""
    begun = [("", [[]])]
    for word in TOKEN.findall(text):
        if word in ("(", "{"):
            begun.append((word, [[]]))
        elif word in (",", ";"):
            begun[-1][1].append([])
        elif word not in (")", "}"):
            begun[-1][1][-1].append(word if word[0] == '"' else HOME.sub("", word))
        elif begun[-1][0] != {")": "(", "}": "{"}[word]:
            raise Unreadable("the end of a term that has not begun")
        else:
            _, groups = begun.pop()
            if word == ")":
                begun[-1][1][-1].append(grouped(groups))
            else:
                fields = [(group[0], group[2:]) for group in groups if group]
                begun[-1][1][-1].append({name: value[0] if len(value) == 1 else value
                                         for name, value in fields})
    if len(begun) > 1:
        raise Unreadable("a term without its end")
    return grouped(begun[0][1])


def text_of(found):
    """A type's name: its bytes."""
    return COPY.sub("", bytes(map(int, items(found))).decode())


class Printed:
    """A module as the compiler prints it."""

    DEFINITION = re.compile(r"^abbrev pub (\S+) :.*\n\1 =", re.M)
    HOME = r"^use Rattle\.(?:\w+\.below\.)?(\w+)"
    SYMBOL = re.compile(HOME + r"\.proofs\.(\S+)\.Symbol(?: as (\S+))?$", re.M)
    KEY = re.compile(HOME + r"\.specs\.contracts\.(\S+)\.Key(?: as (\S+))?$", re.M)

    def __init__(self, text):
        self.called = {}
        for pattern, own in ((self.SYMBOL, "Symbol"), (self.KEY, "Key")):
            for crate, path, alias in pattern.findall(text):
                name = "::".join([crate, *path.split(".")])
                self.called[f"{alias or own}.name"] = COPY.sub("", name)
        begins = list(self.DEFINITION.finditer(text))
        ends = [found.start() for found in begins[1:]] + [len(text)]
        self.texts = {found[1]: text[found.end():to] for found, to in zip(begins, ends)}
        self.known = {}

    def definition(self, name):
        """What a name of the module stands for."""
        if name not in self.texts:
            raise Unreadable(f"a module without {name}")
        if name not in self.known:
            self.known[name] = self.plain(term(self.texts[name]))
        return self.known[name]

    def members(self, chain):
        """The members of a list, which is a chain of pairs."""
        found = EMPTY[:]
        while isinstance(chain, list) and chain[0] in PAIRS:
            _, first, chain = chain
            found.append(self.plain(first))
        return found + items(self.plain(chain))

    def plain(self, read):
        """A term with all that its names stand for."""
        if isinstance(read, dict):
            return {name: self.plain(value) for name, value in read.items()}
        if isinstance(read, str):
            if read in ENDS:
                return EMPTY
            if read in self.called:
                return ["fn", self.called[read], EMPTY, EMPTY]
            return self.definition(read) if read in self.texts else COPY.sub("", read.strip('"'))
        head, *rest = read
        if head in PAIRS:
            return self.members(read)
        if head in self.called:
            _, types, dictionaries = rest[0]
            return ["fn", self.called[head], self.plain(types), self.plain(dictionaries)]
        rest = list(map(self.plain, rest))
        if head in ("fn", "method") and rest[-1][0] == "tuple":
            return [head, *rest[:-1], *rest[-1][1:]]
        if head == "ty_named":
            return [head, text_of(rest[0][1]), rest[1]]
        if head in ("ty_struct", "ty_enum"):
            return [head, text_of(rest[0]), rest[1]]
        if head == "ty_ref":
            return [head, *rest[1:]]
        if head == "int_neg":
            return ["int", rest[0], str(2 ** int(rest[0][1:]) - int(rest[1]))]
        return ["int" if head == "int_big" else self.plain(head), *rest]

    def function(self):
        """The function, and the types that it lays out: each with its name and shape."""
        if "by_name" not in self.texts:
            return self.definition("function")[1], []
        table = [entry[1:] for entry in items(self.definition("table"))]
        return self.definition("by_name")[1], [(text_of(name), shape)
                                               for name, _, shape in table]


# ---- what a library of the kit has

PLAIN = {"Opd": "rv_opd", "Xor": "bit_xor", "And": "bit_and", "Or": "bit_or",
         "Not": "bit_not", "If": "cond"}


def snake(name):
    return PLAIN.get(name) or re.sub(r"(?<!^)(?=[A-Z])", "_", name).lower()


def headed(held, about):
    """A name by itself, or the only one that something stands under."""
    if isinstance(held, dict) and len(held) == 1:
        return next(iter(held.items()))
    if isinstance(held, str):
        return held, None
    raise Unreadable(f"{about}: {held}")


class Held:
    """A function as mir.json has it."""

    def __init__(self, held):
        self.held = held
        self.methods = {impl["name"]: impl["methods"] for impl in held["generics"]["impls"]}

    def function(self):
        locals_ = [["local", self.type(local["ty"]), snake(local["home"])]
                   for local in self.held["locals"]]
        kinds = ["a_type" if kind["const_bits"] is None else "a_number"
                 for kind in self.held["generics"]["types"]]
        return {"params": str(self.held["params"]), "locals": [*EMPTY, *locals_],
                "ty_params": [*EMPTY, *kinds],
                "givens": str(len(self.held["generics"]["bounds"])),
                "body": self.body(iter(self.held["body"]))}

    def types(self):
        for declared in self.held["types"]:
            head, inside = headed(declared["shape"], "the shape")
            tys = (self.list(inside, self.type) if head == "Fields" else
                   self.list(inside, lambda form: self.list(form, self.type)))
            yield declared["name"], [snake(head), tys]

    def list(self, held, each):
        return [*EMPTY, *map(each, held)]

    def type(self, held):
        head, inside = headed(held, "the type")
        if inside is None:
            return f"ty_{snake(head)}"
        if head == "Array":
            count, number = headed(inside[1], "the length")
            name = {"Lit": "ty_array", "Param": "ty_array_p"}[count]
            return [name, self.type(inside[0]), str(number)]
        if head in ("Int", "Float"):
            return [f"ty_{snake(head)}", f"{head[0].replace('I', 'w')}{inside}"]
        if head in ("Param", "Const"):
            return [f"ty_{snake(head)}", str(inside)]
        if head == "Ref":
            return ["ty_ref", snake(inside[1]), self.type(inside[2])]
        if head == "Struct":
            return ["ty_struct", inside[0], self.list(inside[1], self.type)]
        if head == "Named":
            return ["ty_named", inside[0]["name"], self.list(inside[1], self.type)]
        raise Unreadable(f"the type {head}")

    def place(self, held):
        steps = [[snake(head), self.type(inside) if head == "Deref" else str(inside)]
                 for head, inside in (headed(step, "the way") for step in held["steps"])]
        return ["place", str(held["local"]), [*EMPTY, *steps]]

    def operand(self, held):
        head, inside = headed(held, "the operand")
        if inside is None:
            return f"opd_{snake(head)}"
        if head == "Copy":
            return ["copy", self.place(inside)]
        if head == "Int":
            return ["int", f"w{inside['width']}", str(inside["value"])]
        if head in ("SizeOf", "AlignOf"):
            return [snake(head), self.type(inside)]
        if head == "NumOf":
            return ["num_of", f"w{inside[0]}", self.type(inside[1])]
        raise Unreadable(f"the operand {head}")

    def operation(self, held):
        head, inside = headed(held, "the operation")
        more = inside if isinstance(inside, list) else [inside]
        return snake(head) if inside is None else [snake(head), *map(snake, map(str, more))]

    def value(self, held):
        head, inside = headed(held, "the value")
        if head == "Opd":
            return ["rv_opd", self.operand(inside)]
        if head in ("Op1", "Op2"):
            return [snake(head), self.operation(inside[0]), *map(self.operand, inside[1:])]
        if head == "AddrOf":
            return ["addr_of", self.place(inside)]
        if head == "Aggregate":
            return ["aggregate", self.list(inside, self.operand)]
        if head == "Repeat":
            count, number = headed(inside[1], "the length")
            return [{"Lit": "repeat", "Param": "repeat_p"}[count], self.operand(inside[0]),
                    str(number)]
        raise Unreadable(f"the value {head}")

    def dictionary(self, held):
        head, inside = headed(held, "the dictionary")
        if head == "Given":
            return ["given", str(inside)]
        name, types, dictionaries = inside
        return ["impl", [*EMPTY, *self.methods[name]], self.list(types, self.type),
                self.list(dictionaries, self.dictionary)]

    def callee(self, held):
        head, inside = headed(held, "the call of")
        if head not in ("Fn", "Method"):
            raise Unreadable(f"the call of {head}")
        named = ["fn", inside[0]] if head == "Fn" else \
                ["method", self.dictionary(inside[0]), str(inside[1])]
        return [*named, self.list(inside[-1]["types"], self.type),
                self.list(inside[-1]["dicts"], self.dictionary)]

    def body(self, parts_in_order):
        head, inside = headed(next(parts_in_order), "the step")
        if head == "Assign":
            return ["assign", self.place(inside[0]), self.value(inside[1])]
        if head == "Call":
            return ["call", self.callee(inside[0]), self.list(inside[1], self.operand),
                    self.place(inside[2])]
        if head in ("Skip", "Return", "Unreachable"):
            return snake(head)
        if head == "Exit":
            return ["exit", str(inside)]
        if head in ("Seq", "Block", "Loop", "If"):
            tested = [] if inside is None else [self.operand(inside)]
            more = 2 if head in ("Seq", "If") else 1
            return [snake(head), *tested, *(self.body(parts_in_order) for _ in range(more))]
        if head == "Switch":
            asked, keys, has_default = inside
            bodies = [self.body(parts_in_order) for _ in range(len(keys) + has_default)]
            arms = ["default", bodies[-1]] if has_default else "no_default"
            for key, body in reversed(list(zip(keys, bodies))):
                arms = ["arm", [*EMPTY, *map(str, key)], body, arms]
            return ["switch", self.operand(asked), arms]
        raise Unreadable(f"the step {head}")


# ---- at types and dictionaries

def at(generic, types, dictionaries):
    """A term of a generic function, with these in place of its parameters."""
    def nth(found, number):
        if int(number) >= len(found):
            raise Unreadable(f"a parameter {number} without its argument")
        return found[int(number)]

    def filled(part):
        if not isinstance(part, list) or not part:
            return part
        if part[0] == "ty_param":
            return nth(types, part[1])
        if part[0] == "given":
            return nth(dictionaries, part[1])
        if part[0] in ("ty_array_p", "repeat_p"):
            number = nth(types, part[2])
            if number[0] != "ty_const":
                raise Unreadable(f"a length that is no number: {number}")
            return [part[0].removesuffix("_p"), filled(part[1]), number[1]]
        return list(map(filled, part))

    return filled(generic) if types or dictionaries else generic
