"""Buffers for a block, planted in the source: each form that audit/buffers.py must
refuse, some that it must not, and what it must say.

An edit is a crate's file, a text that stands there once, and what is put in its place.
"""

from dataclasses import dataclass


@dataclass
class Plant:
    edits: list
    says: tuple             # how the lines begin that are said; none: it is not refused
    and_more: bool = False  # other lines are said too


def before(crate, text, more, file="lib"):
    """An edit that puts lines before a text."""
    return crate, file, text, more + text


def behind(crate, more, file="lib"):
    """An edit that puts items at a file's end."""
    return crate, file, None, more


# ---- the text before which something is planted, in each call

READ = "    match correct(block, s, m, output) {\n        Ok(made)"
CORRECT = "    let d = decode::decode(s, m);\n    let Ok(correction)"
GET = "    block::read_noted(&bank[from..end], m, out, w)"
PATROL = "    block::mend(&mut bank[start..end], m, w)"
REPORT = "    let mut left = block::four_unclean(four);"
MEND = "    match decode::decode(s, m) {\n        Ok(made) => {"
LOOK = "    match decode::decode(s, m) {\n        Ok(seen)"
NO_MARKS = "    let n = change::count(equations::alone(rows, 0));"
OVER_CARDS = "    let rows = sums::rows(s);\n    let mut held: Option<change::Change> = None;"
ROWS = "    word(b, i) ^ word(b, 9 + i)"
WITH_PAIR = "        squared: pairs::squared(v),\n"
COPY = "    let mut piece = [0u8; 16];"
FROM_C = "    encode::of_reading(block::read(block, marks::from_slice(m), out))"
COMMAND = "    registers::write(&mut registers,"
LABELS = "    let labels = code::labels();\n"
BEHIND_LABELS = "    let rows = sums::rows(s);\n    let mut held"
RUN = "    let Some(command) = command_of(*r, v) else {"


def first_of(parameters, first):
    """A function that only looks at what it is handed."""
    return f"\nfn first_of({parameters}) -> u8 {{\n    {first}\n}}\n"


def held(name, kind):
    return f"{name}: a value of its own is {kind}"


ARRAYS = {
    "array": Plant(
        [before("block", CORRECT, "    let mut whole = [0u8; 45];\n"
                                  "    whole.copy_from_slice(received);\n")],
        (held("block::correct", "[u8; 45], 45 bytes"),
         "block::correct: its arrays are")),
    "array in read": Plant(
        [before("block", READ, "    let whole = [0u8; 46];\n")],
        (held("block::read", "[u8; 46], 46 bytes"),
         "block::read: its arrays are")),
    "array in patrol": Plant(
        [before("bank", PATROL, "    let whole = [0u8; 45];\n")],
        (held("bank::patrol", "[u8; 45], 45 bytes"),
         "bank::patrol: its arrays are")),
    "array in report": Plant(
        [before("bank", REPORT, "    let whole = [0u8; 45];\n")],
        (held("bank::count_four", "[u8; 45], 45 bytes"),
         "bank::count_four: its arrays are")),
    "array in a call from C": Plant(
        [before("capi", FROM_C, "    let whole = [0u8; 45];\n")],
        (held("capi::livomashen_read", "[u8; 45], 45 bytes"),
         "capi::livomashen_read: its arrays are")),
    "array in a register write": Plant(
        [before("capi", COMMAND, "    let whole = [0u8; 45];\n")],
        (held("capi::write_bytes", "[u8; 45], 45 bytes"),
         "capi::write_bytes: its arrays are")),
    "array of words": Plant(
        [before("sums", ROWS, "    let mut words = [0u64; 6];\n    words[0] = word(b, 0);\n")],
        (held("sums::rows_from", "[u64; 6], 48 bytes"),
         "sums::rows_from: its arrays are")),
    "array of truth values": Plant(
        [before("decode", NO_MARKS, "    let whole = [false; 45];\n")],
        (held("decode::no_marks", "[bool; 45], 45 bytes"),)),
    "array of fractions": Plant(
        [before("decode", NO_MARKS, "    let whole = [0.5f64; 6];\n")],
        (held("decode::no_marks", "[f64; 6], 48 bytes"),)),
    "array of arrays": Plant(
        [before("decode", NO_MARKS, "    let cards = [rows; 5];\n")],
        (held("decode::no_marks", "[[u8; 9]; 5], 45 bytes"),)),
    "array of structs": Plant(
        [before("decode", NO_MARKS, "    let five = [s; 5];\n")],
        (held("decode::no_marks", "[sums::Sums; 5], 55 bytes"),)),
    "array of a length that has a name": Plant(
        [behind("block", "\nconst WHOLE: usize = 9 * 5;\n"),
         before("block", READ, "    let whole = [0u8; WHOLE];\n")],
        (held("block::read", "[u8; 45], 45 bytes"),
         "block::read: its arrays are")),
    "array whose type has a name": Plant(
        [behind("block", "\ntype Whole = [u8; 45];\n"),
         before("block", READ, "    let whole: Whole = [0; 45];\n")],
        (held("block::read", "[u8; 45], 45 bytes"),
         "block::read: its arrays are")),
    "array without a name": Plant(
        [behind("block", first_of("b: &[u8]", "b[0]")),
         before("block", READ, "    first_of(&[received[0], "
                + "received[1], " * 44 + "]);\n")],
        (held("block::read", "[u8; 45], 45 bytes"),
         "block::read: its arrays are")),
    "array of 44 bytes": Plant(
        [before("bank", PATROL, "    let most = [0u8; 44];\n")], ()),
}

COPIES = {
    "copied part": Plant(
        [("bank", "lib", GET, "    let mut part = [0u8; 45];\n"
                              "    part.copy_from_slice(&bank[from..end]);\n"
                              "    block::read_noted(&part, m, out, w)")],
        (held("bank::get", "[u8; 45], 45 bytes"),
         "bank::get: its arrays are")),
    "copy of what is lent": Plant(
        [before("block", MEND, "    let kept = *w;\n")],
        (held("block::mend", "[u8; 64], 64 bytes"),
         "block::mend: its arrays are")),
}

STRUCTS = {
    "struct": Plant(
        [behind("sums", "\n#[derive(Clone, Copy)]\nstruct Whole {\n    bytes: [u8; 45],\n}\n"),
         before("sums", ROWS, "    let whole = Whole { bytes: [0; 45] };\n")],
        (held("sums::rows_from", "[u8; 45], 45 bytes"),
         held("sums::rows_from", "sums::Whole, 45 bytes"),
         "sums::rows_from: its arrays are")),
    "struct of five cards": Plant(
        [behind("decode", "\n#[derive(Clone, Copy)]\nstruct Cards {\n    a: [u8; 9],\n    b: [u8; 9],\n"
                          "    c: [u8; 9],\n    d: [u8; 9],\n    e: [u8; 9],\n}\n"),
         before("decode", NO_MARKS, "    let five = Cards { a: rows, b: rows, c: rows, "
                                    "d: rows, e: rows };\n")],
        (held("decode::no_marks", "decode::Cards, 45 bytes"),)),
    "struct of words": Plant(
        [behind("sums", "\n#[derive(Clone, Copy)]\nstruct SixWords {\n    a: u64,\n    b: u64,\n    c: u64,\n"
                        "    d: u64,\n    e: u64,\n    f: u64,\n}\n"),
         before("sums", ROWS, "    let a = word(b, 0);\n"
                "    let six = SixWords { a, b: a, c: a, d: a, e: a, f: a };\n")],
        (held("sums::rows_from", "sums::SixWords, 48 bytes"),)),
    "struct in a struct": Plant(
        [behind("decode", "\n#[derive(Clone, Copy)]\nstruct Inner {\n    bytes: [u8; 36],\n}\n"
                          "\n#[derive(Clone, Copy)]\nstruct Outer {\n    four: Inner,\n    fifth: [u8; 9],\n}\n"),
         before("decode", NO_MARKS, "    let five = Outer { four: Inner { bytes: [0; 36] }, "
                                    "fifth: rows };\n")],
        (held("decode::no_marks", "decode::Outer, 45 bytes"),)),
    "enum": Plant(
        [behind("decode", "\n#[derive(Clone, Copy)]\nenum Tried {\n    Byte(u8),\n    Block([u8; 44]),\n}\n"),
         before("decode", NO_MARKS, "    let tried = Tried::Block([0; 44]);\n")],
        (held("decode::no_marks", "decode::Tried, 45 bytes"),)),
    "longer struct of the source": Plant(
        [("change", "lib", "    pub q: u8,\n", "    pub q: u8,\n    pub found: [u8; 31],\n"),
         ("decode", "equations", "            rows: both,\n",
          "            rows: both,\n            found: [0; 31],\n")],
        ("change::apply: parameter 2 is change::Change, 45 bytes",
         "decode::equations::alone: its result is change::Change, 45 bytes"),
        and_more=True),
}

PARAMETERS = {
    "parameter by value": Plant(
        [behind("block", first_of("b: [u8; 64]", "b[0]")),
         before("block", MEND, "    first_of(*w);\n")],
        ("block::first_of: parameter 1 is [u8; 64], 64 bytes",
         "block::first_of: it is handed 64 bytes by value"),
        and_more=True),
    "struct by value": Plant(
        [behind("decode", "\n#[derive(Clone, Copy)]\nstruct Pair {\n    a: [u8; 9],\n    b: [u64; 5],\n    last: u8,\n}\n"
                + first_of("pair: Pair", "pair.last")),
         before("decode", NO_MARKS, "    first_of(Pair { a: rows, b: [0; 5], last: 0 });\n")],
        (held("decode::no_marks", "decode::Pair, 50 bytes"),
         "decode::first_of: parameter 1 is decode::Pair, 50 bytes",
         "decode::first_of: it is handed 50 bytes by value")),
    "parameters together": Plant(
        [behind("decode", first_of("a: [u8; 9], b: [u8; 9], c: [u8; 9], d: [u8; 9], "
                            "e: [u8; 9]", "a[0]")),
         before("decode", NO_MARKS, "    first_of(rows, rows, rows, rows, rows);\n")],
        ("decode::first_of: it is handed 45 bytes by value",)),
    "result": Plant(
        [behind("sums", "\nfn blank() -> [u8; 45] {\n    [0; 45]\n}\n"),
         before("sums", ROWS, "    blank();\n")],
        (held("sums::rows_from", "[u8; 45], 45 bytes"),
         "sums::blank: its result is [u8; 45], 45 bytes",
         "sums::rows_from: its arrays are")),
}

DEEP = {
    "two calls down": Plant(
        [behind("sums", "\nfn one_down(b: &[u8]) -> u64 {\n    two_down(b)\n}\n"
                        "\nfn two_down(b: &[u8]) -> u64 {\n    let mut whole = [0u8; 45];\n"
                        "    whole[0] = b[0];\n    u64::from(whole[0])\n}\n"),
         before("sums", ROWS, "    one_down(b);\n")],
        (held("sums::two_down", "[u8; 45], 45 bytes"),
         "sums::two_down: its arrays are")),
    "two crates down": Plant(
        [behind("field", "\npub fn kept(b: &[u8]) -> u8 {\n    let mut whole = [0u8; 45];\n"
                         "    whole[0] = b[0];\n    whole[0]\n}\n"),
         behind("sums", "\npub fn tried(b: &[u8]) -> u8 {\n    field::kept(b)\n}\n"),
         before("block", CORRECT, "    sums::tried(received);\n")],
        (held("field::kept", "[u8; 45], 45 bytes"),
         "field::kept: its arrays are")),
    "in a function that no call of the reading reaches": Plant(
        [before("store", "    begin(rec, sums::rows(s), out);", "    let whole = [0u8; 45];\n")],
        ()),
}

PIECES = {
    "two arrays": Plant(
        [before("block", COPY, "    let mut more = [0u8; 29];\n")],
        ("block::copy_sixteen: its arrays are",)),
    "two arrays of 44 bytes together": Plant(
        [before("block", COPY, "    let mut more = [0u8; 28];\n")], ()),
    "two arrays in a register write": Plant(
        [before("registers", RUN, "    let a = [0u8; 23];\n    let b = [0u8; 22];\n")],
        ("registers::run: its arrays are",)),
    "arrays in an enum": Plant(
        [behind("block", "\n#[derive(Clone, Copy)]\nenum Tried {\n    Byte(u8),\n    Half([u8; 15]),\n}\n"),
         before("block", COPY, "    let a = Tried::Half([0; 15]);\n")],
        ("block::copy_sixteen: its arrays are",)),
    "arrays where a struct is lent bytes": Plant(
        [behind("block", "\n#[derive(Clone, Copy)]\nstruct Lent<'a> {\n    bytes: &'a [u8],\n}\n"
                         "\nfn halves(lent: Lent) -> u8 {\n    let a = [0u8; 23];\n"
                         "    let b = [0u8; 22];\n    lent.bytes[0]\n}\n"),
         before("block", CORRECT, "    halves(Lent { bytes: received });\n")],
        ("block::halves: its arrays are",)),
    "arrays in the search, which has the sums alone": Plant(
        [before("decode", OVER_CARDS, "    let a = [0u8; 23];\n    let b = [0u8; 22];\n")],
        ()),
    "arrays in structs": Plant(
        [behind("block", "\n#[derive(Clone, Copy)]\nstruct Half {\n    bytes: [u8; 14],\n    last: u8,\n}\n"),
         before("block", COPY, "    let half = Half { bytes: [0; 14], last: 0 };\n"
                               "    let other = half;\n")],
        ("block::copy_sixteen: its arrays are",)),
}

TURNS = {
    "function that calls itself": Plant(
        [behind("sums", "\nfn again(b: &[u8], j: usize) -> u64 {\n"
                        "    if j == 5 {\n        return 0;\n    }\n"
                        "    let card = [b[j]; 9];\n    again(b, j + 1) ^ u64::from(card[0])\n}\n"),
         before("sums", ROWS, "    again(b, 0);\n")],
        ("sums::again: it can reach itself",)),
    "two functions that call each other": Plant(
        [behind("sums", "\n#[cycle(turns)]\nfn odd(b: &[u8], j: usize) -> u64 {\n    even(b, j)\n}\n"
                        "\n#[cycle(turns)]\nfn even(b: &[u8], j: usize) -> u64 {\n"
                        "    if j == 0 {\n        return u64::from(b[0]);\n    }\n"
                        "    odd(b, j - 1)\n}\n"),
         before("sums", ROWS, "    odd(b, 4);\n")],
        ("sums::odd: it can reach itself", "sums::even: it can reach itself")),
}

SEARCH = {
    "search that is lent the block": Plant(
        [("decode", "lib", "pub fn decode(s: sums::Sums, m: marks::Marks)",
          "pub fn decode(block: &[u8], s: sums::Sums, m: marks::Marks)"),
         ("block", "lib", CORRECT, CORRECT.replace("(s, m)", "(received, s, m)")),
         ("block", "lib", MEND, MEND.replace("(s, m)", "(block, s, m)")),
         ("block", "lib", LOOK, LOOK.replace("(s, m)", "(block, s, m)"))],
        ("decode::decode: it is handed {'&[u8]': 0, 'sums::Sums': 11, 'marks::Marks': 5}",
         "decode::decode: it is lent bytes")),
    "search beside it that is lent the block": Plant(
        [behind("decode", "\npub fn find(block: &[u8]) -> u8 {\n    block[0]\n}\n"),
         before("block", CORRECT, "    decode::find(received);\n")],
        ("decode::find: it is lent bytes",)),
    "search of another name": Plant(
        [("decode", "lib", "pub fn decode(s:", "pub fn find(s:"),
         ("block", "lib", CORRECT, CORRECT.replace("decode(s", "find(s")),
         ("block", "lib", MEND, MEND.replace("decode(s", "find(s")),
         ("block", "lib", LOOK, LOOK.replace("decode(s", "find(s"))],
        ("decode::decode: it is not reached",
         # what is no part of the search any more
         "decode::beside_card: its arrays are",
         "decode::equations::Equations::with_one: its arrays are")),
    "sums with a byte more": Plant(
        [("sums", "lib", "    pub squared: u8,\n", "    pub squared: u8,\n    pub first: u8,\n"),
         ("sums", "lib", WITH_PAIR, WITH_PAIR + "        first: low as u8,\n")],
        ("decode::decode: it is handed {'sums::Sums': 12, 'marks::Marks': 5}",)),
    "reading that is not followed": Plant(
        [behind("capi", "\n#[unsafe(no_mangle)]\npub extern \"C\" fn livomashen_peek(block: &mut [u8], "
                        "m: &[u8]) -> u32 {\n    let mut whole = [0u8; 45];\n"
                        "    whole.copy_from_slice(block);\n    encode::of_reading("
                        "block::read(&whole, marks::from_slice(m), block))\n}\n")],
        ("capi::livomashen_peek: it reads, and is not followed",)),
}

TABLES = {
    "table that is written": Plant(
        [("decode", "lib", LABELS + BEHIND_LABELS,
          "    let mut labels = code::labels();\n    labels[0] = s.high;\n" + BEHIND_LABELS)],
        (held("decode::over_cards", "[u8; 45], 45 bytes"),)),
    "table that is lent to be written": Plant(
        [behind("decode", "\nfn fill(b: &mut [u8]) {\n    b[0] = 1;\n}\n"),
         ("decode", "lib", LABELS + BEHIND_LABELS,
          "    let mut labels = code::labels();\n    fill(&mut labels);\n" + BEHIND_LABELS)],
        (held("decode::over_cards", "[u8; 45], 45 bytes"),)),
    "part of a table that is lent to be written": Plant(
        [behind("decode", "\nfn fill(b: &mut [u8]) {\n    b[0] = 1;\n}\n"),
         ("decode", "lib", LABELS + BEHIND_LABELS,
          "    let mut labels = code::labels();\n    fill(&mut labels[9..18]);\n" + BEHIND_LABELS)],
        (held("decode::over_cards", "[u8; 45], 45 bytes"),)),
    "value that is a table only at first": Plant(
        [("decode", "lib", LABELS + BEHIND_LABELS,
          "    let mut labels = code::labels();\n    labels = [s.high; 45];\n" + BEHIND_LABELS)],
        (held("decode::over_cards", "[u8; 45], 45 bytes"),)),
    "constants of another function": Plant(
        [before("decode", NO_MARKS, "    let sevens = [7u8; 45];\n")],
        (held("decode::no_marks", "[u8; 45], 45 bytes"),)),
    "table with something else in it": Plant(
        [("code", "lib", "pub fn labels() -> [u8; 45]", "pub fn labels(x: u8) -> [u8; 45]"),
         ("code", "lib", "    LABELS\n", "    [x; 45]\n"),
         ("decode", "lib", LABELS + BEHIND_LABELS,
          "    let labels = code::labels(s.high);\n" + BEHIND_LABELS),
         ("decode", "lib", LABELS, "    let labels = code::labels(s.high);\n")],
        ("code::labels: its result is [u8; 45], 45 bytes",)),
    "table with another name": Plant(
        [("sums", "words", "pub(crate) fn card_words(j", "pub(crate) fn words_of(j"),
         ("sums", "built_in", "words::card_words(j)", "words::words_of(j)")],
        (held("sums::built_in::gather_card", "[u64; 9], 72 bytes"),
         held("sums::words::words_of", "[u64; 9], 72 bytes"),
         "sums::words::words_of: its result is [u64; 9], 72 bytes",
         "sums::words::card_words: it is not reached")),
    "copy of a table": Plant(
        [("decode", "lib", LABELS + BEHIND_LABELS,
          LABELS + "    let same = labels;\n" + BEHIND_LABELS),
         ("decode", "lib", "            labels: &labels,\n            rows,\n            once: field",
          "            labels: &same,\n            rows,\n            once: field")], ()),
}

ALL = {**ARRAYS, **COPIES, **STRUCTS, **PARAMETERS, **DEEP, **PIECES, **TURNS, **SEARCH,
       **TABLES}
