"""Forms that a constant table can take, and others that are none.

Each form has its name behind `#`, what audit/constants.py says of it behind `=`, a line
for each table that it finds there, and then its items, of which `f` is looked at.  They
are put into a module of their own, so that all forms are lowered at once.
"""

from match_forms import MATCHES

AROUND = """
#[derive(Clone, Copy)] pub struct Pair { pub a: u8, pub b: [u8; 3] }
#[derive(Clone, Copy)] pub struct Two { pub a: [u8; 3], pub b: [u8; 3] }
#[derive(Clone, Copy)] pub struct Four { pub a: u8, pub b: u8, pub c: u64, pub d: u64 }
#[derive(Clone, Copy)] pub enum Kind { None, One(u8), Two(u8, u8), All }
pub fn taken(t: [u8; 3]) -> u8 { t[0] }
pub fn lent(t: &[u8]) -> u8 { t[0] }
pub fn twice(x: u8) -> u8 { x + x }
pub fn paired(a: u8, b: [u8; 3]) -> Pair { Pair { a, b } }
pub fn pick(i: u8, a: u8, b: u8, c: u8, d: u8) -> u8 { i + a + b + c + d }
pub fn fill(t: &mut [u8]) { t[0] = 1; }
pub fn count(x: &mut u8) { *x = *x + 1; }
pub fn say(t: &[u8], out: &mut text::Text) { out.put(t) }
pub fn say_at(t: &[u8], out: &mut text::Text) { out.at = t.len(); out.put(t) }
pub fn say_first(t: &[u8], out: &mut text::Text) -> u8 { out.put(t); t[0] }
"""

ARRAYS = """
# const
= an array of 3: 1, 2, 3
const T: [u8; 3] = [1, 2, 3];
pub fn f(i: usize) -> u8 { T[i] }

# const of a struct
= an array of 3: 1, 2, 3
const T: Pair = Pair { a: 9, b: [1, 2, 3] };
pub fn f() -> Pair { T }

# const of an impl
= an array of 2: 1, 2
pub struct S { pub a: u8 }
impl S { const T: [u8; 2] = [1, 2]; }
pub fn f(i: usize) -> u8 { S::T[i] }

# local
= an array of 5: 7, 5, 7, 5, ..
pub fn f(i: usize) -> u64 { let t = [7u64, 5, 7, 5, 7]; t[i] }

# handed
= an array of 3: 1, 2, 3
pub fn f() -> u8 { taken([1, 2, 3]) }

# lent
= an array of 2: 1, 2
pub fn f() -> u8 { lent(&[1, 2]) }

# in a struct
= an array of 3: 1, 2, 3
pub fn f(x: u8) -> Pair { Pair { a: x, b: [1, 2, 3] } }

# in a loop
= an array of 3: 1, 2, 3
pub fn f() -> u8 { let mut i = 0; while i < 9 { i = i + taken([1, 2, 3]); } i }

# of structs
= an array of 2: 1, 0, 0, 0, ..
pub fn f() -> [Pair; 2] { [Pair { a: 1, b: [0; 3] }, Pair { a: 2, b: [0; 3] }] }

# of arrays
= an array of 2: 1, 1, 2, 2
pub fn f() -> [[u8; 2]; 2] { [[1, 1], [2, 2]] }

# of forms
= an array of 2: form 0, form 3
pub fn f() -> [Kind; 2] { [Kind::None, Kind::All] }

# of truth values
= an array of 3: true, false, true
pub fn f(i: usize) -> bool { [true, false, true][i] }

# of fractions
= an array of 2: 4607182418800017408, 4611686018427387904
pub fn f(i: usize) -> f64 { [1.0, 2.0][i] }

# of names
= an array of 2: 1, 2
const A: u8 = 1;
const B: u8 = A + 1;
pub fn f() -> [u8; 2] { [A, B] }

# of sums
= an array of 2: 2, 3, 3
pub fn f() -> [u16; 2] { let a = 3; [2 * a, a as u16] }

# of calls
= an array of 2: 3, 4
pub fn f() -> [u8; 2] { [twice(3), twice(4)] }

# of what is referred to
= an array of 2: 3, 4
pub fn f() -> [u8; 2] { let a = 3; let r = &a; [*r, 4] }

# of what is the same wherever it goes on
= an array of 2: 1, 2
pub fn f(x: u8, y: u8) -> [u8; 2] {
    let mut a = 1;
    if x == 0 { a = y; if y == 1 { return [y; 2]; } else { return [0; 2]; } }
    [a, 2]
}

# into a part
= an array of 3: 1, 2, 3
pub fn f(p: &mut Pair) { p.b = [1, 2, 3]; }

# with others
= an array of 5 with 4 numbers: 1, 2, 4, 8
pub fn f(x: u8) -> [u8; 5] { [1, 2, x, 4, 8] }

# struct
= a struct with 4 numbers: 1, 2, 3, 4
pub fn f() -> Four { Four { a: 1, b: 2, c: 3, d: 4 } }

# call
= a call with 4 numbers: 1, 2, 4, 8
pub fn f(x: u8) -> u8 { pick(x, 1, 2, 4, 8) }

# call with three
pub fn f(x: u8) -> u8 { pick(x, 1, 2, 4, 4) }

# fill
pub fn f() -> [u8; 64] { [255; 64] }

# fill written out
pub fn f() -> [u8; 4] { [0, 0, 0, 0] }

# of one
pub fn f() -> [u8; 1] { [7] }

# three numbers with others
pub fn f(x: u8) -> [u8; 4] { [11, x, 1, 0] }

# struct of three
pub fn f() -> Four { Four { a: 1, b: 2, c: 3, d: 3 } }

# of parameters
pub fn f(x: u8, y: u8) -> [u8; 2] { [x, y] }

# of what is not the same on each way
pub fn f(x: u8, y: u8) -> [u8; 2] { let a = match x { 0 => 1, 1 => 1, _ => y }; [a, 2] }

# of what is changed on one way
pub fn f(x: u8, y: u8) -> [u8; 2] { let mut a = 1; if x == 0 { a = y; } [a, 2] }

# of what is one of two
pub fn f(x: u8) -> [u8; 2] { let mut a = 1; if x == 0 { a = 2; } [a, 3] }

# of what was changed
pub fn f(x: u8) -> [u8; 2] { let mut p = Pair { a: 1, b: [0; 3] }; p.a = x; [p.a, 2] }

# of what was lent to be changed
pub fn f() -> [u8; 2] { let mut a = 1; count(&mut a); [a, 2] }

# that a call changes
pub fn f() -> u8 { let mut v = 1; while v < 9 { taken([v, 2, 2]); v = twice(v); } v }

# that is counted up
pub fn f() -> u8 {
    let mut i: u8 = 0;
    while i < 9 { taken([i, i + 1, 2]); i = i + 1; }
    i
}
"""

STEPS = """
# steps
= an array filled in steps: 0, 3, 3
pub fn f(i: usize) -> u8 { let mut t = [0u8; 4]; t[0] = 3; t[2] = 3; t[i] }

# steps in words
= an array filled in steps: 0, 3, 7
pub fn f(i: usize) -> u64 { let mut t = [0u64; 4]; t[0] = 3; t[2] = 7; t[i] }

# steps in an array of arrays
= an array filled in steps: 0, 0, 5, 7
pub fn f() -> [[u8; 2]; 3] { let mut t = [[0u8; 2]; 3]; t[1][0] = 5; t[2][1] = 7; t }

# steps in a struct
= an array filled in steps: 5, 6
pub fn f() -> Pair { let mut p = paired(1, [0; 3]); p.b[0] = 5; p.b[1] = 6; p }

# steps and then lent
= an array filled in steps: 0, 3
pub fn f() -> u8 { let mut t = [0u8; 4]; t[0] = 3; lent(&t) }

# steps in lent bytes
= an array filled in steps: 5, 7
pub fn f(out: &mut [u8]) { out[0] = 5; out[1] = 7; }

# steps with others
= an array filled in steps: 1, 2, 4, 8
pub fn f(x: u8, t: &mut [u8]) { t[0] = 1; t[1] = 2; t[2] = x; t[3] = 4; t[4] = 8; }

# one number in steps
pub fn f(out: &mut [u8]) { out[3] = 0; out[4] = 0; }

# steps in two arrays
pub fn f(mut t: Two) -> Two { t.a[0] = 5; t.b[0] = 6; t }

# steps at an index
pub fn f(i: usize) -> u8 { let mut t = [0u8; 4]; t[i] = 1; t[0] }

# steps over what is copied
pub fn f(p: Pair) -> [u8; 3] { let mut t = p.b; t[0] = 1; t[1] = 2; t }

# steps beside a call
pub fn f() -> u8 { let mut t = [0u8; 3]; t[1] = 2; fill(&mut t); t[0] }
"""

WORDS = r"""
# packed
= a number that is shifted: 72624976668147840
pub fn f(i: u64) -> u64 { (0x0102040810204080 >> (8 * i)) % 256 }

# moved bit
pub fn f(i: u64) -> u64 { (1u8 as u64) << i | (128 >> i) }

# words
pub fn f(out: &mut text::Text) { out.put(b"two words:\n") }

# words handed on
pub fn f(out: &mut text::Text) { say(b"words", out) }

# words of which the length is asked
pub fn f(out: &mut text::Text) { say_at(b"words", out) }

# words copied
pub fn f(out: &mut text::Text) { let t = *b"abc"; let s = t; out.put(&s) }

# words with a number
pub fn f(n: u64, out: &mut text::Text) { out.number_line(b"words ", n) }

# digits
= an array of 6: 49, 10, 50, 10, ..
pub fn f(out: &mut text::Text) { out.put(b"1\n2\n4\n") }

# no characters
= an array of 2: 1, 2
pub fn f(out: &mut text::Text) { out.put(&[1, 2]) }

# words lent elsewhere
= an array of 5: 119, 111, 114, 100, ..
pub fn f() -> u8 { lent(b"words") }

# words handed on and looked at
= an array of 5: 119, 111, 114, 100, ..
pub fn f(out: &mut text::Text) -> u8 { say_first(b"words", out) }

# words that are given
= an array of 3: 97, 98, 99
pub fn f(out: &mut text::Text) -> [u8; 3] { let t = *b"abc"; out.put(&t); t }

# words that are all that is given
= an array of 3: 97, 98, 99
pub fn f() -> [u8; 3] { *b"abc" }

# words into a part
= an array of 3: 97, 98, 99
pub fn f(p: &mut Pair) { p.b = *b"abc"; }

# words in a struct
= an array of 3: 97, 98, 99
pub fn f(out: &mut text::Text, p: &mut Pair) { let t = *b"abc"; say(&t, out); p.b = t; }

# words in a new struct
= an array of 3: 97, 98, 99
pub fn f(out: &mut text::Text) -> Pair { let t = *b"abc"; say(&t, out); Pair { a: 1, b: t } }

# words that are written
= an array of 3: 97, 98, 99
pub fn f(out: &mut text::Text) { let mut t = *b"abc"; say(&t, out); fill(&mut t); }

# words that are looked at
= an array of 5: 119, 111, 114, 100, ..
pub fn f(i: usize, out: &mut text::Text) -> u8 {
    let t = b"words";
    out.put(t);
    t[i]
}
"""


def read():
    """Each form by its name: its items, and what is said of it."""
    found = {}
    for form in (ARRAYS + STEPS + MATCHES + WORDS).split("\n# ")[1:]:
        name, *lines = form.splitlines()
        said = [line[2:] for line in lines if line.startswith("= ")]
        found[name] = "\n".join(lines[len(said):]), said
    return found
