"""Forms in which a match, or tests, hand out constants, and others that are no table,
written as in forms.py."""

MATCHES = """
# match
= a match with 3 results: 5, 6, 7
pub fn f(x: u8) -> u8 { match x { 0 => 5, 1 => 6, _ => 7 } }

# match of two numbers
= a match with 3 results: 5, 6, 5
pub fn f(x: u8) -> u8 { match x { 0 => 5, 1 => 6, _ => 5 } }

# match that returns
= a match with 3 results: 5, 6, 7
pub fn f(x: u8, y: u8) -> u8 {
    match x { 0 => { return 5; } 1 => { return 6; } 2 => { return 7; } _ => {} }
    y
}

# match of ranges
= tests with 4 results: 7, 5, 6, 9
pub fn f(x: u8) -> u8 { match x { 0..=3 => 5, 4 | 5 => 6, 6 => 7, _ => 9 } }

# match in a match
= a match with 4 results: 1, 2, 3, 4
pub fn f(x: u8, y: u8) -> u8 {
    match x { 0 => match y { 0 => 1, _ => 2 }, _ => match y { 0 => 3, _ => 4 } }
}

# match in a loop
= a match with 3 results: 5, 6, 7
pub fn f(x: u8) -> u8 {
    let mut v = x;
    while v < 9 { v = match v { 0 => 5, 1 => 6, _ => 7 }; }
    v
}

# match of arrays
= an array of 2: 1, 2
= an array of 2: 3, 4
pub fn f(x: u8) -> [u8; 2] { match x { 0 => [1, 2], 1 => [3, 4], _ => [0; 2] } }

# match of fills
= a match with 3 results: 1, 1, 2, 2, ..
pub fn f(x: u8) -> [u8; 2] { match x { 0 => [1; 2], 1 => [2; 2], _ => [0; 2] } }

# match of structs
= a match with 3 results: 1, 0, 0, 0, ..
pub fn f(x: u8) -> Pair {
    match x { 0 => paired(1, [0; 3]), 1 => paired(2, [0; 3]), _ => paired(3, [0; 3]) }
}

# match of forms with numbers
= a match with 3 results: 4, 5, 6, 7
pub fn f(x: u8) -> Kind {
    match x { 0 => Kind::One(4), 1 => Kind::One(5), _ => Kind::Two(6, 7) }
}

# match on what a form holds
= a match with 3 results: 3, 4, 5
pub fn f(k: Kind) -> u8 {
    match k { Kind::One(0) => 3, Kind::One(1) => 4, Kind::One(2) => 5, _ => 0 }
}

# match into lent bytes
= a match with 3 results: 4, 5, 6
pub fn f(x: u8, out: &mut u8) {
    match x { 0 => { *out = 4; } 1 => { *out = 5; } _ => { *out = 6; } }
}

# match that adds
= a match with 3 results: 5, 6, 7
pub fn f(x: u8, y: u8) -> u8 { match x { 0 => y ^ 5, 1 => y ^ 6, 2 => y ^ 7, _ => y } }

# match that calls
= a match with 3 results: 5, 6, 7
pub fn f(x: u8, b: [u8; 3]) -> Pair {
    match x { 0 => paired(5, b), 1 => paired(6, b), _ => paired(7, b) }
}

# ifs
= tests with 3 results: 5, 6, 7
pub fn f(x: u8) -> u8 { if x == 0 { 5 } else if x == 1 { 6 } else { 7 } }

# ifs that return
= tests with 3 results: 5, 6, 7
pub fn f(x: u8) -> u8 {
    if x == 0 || x == 9 { return 5; }
    if x != 1 { return 6; }
    7
}

# ifs on an element
= tests with 3 results: 5, 6, 7
pub fn f(b: &[u8]) -> u8 { if b[0] < 3 { 5 } else if b[0] == 7 { 6 } else { 7 } }

# ifs on what is not so
= tests with 3 results: 5, 6, 7
pub fn f(x: u8) -> u8 { if !(x == 0) { if !(x == 1) { 5 } else { 6 } } else { 7 } }

# ifs with a loop
= tests with 3 results: 5, 6, 7
pub fn f(x: u8, out: &mut u8) -> u8 {
    if x == 0 { while *out < 9 { *out = *out + 1; } return 5; }
    if x == 1 { return 6; }
    7
}

# match on a field
= a match with 3 results: 5, 6, 7
pub fn f(p: Pair) -> u8 { match p.a { 0 => 5, 1 => 6, _ => 7 } }

# match on an enum
pub fn f(k: Kind) -> u8 {
    match k { Kind::None => 3, Kind::One(_) => 4, Kind::Two(_, _) => 5, Kind::All => 6 }
}

# match on a lent enum
pub fn f(k: &Kind) -> u8 {
    match k { Kind::None => 3, Kind::One(_) => 4, Kind::Two(_, _) => 5, Kind::All => 6 }
}

# match of forms
pub fn f(x: u8) -> Kind {
    match x { 0 => Kind::None, 1 => Kind::All, 2 => Kind::None, _ => Kind::One(x) }
}

# match of two arms
pub fn f(x: u8) -> u8 { match x { 3 => 5, _ => 6 } }

# match of one number
pub fn f(x: u8) -> u8 { match x { 3 => 5, 4 => 5, _ => 5 } }

# match of other things
pub fn f(x: u8, y: u8) -> u8 { match x { 0 => y, 1 => y + 1, _ => y + 2 } }

# match that says yes or no
pub fn f(x: u8) -> bool { match x { 3 => true, 4 => false, 5 => true, _ => false } }

# ifs that say which of two
pub fn f(n: usize) -> u8 {
    if n == 0 { return 4; }
    if n > 9 { return 4; }
    if n == 5 { return 4; }
    0
}

# tests of calls
pub fn f(x: u8) -> u8 {
    if twice(x) == 0 { 5 } else if twice(x) == 2 { 6 } else { 7 }
}

# behind tests
pub fn f(x: u8, out: &mut u8) -> u8 {
    let mut v: u8 = 0;
    if x == 1 { *out = 9; }
    v = 5;
    if x == 2 { *out = 9; }
    v = 6;
    if x == 3 { *out = 9; }
    v = 7;
    v
}

# behind tests with a loop
pub fn f(x: u8, y: u8, out: &mut u8) -> u8 {
    let mut v: u8 = 0;
    if x == 1 { *out = match y { 0..=3 => 1, 4..=9 => 2, _ => y }; }
    v = 5;
    if x == 2 { while *out < 9 { *out = *out + 1; } }
    v = 6;
    if x == 3 { while *out < 9 { *out = *out + 1; } }
    v = 7;
    v
}

# behind loops
pub fn f(x: &mut u8) -> u8 {
    let mut v: u8 = 0;
    while *x < 3 { *x = *x + 1; }
    v = 5;
    while *x < 5 { *x = *x + 1; }
    v = 6;
    while *x < 7 { *x = *x + 1; }
    v = 7;
    v
}

# ifs on other things
pub fn f(x: u8, y: u8) -> u8 { if x == 0 { 5 } else if y == 1 { 6 } else { 7 } }
"""
