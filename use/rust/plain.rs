//! The call memory of document 01 in plain Rust: storing, put, reading, report; get,
//! patrol and proposal with order 2's window; and order 8's slips.
//!
//! Written from documents 01 and 02 for comparison and as the benchmark's baseline.
//! Ordinary tables of powers and logarithms, no proofs; the shipped library
//! is the proved one.  plain/words.rs has the calls once more, written for speed.

#[path = "plain/slips.rs"]
pub mod slips;
#[path = "plain/window.rs"]
pub mod window;
#[path = "plain/words.rs"]
pub mod words;

use std::ops::Range;

pub const CARDS: usize = 5;
pub const CHIPS: usize = 9;
pub const BLOCK: usize = CARDS * CHIPS;
pub const RECORD: usize = 34;
pub const MOST_BLOCKS: usize = 1024;
const UNUSED: u8 = 255;

/// What a reading says.
#[derive(Clone, Copy, Debug, PartialEq, Eq)]
pub enum Answer {
    Clean,
    Chips {
        n: u8,
    },
    Card {
        card: u8,
        n: u8,
    },
    /// Document 01's number 1 to 7.
    Refused(u8),
    /// Number 10.
    None,
    /// Number 11, with the lowest card that fits.
    Several {
        card: u8,
    },
}

/// The five totals of a report.
#[derive(Clone, Copy, Debug, Default, PartialEq, Eq)]
pub struct Totals {
    pub clean: u16,
    pub chips: u16,
    pub card: u16,
    pub none: u16,
    pub several: u16,
}

impl Totals {
    fn count(&mut self, answer: Answer) {
        let total = match answer {
            Answer::Clean => &mut self.clean,
            Answer::Chips { .. } => &mut self.chips,
            Answer::Card { .. } => &mut self.card,
            Answer::Several { .. } => &mut self.several,
            Answer::None | Answer::Refused(_) => &mut self.none,
        };
        *total += 1;
    }
}

// ------------------------------------------------------------------ the field

/// The logarithm given to 0: far enough up that POWER holds 0 there, so that
/// a product needs no test for 0.
const LOG_OF_ZERO: u16 = 511;

/// POWER[e] = 2^e for e below 510, then zeros; 1,024 long so that a masked
/// index needs no bounds check.
static POWER: [u8; 1024] = powers();
static LOG: [u16; 256] = logs();

const fn powers() -> [u8; 1024] {
    let mut table = [0; 1024];
    let mut value: u16 = 1;
    let mut e = 0;
    while e < 510 {
        table[e] = value as u8;
        value <<= 1;
        if value & 0x100 != 0 {
            value ^= 0x11D;
        }
        e += 1;
    }
    table
}

const fn logs() -> [u16; 256] {
    let power = powers();
    let mut table = [LOG_OF_ZERO; 256];
    let mut e = 0;
    while e < 255 {
        table[power[e] as usize] = e as u16;
        e += 1;
    }
    table
}

#[inline]
fn power(e: u16) -> u8 {
    POWER[(e & 1023) as usize]
}

#[inline]
fn log(a: u8) -> u16 {
    LOG[a as usize]
}

#[inline]
fn times(a: u8, b: u8) -> u8 {
    power(log(a) + log(b))
}

/// a / b for b other than 0.
#[inline]
fn over(a: u8, b: u8) -> u8 {
    if a == 0 {
        0
    } else {
        power(log(a) + 255 - log(b))
    }
}

// ----------------------------------------------------------------- the labels

/// The logarithm of the label of card j, chip i is i + 17 j, at most 76.
const fn label_log(p: usize) -> u16 {
    (p % CHIPS + 17 * (p / CHIPS)) as u16
}

fn label(p: usize) -> u8 {
    power(label_log(p))
}

// ------------------------------------------------------------------- the sums

/// The eleven sums of a block; all are 0 exactly when the block is lawful.
#[derive(Clone, Copy, PartialEq, Eq)]
struct Sums {
    rows: [u8; CHIPS],
    first: u8,
    second: u8,
}

const NO_SUMS: Sums = Sums {
    rows: [0; CHIPS],
    first: 0,
    second: 0,
};

fn sums(block: &[u8; BLOCK]) -> Sums {
    let mut s = NO_SUMS;
    for (j, card) in block.chunks_exact(CHIPS).enumerate() {
        for (i, &byte) in card.iter().enumerate() {
            let at = label_log(CHIPS * j + i);
            let e = log(byte);
            s.rows[i] ^= byte;
            s.first ^= power(e + at);
            s.second ^= power(e + 2 * at);
        }
    }
    s
}

/// The two label sums with card j taken out by its row sums.
fn without_card(s: &Sums, j: usize) -> (u8, u8) {
    let (mut t1, mut t2) = (s.first, s.second);
    for (i, &row) in s.rows.iter().enumerate() {
        let at = label_log(CHIPS * j + i);
        t1 ^= power(log(row) + at);
        t2 ^= power(log(row) + 2 * at);
    }
    (t1, t2)
}

/// Position p's label as seen once card j is taken out; 0 for chips of card j.
fn seen_from(j: usize, p: usize) -> u8 {
    label(p) ^ label(CHIPS * j + p % CHIPS)
}

// ------------------------------------------------------------- lawful changes

/// What is added to the block, byte by byte.
type Change = [u8; BLOCK];

/// The change in card j and in `further` chips off it, of known values.
fn card_change(s: &Sums, j: usize, further: &[(usize, u8)]) -> Change {
    let mut change = [0; BLOCK];
    change[CHIPS * j..CHIPS * j + CHIPS].copy_from_slice(&s.rows);
    for &(p, value) in further {
        change[p] ^= value;
        change[CHIPS * j + p % CHIPS] ^= value;
    }
    change
}

/// The value at the one chip off the card, which is seen as d, from the label
/// sums without the card; None where they don't fit.
fn one_off((t1, t2): (u8, u8), d: u8) -> Option<u8> {
    (t2 == times(d, t1)).then(|| over(t1, d))
}

/// The values at two chips off the card, which are seen as d and f.
fn two_off((t1, t2): (u8, u8), d: u8, f: u8) -> (u8, u8) {
    (
        over(t2 ^ times(f, t1), times(d, d ^ f)),
        over(t2 ^ times(d, t1), times(f, d ^ f)),
    )
}

/// The only change in card j and these chips off it, at most two, that makes
/// the block lawful.
fn solve(s: &Sums, j: usize, off: &[usize]) -> Option<Change> {
    let t = without_card(s, j);
    match *off {
        [] => (t == (0, 0)).then(|| card_change(s, j, &[])),
        [p] => one_off(t, seen_from(j, p)).map(|at_p| card_change(s, j, &[(p, at_p)])),
        [p, q] => {
            let (at_p, at_q) = two_off(t, seen_from(j, p), seen_from(j, q));
            Some(card_change(s, j, &[(p, at_p), (q, at_q)]))
        }
        _ => None,
    }
}

/// The change in card j and at most one further chip, whichever it is.
fn solve_with_one_more(s: &Sums, j: usize) -> Option<Change> {
    let (t1, t2) = without_card(s, j);
    if t1 == 0 {
        return (t2 == 0).then(|| card_change(s, j, &[]));
    }
    let d = over(t2, t1);
    (0..BLOCK)
        .find(|&p| p / CHIPS != j && seen_from(j, p) == d)
        .map(|p| card_change(s, j, &[(p, over(t1, d))]))
}

// ---------------------------------------------------------------------- marks

/// A lawful mark record, opened.
#[derive(Clone, Copy)]
struct Marks {
    card: Option<usize>,
    places: [usize; 2],
    count: usize,
}

impl Marks {
    /// Opens the four bytes, or gives the number of refusal, 6 or 7.
    fn open(bytes: &[u8]) -> Result<Marks, u8> {
        let &[card, count, first, second] = bytes else {
            return Err(6);
        };
        let place_ok = |used, place: u8| {
            if used {
                place < BLOCK as u8
            } else {
                place == UNUSED
            }
        };
        if (card >= CARDS as u8 && card != UNUSED)
            || count > 2
            || !place_ok(count >= 1, first)
            || !place_ok(count == 2, second)
        {
            return Err(6);
        }
        if count == 2 && first == second {
            return Err(7);
        }
        Ok(Marks {
            card: (card != UNUSED).then_some(card as usize),
            places: [first as usize, second as usize],
            count: count as usize,
        })
    }

    fn chips(&self) -> &[usize] {
        &self.places[..self.count]
    }

    fn has(&self, p: usize) -> bool {
        self.chips().contains(&p)
    }

    /// The marked chips off card j: two places, and how many of them count.
    fn off(&self, j: usize) -> ([usize; 2], usize) {
        let on_card = |p: usize| p / CHIPS == j;
        match *self.chips() {
            [p, q] if !on_card(p) && !on_card(q) => ([p, q], 2),
            [p, q] if !on_card(p) && on_card(q) => ([p, q], 1),
            [p, q] if on_card(p) && !on_card(q) => ([q, p], 1),
            [p] if !on_card(p) => ([p, p], 1),
            _ => ([0, 0], 0),
        }
    }

    /// The change in card j and the marked chips.
    fn solve(&self, s: &Sums, j: usize) -> Option<Change> {
        match self.off(j) {
            (_, 0) => solve(s, j, &[]),
            (places, count) => solve(s, j, &places[..count]),
        }
    }
}

// -------------------------------------------------------------------- reading

/// The lawful blocks in reach: no change to one, one, or two and the lowest card.
enum Found {
    None,
    One(Change),
    Several(usize),
}

fn search(s: &Sums, marks: &Marks) -> Found {
    if let Some(j) = marks.card {
        // Only the chip marks outside the card count.
        let change = if marks.chips().iter().all(|p| p / CHIPS == j) {
            solve_with_one_more(s, j)
        } else {
            marks.solve(s, j)
        };
        return change.map_or(Found::None, Found::One);
    }
    // A change of the chip kind is one of the card kind too, for the card of
    // its unmarked chip; so five searches find all of them.
    let mut found: Option<(usize, Change)> = None;
    for j in 0..CARDS {
        match (marks.solve(s, j), &found) {
            (Some(new), Some((lowest, old))) if new != *old => return Found::Several(*lowest),
            (Some(new), None) => found = Some((j, new)),
            _ => {}
        }
    }
    found.map_or(Found::None, |(_, change)| Found::One(change))
}

/// The kind of a change, by document 01's words.
fn describe(change: &Change, marks: &Marks) -> Answer {
    let mut n = 0;
    let mut unmarked = 0;
    let mut holder = 0;
    let mut on_marked_card = false;
    for (p, _) in change.iter().enumerate().filter(|(_, &value)| value != 0) {
        n += 1;
        if !marks.has(p) {
            unmarked += 1;
            holder = p / CHIPS;
        }
        on_marked_card |= marks.card == Some(p / CHIPS);
    }
    let chip_kind = match marks.card {
        Some(j) => {
            holder = j;
            !on_marked_card
        }
        None => unmarked <= if marks.count == 2 { 0 } else { 1 },
    };
    match (n, chip_kind) {
        (0, _) => Answer::Clean,
        (_, true) => Answer::Chips { n },
        (_, false) => Answer::Card {
            card: holder as u8,
            n,
        },
    }
}

/// The answer, and the change that corrects the block where there is one.
fn look(block: &[u8; BLOCK], marks: &Marks) -> (Answer, Option<Change>) {
    let s = sums(block);
    if s == NO_SUMS {
        return (Answer::Clean, Some([0; BLOCK]));
    }
    match search(&s, marks) {
        Found::None => (Answer::None, None),
        Found::Several(card) => (Answer::Several { card: card as u8 }, None),
        Found::One(change) => (describe(&change, marks), Some(change)),
    }
}

// ------------------------------------------------------------------ the calls

/// Stores a record as the lawful block that begins with it.  Err: 2 or 3.
pub fn store(record: &[u8], output: &mut [u8]) -> Result<(), u8> {
    let output: &mut [u8; BLOCK] = output.try_into().map_err(|_| 2)?;
    let record: &[u8; RECORD] = record.try_into().map_err(|_| 3)?;
    let mut block = [0; BLOCK];
    block[..RECORD].copy_from_slice(record);
    // The check bytes are card 4 and two chips off it.
    if let Some(change) = solve(&sums(&block), 4, &[34, 35]) {
        block[RECORD..].copy_from_slice(&change[RECORD..]);
    }
    *output = block;
    Ok(())
}

/// A block and an output for it, each of its length.  Err: 1 or 2.
fn lent<'a>(
    block: &'a [u8],
    output: &'a mut [u8],
) -> Result<(&'a [u8; BLOCK], &'a mut [u8; BLOCK]), u8> {
    let block = block.try_into().map_err(|_| 1)?;
    Ok((block, output.try_into().map_err(|_| 2)?))
}

/// Reads a block; the output is written only when the block is corrected.
pub fn read(block: &[u8], marks: &[u8], output: &mut [u8]) -> Answer {
    read_lent(block, marks, output).unwrap_or_else(Answer::Refused)
}

fn read_lent(block: &[u8], marks: &[u8], output: &mut [u8]) -> Result<Answer, u8> {
    let (block, output) = lent(block, output)?;
    let marks = Marks::open(marks)?;
    let (answer, change) = look(block, &marks);
    if let Some(change) = change {
        for p in 0..BLOCK {
            output[p] = block[p] ^ change[p];
        }
    }
    Ok(answer)
}

/// How many blocks a bank has.  Err: 4.
fn blocks_of(bank: &[u8]) -> Result<usize, u8> {
    let blocks = bank.len() / BLOCK;
    if bank.len() % BLOCK != 0 || !(1..=MOST_BLOCKS).contains(&blocks) {
        return Err(4);
    }
    Ok(blocks)
}

/// Where block k lies in a bank.  Err: 4 or 5.
fn place(bank: &[u8], k: usize) -> Result<Range<usize>, u8> {
    if k < blocks_of(bank)? {
        Ok(BLOCK * k..BLOCK * (k + 1))
    } else {
        Err(5)
    }
}

/// Where block k lies, for a record of the right length.  Err: 3, 4 or 5.
fn place_for(record: &[u8], bank: &[u8], k: usize) -> Result<Range<usize>, u8> {
    if record.len() != RECORD {
        return Err(3);
    }
    place(bank, k)
}

/// Stores a record as block k of a bank.  Err: 3, 4 or 5.
pub fn put(bank: &mut [u8], k: usize, record: &[u8]) -> Result<(), u8> {
    let place = place_for(record, bank, k)?;
    store(record, &mut bank[place])
}

/// Counts the blocks of a bank by what is said of each.
fn count(bank: &[u8], say: impl Fn(&[u8; BLOCK]) -> Answer) -> Totals {
    let mut totals = Totals::default();
    for block in bank.chunks_exact(BLOCK) {
        if let Ok(block) = block.try_into() {
            totals.count(say(block));
        }
    }
    totals
}

/// Counts the blocks of a bank by their readings.  Err: 4, 6 or 7.
pub fn report(bank: &[u8], marks: &[u8]) -> Result<Totals, u8> {
    blocks_of(bank)?;
    let marks = Marks::open(marks)?;
    Ok(count(bank, |block| look(block, &marks).0))
}

/// The number of refusal of a mark record, 0 if it is lawful.
pub fn marks_number(marks: &[u8]) -> u8 {
    Marks::open(marks).err().unwrap_or(0)
}
