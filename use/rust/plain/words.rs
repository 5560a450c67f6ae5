//! The calls of plain.rs once more, in words of 64 bits and written for speed: what
//! plain Rust may cost for this job, as a column of the benchmark.
//!
//! The label sums take no table: all eight bytes of a word are doubled at once.  By
//! such doublings each card's word is multiplied by the card's factor, and the eight
//! bytes of what they add up to are folded into one.  The library's own maps, by
//! shifts of whole words (crates/sums/src/built_in.rt), are not used here.
//!
//! Marks, refusals and the field of the search are those of plain.rs; a clean block
//! needs no table.  use/rust/test_words.py compares the two.

#![forbid(unsafe_code)]

use super::window::{Window, HELD};
use super::{blocks_of, count, label_log, lent, log, logs, one_off, over, place, place_for};
use super::{power, powers, two_off, Answer, Marks, Totals};
use super::{BLOCK, CARDS, CHIPS, LOG_OF_ZERO, RECORD};

// ------------------------------------------------------------------- the sums

/// The eight bytes from a place on, the first one lowest.
#[inline]
fn word<const N: usize>(bytes: &[u8; N], at: usize) -> u64 {
    let mut eight = [0; 8];
    eight.copy_from_slice(&bytes[at..at + 8]);
    u64::from_le_bytes(eight)
}

/// A word of eight such bytes.
const fn all(byte: u8) -> u64 {
    0x0101_0101_0101_0101 * byte as u64
}

/// Each byte times x: the bit that leaves at the top comes back as x^8, 0x1D.
#[inline]
fn times_x(w: u64) -> u64 {
    (w & all(0x7F)) << 1 ^ (w >> 7 & all(1)) * 0x1D
}

/// Each byte times x^2: two bits leave, and 0x1D is 9 and 20, so that none carries.
#[inline]
fn times_x2(w: u64) -> u64 {
    let top = w >> 6 & all(3);
    (w & all(0x3F)) << 2 ^ top * 9 ^ top * 20
}

/// Each byte times x^4: four bits leave.
#[inline]
fn times_x4(w: u64) -> u64 {
    let top = w >> 4 & all(0x0F);
    (w & all(0x0F) ^ top) << 4 ^ top << 3 ^ top << 2 ^ top
}

/// Words times these, added: 68 = x^6 + x^2, 10 = x^3 + x, 152 = 68 x + 10 x + x^2.
#[inline(always)]
fn gathered(by_1: u64, by_152: u64, by_68: u64, by_10: u64) -> u64 {
    let doubled = times_x(by_152);
    let by_68 = by_68 ^ doubled;
    let by_x = times_x(by_10 ^ doubled);
    by_1 ^ by_x ^ times_x2(by_152 ^ by_x ^ by_68 ^ times_x4(by_68))
}

/// The bytes of one word times 1, x, .., x^7 and those of the other times the squares,
/// each added to one byte: the upper half to the lower one, and so on.
#[inline(always)]
fn folded(once: u64, squared: u64) -> (u8, u8) {
    // Each step by the square of the next; x^8 is x^4 twice.  Halves that go by the same
    // power share a word, and bytes above those that count are left as they are.
    let upper = times_x4(once >> 32 | squared & 0xFFFF_FFFF_0000_0000);
    let once = once ^ upper;
    let squared = squared ^ times_x4(upper >> 32);
    let squared = squared ^ times_x4(squared >> 16);
    let upper = times_x2(once >> 16 & 0xFFFF | (squared & 0xFF00) << 8);
    let once = once ^ upper;
    let squared = squared ^ upper >> 16;
    ((once ^ times_x(once >> 8)) as u8, squared as u8)
}

/// Nine chips as eight of the same label sums: as x^8 = 1 + x^2 + x^3 + x^4, chip 8
/// counts as chips 0, 2, 3 and 4 together.
#[inline]
fn as_eight(chips: u64, last: u8) -> u64 {
    chips ^ last as u64 * 0x0000_0001_0101_0001
}

/// The label sums of five cards, chips 0 to 7 and chip 8.  The cards' factors are the
/// powers of 152: 1, 152, 68 + 10, 10 and 152 + 1; the squares of these are 1, 68 + 10,
/// 152 + 1, 68 and 68 + 10 + 1.
#[inline(always)]
fn label_sums(low: [u64; CARDS], last: [u8; CARDS]) -> (u8, u8) {
    let card = |j: usize| as_eight(low[j], last[j]);
    let [c0, c1, c2, c3, c4] = [card(0), card(1), card(2), card(3), card(4)];
    folded(
        gathered(c0 ^ c4, c1 ^ c4, c2, c2 ^ c3),
        gathered(c0 ^ c2 ^ c4, c2, c1 ^ c3 ^ c4, c1 ^ c4),
    )
}

/// The eleven sums of a block: the rows of chips 0 to 7, that of chip 8, and the two
/// label sums.
#[derive(Clone, Copy)]
struct Sums {
    rows: u64,
    last: u8,
    first: u8,
    second: u8,
}

#[inline(always)]
fn sums(block: &[u8; BLOCK]) -> Sums {
    let low = |j: usize| word(block, CHIPS * j);
    let last = |j: usize| block[CHIPS * j + 8];
    let low = [low(0), low(1), low(2), low(3), low(4)];
    let last = [last(0), last(1), last(2), last(3), last(4)];
    let (first, second) = label_sums(low, last);
    Sums {
        rows: low.iter().fold(0, |sum, chips| sum ^ chips),
        last: last.iter().fold(0, |sum, chip| sum ^ chip),
        first,
        second,
    }
}

impl Sums {
    fn are_zero(&self) -> bool {
        self.rows | (self.last | self.first | self.second) as u64 == 0
    }
}

// ------------------------------------------------------------- lawful changes

/// SEEN[j][p]: position p's label as seen once card j is taken out.
static SEEN: [[u8; BLOCK]; CARDS] = seen();
/// HOLDER[j][d]: the position off card j that is seen as d, or NOWHERE.
static HOLDER: [[u8; 256]; CARDS] = holders();
const NOWHERE: u8 = 255;

const fn seen() -> [[u8; BLOCK]; CARDS] {
    let power = powers();
    let mut table = [[0; BLOCK]; CARDS];
    let mut at = 0;
    while at < CARDS * BLOCK {
        let (j, p) = (at / BLOCK, at % BLOCK);
        table[j][p] =
            power[label_log(p) as usize] ^ power[label_log(CHIPS * j + p % CHIPS) as usize];
        at += 1;
    }
    table
}

const fn holders() -> [[u8; 256]; CARDS] {
    let seen = seen();
    let mut table = [[NOWHERE; 256]; CARDS];
    let mut at = 0;
    while at < CARDS * BLOCK {
        let (j, p) = (at / BLOCK, at % BLOCK);
        if p / CHIPS != j {
            table[j][seen[j][p] as usize] = p as u8;
        }
        at += 1;
    }
    table
}

/// A chip off the card, and what is added there.
type Further = (usize, u8);
const NOTHING: Further = (0, 0);

/// What is added to a block: nine bytes to a card, and at most two off it.
struct Change {
    card: usize,
    rows: u64,
    last: u8,
    further: [Further; 2],
}

/// For each byte of the word 1, or 0 where it is 0.
fn ones(rows: u64) -> u64 {
    const SEVEN: u64 = 0x7F7F_7F7F_7F7F_7F7F;
    ((rows & SEVEN) + SEVEN | rows) >> 7 & 0x0101_0101_0101_0101
}

impl Change {
    fn make(&self, block: &mut [u8; BLOCK]) {
        for (p, value) in self.further {
            block[p] ^= value;
        }
        if let Some(card) = block[CHIPS * self.card..].first_chunk_mut::<CHIPS>() {
            let rows = word(card, 0) ^ self.rows;
            card[..8].copy_from_slice(&rows.to_le_bytes());
            card[8] ^= self.last;
        }
    }

    /// How many bytes change.
    fn n(&self) -> u8 {
        let on_card = (ones(self.rows).wrapping_mul(0x0101_0101_0101_0101) >> 56) as u8;
        let [(_, v), (_, w)] = self.further;
        on_card + (self.last != 0) as u8 + (v != 0) as u8 + (w != 0) as u8
    }

    /// Bit p: position p changes.
    fn places(&self) -> u64 {
        let on_card = ones(self.rows).wrapping_mul(0x0102_0408_1020_4080) >> 56;
        let on_card = on_card | ((self.last != 0) as u64) << 8;
        let [(p, v), (q, w)] = self.further;
        on_card << (CHIPS * self.card) | ((v != 0) as u64) << p | ((w != 0) as u64) << q
    }

    /// Adds the changed positions to the window, lowest first.
    fn note(&self, window: &mut Window) {
        let mut places = self.places();
        let n = self.n() as usize;
        window.copy_within(n.., 0);
        for newest in &mut window[HELD - n..] {
            *newest = places.trailing_zeros() as u8;
            places &= places - 1;
        }
    }
}

/// The sums of a block that isn't lawful, and the logarithms of what its rows add to
/// the two label sums where card 0 takes them.
struct Bad {
    sums: Sums,
    once: u16,
    twice: u16,
}

impl Bad {
    /// Not inlined: so a clean block has all registers.
    #[inline(never)]
    fn of(sums: Sums) -> Bad {
        let rows = as_eight(sums.rows, sums.last);
        let (once, twice) = folded(rows, rows);
        Bad {
            sums,
            once: log(once),
            twice: log(twice),
        }
    }

    /// The two label sums with card j taken out by its row sums.
    fn without_card(&self, j: usize) -> (u8, u8) {
        let at = label_log(CHIPS * j);
        (
            self.sums.first ^ power(self.once + at),
            self.sums.second ^ power(self.twice + 2 * at),
        )
    }

    /// The change in card j and in further chips off it, of known values.
    fn change(&self, j: usize, further: [Further; 2]) -> Change {
        let (mut rows, mut last) = (self.sums.rows, self.sums.last);
        for (p, value) in further {
            match p % CHIPS {
                8 => last ^= value,
                i => rows ^= (value as u64) << (8 * i),
            }
        }
        Change {
            card: j,
            rows,
            last,
            further,
        }
    }

    /// The values at these chips off card j, at most two, which are with a change of
    /// the card the only ones that make the block lawful.
    fn further(&self, j: usize, off: &[usize]) -> Option<[Further; 2]> {
        let t = self.without_card(j);
        match *off {
            [] => (t == (0, 0)).then_some([NOTHING; 2]),
            [p] => one_off(t, SEEN[j][p]).map(|at_p| [(p, at_p), NOTHING]),
            [p, q] => {
                let (at_p, at_q) = two_off(t, SEEN[j][p], SEEN[j][q]);
                Some([(p, at_p), (q, at_q)])
            }
            _ => None,
        }
    }

    /// The same for at most one chip off card j, whichever it is.
    fn one_more(&self, j: usize) -> Option<[Further; 2]> {
        let (t1, t2) = self.without_card(j);
        if t1 == 0 {
            return (t2 == 0).then_some([NOTHING; 2]);
        }
        let d = over(t2, t1);
        match HOLDER[j][d as usize] {
            NOWHERE => None,
            p => Some([(p as usize, over(t1, d)), NOTHING]),
        }
    }

    /// The only change in reach with chips marked and no card, by the values off each
    /// card.  Err: the answer where there is no such change.
    fn search(
        &self,
        marked: u64,
        further: impl Fn(usize) -> Option<[Further; 2]>,
    ) -> Result<Change, Answer> {
        let mut fitting = (0..CARDS).filter_map(|j| Some((j, further(j)?)));
        let (lowest, values) = fitting.next().ok_or(Answer::None)?;
        let change = self.change(lowest, values);
        // A change of marked chips alone is every card's.  Any other changes an
        // unmarked chip of its card, so that no other card has it.
        if change.places() & !marked != 0 && fitting.next().is_some() {
            let card = lowest as u8;
            return Err(Answer::Several { card });
        }
        Ok(change)
    }
}

// -------------------------------------------------------------------- reading

/// A lawful mark record; most often that which marks nothing.
type Lawful = [u8; 4];
const NO_MARKS: Lawful = [255, 0, 255, 255];

/// The record where it is lawful, to be opened only if the block isn't clean.  Err: 6
/// or 7.
fn lawful(marks: &[u8]) -> Result<Lawful, u8> {
    let record = marks.try_into().map_err(|_| 6)?;
    if record != NO_MARKS {
        Marks::open(marks)?;
    }
    Ok(record)
}

/// The answer by a change, which is of the chip kind or not.
fn answer(change: &Change, is_chips: bool) -> Answer {
    let (card, n) = (change.card as u8, change.n());
    match is_chips {
        true => Answer::Chips { n },
        false => Answer::Card { card, n },
    }
}

/// The answer and the change that goes with it.  Err: an answer without one.
type Found = Result<(Answer, Change), Answer>;

fn with_no_marks(bad: &Bad) -> Found {
    let fits = |j: &usize| bad.without_card(*j) == (0, 0);
    let card = (0..CARDS).find(fits).ok_or(Answer::None)?;
    // Rows that add nothing to card 0's label sums add nothing to any card's; and if
    // they add to one, the five cards' are different.
    if bad.once == LOG_OF_ZERO && bad.twice == LOG_OF_ZERO {
        return Err(Answer::Several { card: card as u8 });
    }
    let change = bad.change(card, [NOTHING; 2]);
    Ok((answer(&change, change.n() == 1), change))
}

fn under_marks(bad: &Bad, marks: Lawful) -> Found {
    let marks = Marks::open(&marks).map_err(Answer::Refused)?;
    let further = |j| {
        let (off, count) = marks.off(j);
        bad.further(j, &off[..count])
    };
    if let Some(j) = marks.card {
        let further = match marks.off(j) {
            (_, 0) => bad.one_more(j),
            _ => further(j),
        };
        let change = bad.change(j, further.ok_or(Answer::None)?);
        let is_chips = change.rows | change.last as u64 == 0;
        return Ok((answer(&change, is_chips), change));
    }
    // Bit p: chip p is marked.
    let marked = marks.chips().iter().fold(0, |bits, p| bits | 1 << p);
    let change = bad.search(marked, further)?;
    // With two marked chips this is a change of those alone.
    let others = change.places() & !marked;
    let is_chips = others & others.wrapping_sub(1) == 0;
    Ok((answer(&change, is_chips), change))
}

/// What is said of a block by its sums.  Where it is corrected, the change is handed
/// on; None where it is clean.
#[inline]
fn look(sums: Sums, marks: Lawful, correct: impl FnOnce(Option<&Change>)) -> Answer {
    if sums.are_zero() {
        correct(None);
        return Answer::Clean;
    }
    let bad = Bad::of(sums);
    let found = match marks {
        NO_MARKS => with_no_marks(&bad),
        _ => under_marks(&bad, marks),
    };
    match found {
        Ok((answer, change)) => {
            correct(Some(&change));
            answer
        }
        Err(answer) => answer,
    }
}

// ------------------------------------------------------------------ the calls

/// Bytes 34 and 35: the factors of the first and of the second label sum, with card 4
/// taken out, as logarithms.
const FACTORS: [(u16, u16); 2] = factors();

const fn factors() -> [(u16, u16); 2] {
    let (log, seen) = (logs(), seen()[4]);
    let (d, f) = (seen[RECORD], seen[RECORD + 1]);
    let both = log[(d ^ f) as usize];
    let (d, f) = (log[d as usize], log[f as usize]);
    // As in two_off; 510 is 0 in a logarithm, and keeps them above it.
    [
        ((510 + f - d - both) % 255, (510 - d - both) % 255),
        ((510 + d - f - both) % 255, (510 - f - both) % 255),
    ]
}

/// The lawful block that begins with the record.
fn stored(record: &[u8; RECORD], output: &mut [u8; BLOCK]) {
    // Card 3 has its first seven chips from the record, and card 4 the rows.
    let three = word(record, RECORD - 8) >> 8;
    let mut low = [word(record, 0), word(record, 9), word(record, 18), three, 0];
    let mut last = [record[8], record[17], record[26], 0, 0];
    low[4] = low[0] ^ low[1] ^ low[2] ^ low[3];
    last[4] = last[0] ^ last[1] ^ last[2];
    let (first, second) = label_sums(low, last);
    let (once, twice) = (log(first), log(second));
    let [at_34, at_35] = FACTORS.map(|(f, g)| power(once + f) ^ power(twice + g));
    output[..RECORD].copy_from_slice(record);
    output[RECORD] = at_34;
    output[RECORD + 1] = at_35;
    let rows = low[4] ^ (at_34 as u64) << 56;
    output[36..44].copy_from_slice(&rows.to_le_bytes());
    output[44] = last[4] ^ at_35;
}

/// Stores a record as the lawful block that begins with it.  Err: 2 or 3.
pub fn store(record: &[u8], output: &mut [u8]) -> Result<(), u8> {
    let output = output.try_into().map_err(|_| 2)?;
    stored(record.try_into().map_err(|_| 3)?, output);
    Ok(())
}

/// Stores a record as block k of a bank.  Err: 3, 4 or 5.
pub fn put(bank: &mut [u8], k: usize, record: &[u8]) -> Result<(), u8> {
    let place = place_for(record, bank, k)?;
    store(record, &mut bank[place])
}

/// Reads a block into the output, where it is corrected, and notes the change.
fn corrected(
    block: &[u8; BLOCK],
    marks: &[u8],
    output: &mut [u8; BLOCK],
    note: impl FnOnce(&Change),
) -> Result<Answer, u8> {
    let marks = lawful(marks)?;
    Ok(look(sums(block), marks, |change| {
        *output = *block;
        if let Some(change) = change {
            change.make(output);
            note(change);
        }
    }))
}

/// Reads a block; the output is written only when the block is corrected.
pub fn read(block: &[u8], marks: &[u8], output: &mut [u8]) -> Answer {
    lent(block, output)
        .and_then(|(block, output)| corrected(block, marks, output, |_| {}))
        .unwrap_or_else(Answer::Refused)
}

fn got(
    bank: &[u8],
    k: usize,
    marks: &[u8],
    output: &mut [u8],
    window: &mut Window,
) -> Result<Answer, u8> {
    let output = output.try_into().map_err(|_| 2)?;
    let block = bank[place(bank, k)?].try_into().map_err(|_| 4)?;
    corrected(block, marks, output, |change| change.note(window))
}

/// Reads block k into the output.
pub fn get(bank: &[u8], k: usize, marks: &[u8], output: &mut [u8], window: &mut Window) -> Answer {
    got(bank, k, marks, output, window).unwrap_or_else(Answer::Refused)
}

fn patrolled(bank: &mut [u8], k: usize, marks: &[u8], window: &mut Window) -> Result<Answer, u8> {
    let place = place(bank, k)?;
    let block: &mut [u8; BLOCK] = (&mut bank[place]).try_into().map_err(|_| 4)?;
    let marks = lawful(marks)?;
    Ok(look(sums(block), marks, |change| {
        if let Some(change) = change {
            change.make(block);
            change.note(window);
        }
    }))
}

/// Reads block k and puts the corrected bytes back.
pub fn patrol(bank: &mut [u8], k: usize, marks: &[u8], window: &mut Window) -> Answer {
    patrolled(bank, k, marks, window).unwrap_or_else(Answer::Refused)
}

/// Counts the blocks of a bank by their readings.  Err: 4, 6 or 7.
pub fn report(bank: &[u8], marks: &[u8]) -> Result<Totals, u8> {
    blocks_of(bank)?;
    let marks = lawful(marks)?;
    Ok(count(bank, |block| look(sums(block), marks, |_| {})))
}
