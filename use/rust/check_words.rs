//! Compares plain/words.rs with plain.rs on seeded inputs, for test_words.py.
//!
//!   check_words words SEED ROUNDS
//!
//! Prints how many readings of each sort there were, or the first call that differs,
//! with exit 1.

#[allow(dead_code)] // this program uses a part of both
mod plain;
#[allow(dead_code)]
mod random;

use plain::window::{self, Window};
use plain::{Answer, Totals, BLOCK, CARDS, CHIPS, RECORD};
use random::Random;
use std::fmt::Debug;

type Block = [u8; BLOCK];

const FILL: u8 = 0xA5; // what an output starts as

// ------------------------------------------------------------------ the inputs

/// The right length nine times in ten.
fn any_length(rng: &mut Random, right: usize) -> usize {
    match rng.below(10) {
        0 => rng.below(2 * right),
        _ => right,
    }
}

fn any_record(rng: &mut Random) -> Vec<u8> {
    let length = any_length(rng, RECORD);
    rng.bytes(length)
}

/// Chips of one card, of one row and any others; cards with a marked chip and any.
fn lawful_marks(rng: &mut Random) -> [u8; 4] {
    let first = rng.below(BLOCK);
    let other = match rng.below(3) {
        0 => first - first % CHIPS + rng.below(CHIPS),
        1 => CHIPS * rng.below(CARDS) + first % CHIPS,
        _ => rng.below(BLOCK),
    };
    let second = if other == first {
        (first + 1) % BLOCK
    } else {
        other
    };
    let card = match rng.below(6) {
        0 => first / CHIPS,
        1 => second / CHIPS,
        2 => rng.below(CARDS),
        _ => 255,
    };
    let count = rng.below(3);
    let mut marks = [card as u8, count as u8, first as u8, second as u8];
    marks[2 + count..].fill(255);
    marks
}

/// Mostly lawful, since a refusal looks at no block.
fn any_marks(rng: &mut Random) -> Vec<u8> {
    let mut marks = lawful_marks(rng).to_vec();
    match rng.below(32) {
        0 => marks = rng.bytes(4),
        1 => marks.resize(rng.below(7), 255),
        2 => marks[rng.below(4)] = [0, 1, 2, 3, 4, 5, 44, 45, 254, 255][rng.below(10)],
        3 => marks[3] = marks[2],
        _ => {}
    }
    marks
}

fn any_lawful(rng: &mut Random) -> Block {
    let mut block = [0; BLOCK];
    plain::store(&rng.bytes(RECORD), &mut block).expect("34 bytes and 45");
    block
}

fn place_on(rng: &mut Random, card: usize) -> usize {
    CHIPS * card + rng.below(CHIPS)
}

fn bad_chip(rng: &mut Random, block: &mut Block, p: usize) {
    block[p] ^= rng.change();
}

fn any_card(rng: &mut Random, block: &mut Block, card: usize) {
    for p in CHIPS * card..CHIPS * (card + 1) {
        block[p] = rng.byte();
    }
}

/// A change of one card to which another lawful block comes by another card and the
/// marked chip.  That block is read with those marked, and a chip of the first card
/// too; with no marked chip, two of them.
fn between_two(rng: &mut Random, block: &mut Block, marked: Option<usize>) {
    let card = rng.below(CARDS);
    let other = (card + 1 + rng.below(CARDS - 1)) % CARDS;
    let chip = place_on(rng, card);
    let p = marked.unwrap_or_else(|| place_on(rng, card));
    let (mut damaged, mut reached) = (*block, *block);
    any_card(rng, &mut damaged, card);
    plain::read(
        &damaged,
        &[other as u8, 2, p as u8, chip as u8],
        &mut reached,
    );
    let on_card = CHIPS * card..CHIPS * (card + 1);
    block[on_card.clone()].copy_from_slice(&reached[on_card]);
}

/// Adds three bytes, so far apart.
fn add(block: &mut Block, first: usize, apart: usize, values: [u8; 3]) {
    for (at, value) in values.into_iter().enumerate() {
        block[first + apart * at] ^= value;
    }
}

/// Damage of every sort, of which much goes by the marks.
fn damage(rng: &mut Random, block: &mut Block, marks: &[u8]) {
    let card = rng.below(CARDS);
    let (here, there) = (place_on(rng, card), rng.below(BLOCK));
    let places = marks.iter().skip(2).map(|&p| usize::from(p));
    let marked: Vec<usize> = places.filter(|&p| p < BLOCK).collect();
    let marked_card = marks.first().map_or(0, |&j| usize::from(j) % CARDS);
    match rng.below(10) {
        0 => bad_chip(rng, block, here),
        1 => {
            bad_chip(rng, block, here);
            bad_chip(rng, block, there);
        }
        2 => any_card(rng, block, card),
        3 => any_card(rng, block, marked_card),
        4 => *block = std::array::from_fn(|_| rng.byte()),
        // It fits every card.
        5 => add(block, CHIPS * card + rng.below(CHIPS - 2), 1, [8, 6, 1]),
        // The label sums stay as they are, and a row doesn't.
        6 => add(block, here % (3 * CHIPS), CHIPS, [10, 214, 1]),
        7 => between_two(rng, block, marked.first().copied()),
        _ => {}
    }
    if rng.below(2) == 0 {
        marked.iter().for_each(|&p| block[p] = rng.byte());
    }
    if rng.below(6) == 0 {
        bad_chip(rng, block, there);
    }
}

fn any_damaged(rng: &mut Random, marks: &[u8]) -> Block {
    let mut block = any_lawful(rng);
    damage(rng, &mut block, marks);
    block
}

/// Blocks damaged under these marks, and now and then a byte fewer or more.
fn any_bank(rng: &mut Random, marks: &[u8]) -> Vec<u8> {
    let mut bank = Vec::new();
    for _ in 0..1 + rng.below(4) {
        bank.extend(any_damaged(rng, marks));
    }
    match rng.below(20) {
        0 => bank.truncate(rng.below(BLOCK)),
        1 => bank.push(0),
        2 => bank.resize(BLOCK * 1025, 0),
        _ => {}
    }
    bank
}

// ------------------------------------------------------------------- the calls

type Store = fn(&[u8], &mut [u8]) -> Result<(), u8>;
type Read = fn(&[u8], &[u8], &mut [u8]) -> Answer;
type Get = fn(&[u8], usize, &[u8], &mut [u8], &mut Window) -> Answer;
type Patrol = fn(&mut [u8], usize, &[u8], &mut Window) -> Answer;
type Report = fn(&[u8], &[u8]) -> Result<Totals, u8>;
type Put = fn(&mut [u8], usize, &[u8]) -> Result<(), u8>;

struct Calls {
    store: Store,
    read: Read,
    get: Get,
    patrol: Patrol,
    report: Report,
    put: Put,
}

macro_rules! calls {
    ($version:ident) => {
        Calls {
            store: plain::$version::store,
            read: plain::$version::read,
            get: plain::$version::get,
            patrol: plain::$version::patrol,
            report: plain::$version::report,
            put: plain::$version::put,
        }
    };
}

const PLAIN: Calls = Calls {
    store: plain::store,
    read: plain::read,
    get: window::get,
    patrol: window::patrol,
    report: plain::report,
    put: plain::put,
};

/// What may be compared with plain.rs; test_words.py puts mistaken ones here.
const VERSIONS: &[(&str, Calls)] = &[("words", calls!(words))];

type Both<'a> = [&'a Calls; 2];

/// What both say, and what they may have written; ends the program if that differs.
fn same<T: Debug + PartialEq>(call: &str, lent: &dyn Debug, [plain, words]: &[T; 2]) {
    if plain != words {
        println!("{call} {lent:?}\n  plain.rs {plain:?}\n  words    {words:?}");
        std::process::exit(1);
    }
}

/// How often each sort of answer came; all refusals but 10 and 11 are one.
type Sorts = [u64; 6];

fn count(answer: Answer, sorts: &mut Sorts) {
    sorts[match answer {
        Answer::Clean => 0,
        Answer::Chips { .. } => 1,
        Answer::Card { .. } => 2,
        Answer::None => 3,
        Answer::Several { .. } => 4,
        Answer::Refused(_) => 5,
    }] += 1;
}

fn store_round(both: Both, rng: &mut Random) {
    let record = any_record(rng);
    let length = any_length(rng, BLOCK);
    let said = both.map(|calls| {
        let mut out = vec![FILL; length];
        ((calls.store)(&record, &mut out), out)
    });
    same("store", &(&record, length), &said);
}

fn read_round(both: Both, rng: &mut Random, sorts: &mut Sorts) {
    let marks = any_marks(rng);
    let mut block = any_damaged(rng, &marks).to_vec();
    if rng.below(20) == 0 {
        block.resize(rng.below(91), 0);
    }
    let length = any_length(rng, BLOCK);
    let said = both.map(|calls| {
        let mut out = vec![FILL; length];
        ((calls.read)(&block, &marks, &mut out), out)
    });
    same("read", &(&block, &marks, length), &said);
    count(said[0].0, sorts);
}

/// A get, and then the other calls on the same bank.
fn bank_round(both: Both, rng: &mut Random, sorts: &mut Sorts) {
    let marks = any_marks(rng);
    let bank = any_bank(rng, &marks);
    let k = rng.below(bank.len().min(4 * BLOCK) / BLOCK + 1);
    let window: Window = std::array::from_fn(|_| rng.byte());
    let length = any_length(rng, BLOCK);
    let said = both.map(|calls| {
        let (mut out, mut window) = (vec![FILL; length], window);
        let answer = (calls.get)(&bank, k, &marks, &mut out, &mut window);
        (answer, out, window)
    });
    same("get", &(&bank, k, &marks, length, window), &said);
    count(said[0].0, sorts);

    let said = both.map(|calls| {
        let (mut bank, mut window) = (bank.clone(), window);
        let answer = (calls.patrol)(&mut bank, k, &marks, &mut window);
        (answer, bank, window)
    });
    same("patrol", &(&bank, k, &marks, window), &said);

    let said = both.map(|calls| (calls.report)(&bank, &marks));
    same("report", &(&bank, &marks), &said);

    let record = any_record(rng);
    let said = both.map(|calls| {
        let mut bank = bank.clone();
        ((calls.put)(&mut bank, k, &record), bank)
    });
    same("put", &(&bank, k, &record), &said);
}

fn main() {
    let words: Vec<String> = std::env::args().skip(1).collect();
    let [name, seed, rounds] = &words[..] else {
        panic!("check_words words SEED ROUNDS");
    };
    let tried = VERSIONS.iter().find(|(of, _)| of == name);
    let both = [&PLAIN, &tried.expect("a version").1];
    let (mut rng, mut sorts) = (Random(seed.parse().expect("a number")), [0; 6]);
    for _ in 0..rounds.parse().expect("a number") {
        store_round(both, &mut rng);
        for _ in 0..4 {
            read_round(both, &mut rng, &mut sorts);
        }
        bank_round(both, &mut rng, &mut sorts);
    }
    let names = ["clean", "chips", "card", "none", "several", "refused"];
    for (name, times) in names.iter().zip(sorts) {
        println!("{name} {times}");
    }
}
