//! The benchmark's cases: seeded records, damage and marks.

use crate::random::Random;
use crate::{BLOCK, RECORD};

const INPUTS: usize = 64;

/// One input: a record, the damage added to its block, and the marks.
pub struct Input {
    pub record: [u8; RECORD],
    pub damage: [u8; BLOCK],
    pub marks: [u8; 4],
}

/// What is called for each input, or once for the bank of all of them.
#[derive(Clone, Copy, PartialEq)]
pub enum What {
    Store,
    Put,
    Read,
    /// A read whose answer is any; libfec has no such reading.
    ReadAny,
    /// A read that no record fits; libfec reads beyond document 01's table.
    ReadNone,
    Get,
    /// A get by command; only the library has registers.
    CommandGet,
    Patrol,
    /// A proposal from a full window; libfec has none, and no slips, and those in
    /// words are plain.rs's.
    Propose,
    WriteSlip,
    ReadSlip,
    /// One report over all blocks; times and counts are for a block.
    Report,
}

impl What {
    /// The function's name behind that of its codec.
    pub fn call(self) -> &'static str {
        match self {
            What::Store => "store",
            What::Put => "put",
            What::Read | What::ReadAny | What::ReadNone => "read",
            What::Get => "get",
            What::CommandGet => "write_register",
            What::Patrol => "patrol",
            What::Propose => "propose",
            What::WriteSlip => "write_slip",
            What::ReadSlip => "read_slip",
            What::Report => "report",
        }
    }
}

pub struct Case {
    pub name: &'static str,
    /// Cases with the same seed have the same inputs.
    pub seed: &'static str,
    pub what: What,
    pub inputs: usize,
    /// Damage and marks of one block in so many; the others are clean.
    pub every: usize,
    pub make: Make,
}

impl Case {
    pub fn make(&self, k: usize, rng: &mut Random) -> ([u8; BLOCK], [u8; 4]) {
        match k % self.every {
            0 => (self.make)(rng),
            _ => nothing(rng),
        }
    }
}

pub const NO_MARKS: [u8; 4] = [255, 0, 255, 255];

fn bad_card(rng: &mut Random, damage: &mut [u8; BLOCK], card: usize) {
    for chip in 0..9 {
        damage[9 * card + chip] = rng.change();
    }
}

fn nothing(_: &mut Random) -> ([u8; BLOCK], [u8; 4]) {
    ([0; BLOCK], NO_MARKS)
}

fn one_chip(rng: &mut Random) -> ([u8; BLOCK], [u8; 4]) {
    let mut damage = [0; BLOCK];
    damage[rng.below(BLOCK)] = rng.change();
    (damage, NO_MARKS)
}

fn one_card(rng: &mut Random) -> ([u8; BLOCK], [u8; 4]) {
    let mut damage = [0; BLOCK];
    let card = rng.below(5);
    bad_card(rng, &mut damage, card);
    (damage, NO_MARKS)
}

fn marked_card_and_chip(rng: &mut Random) -> ([u8; BLOCK], [u8; 4]) {
    let mut damage = [0; BLOCK];
    let card = rng.below(5);
    bad_card(rng, &mut damage, card);
    damage[(9 * card + 9 + rng.below(36)) % BLOCK] = rng.change();
    (damage, [card as u8, 0, 255, 255])
}

fn two_marked_chips(rng: &mut Random) -> ([u8; BLOCK], [u8; 4]) {
    let mut damage = [0; BLOCK];
    let first = rng.below(BLOCK);
    let second = (first + 1 + rng.below(BLOCK - 1)) % BLOCK;
    damage[first] = rng.change();
    damage[second] = rng.change();
    (damage, [255, 2, first as u8, second as u8])
}

/// Bad chips on two cards: none fits, whatever the changes.
fn two_chips_of_two_cards(rng: &mut Random) -> ([u8; BLOCK], [u8; 4]) {
    let mut damage = [0; BLOCK];
    let card = rng.below(5);
    damage[9 * card + rng.below(9)] = rng.change();
    damage[9 * ((card + 1 + rng.below(4)) % 5) + rng.below(9)] = rng.change();
    (damage, NO_MARKS)
}

/// Any bytes, for a put to write over.
fn every_chip(rng: &mut Random) -> ([u8; BLOCK], [u8; 4]) {
    (std::array::from_fn(|_| rng.byte()), NO_MARKS)
}

/// What a report counts as chips, as a card or as none.
fn chip_card_or_none(rng: &mut Random) -> ([u8; BLOCK], [u8; 4]) {
    let make = [one_chip, one_card, two_chips_of_two_cards][rng.below(3)];
    make(rng)
}

/// Damage of every sort under every shape of lawful marks.
fn anything(rng: &mut Random) -> ([u8; BLOCK], [u8; 4]) {
    let (mut damage, mut marks) = two_marked_chips(rng);
    let card = rng.below(5);
    match rng.below(4) {
        0 => bad_card(rng, &mut damage, card),
        1 => damage = [0; BLOCK],
        2 => damage = std::array::from_fn(|_| rng.next() as u8),
        _ => {}
    }
    for _ in 0..rng.below(3) {
        damage[rng.below(BLOCK)] ^= rng.change();
    }
    // One damage in eight fits every card.
    if rng.below(8) == 0 {
        damage = [0; BLOCK];
        let at = 9 * card + rng.below(7);
        damage[at..at + 3].copy_from_slice(&[8, 6, 1]);
    }
    if rng.below(2) == 0 {
        marks[0] = card as u8;
    }
    let count = rng.below(3);
    marks[1] = count as u8;
    marks[2 + count..].fill(255);
    (damage, marks)
}

/// What may be said of a block, as the library's code.
pub fn reading(rng: &mut Random) -> u32 {
    let card = rng.below(5) as u8;
    u32::from_le_bytes(match rng.below(5) {
        0 => [0; 4],
        1 => [0, 1, 0, 1 + rng.below(2) as u8],
        2 => [0, 2, card, 1 + rng.below(11) as u8],
        3 => [10, 0, 0, 0],
        _ => [11, 0, card, 0],
    })
}

/// The slip that block k and its reading have.
pub fn slip_of(k: usize, reading: u32) -> Vec<u8> {
    let [low, high] = (k as u16).to_le_bytes();
    match reading.to_le_bytes() {
        [0, 0, ..] => vec![3, low, high, 0],
        [0, 1, _, n] => vec![11, low, high, 1, n],
        [0, _, card, n] => vec![15, low, high, 2, card, n],
        [10, ..] => vec![17, low, high, 10],
        [_, _, card, _] => vec![21, low, high, card, 11],
    }
}

type Make = fn(&mut Random) -> ([u8; BLOCK], [u8; 4]);

const fn case(name: &'static str, what: What, inputs: usize, make: Make) -> Case {
    Case {
        name,
        seed: name,
        what,
        inputs,
        every: 1,
        make,
    }
}

/// The inputs of "read-chip", so that what the window costs is seen beside it.
const fn chip_case(name: &'static str, what: What) -> Case {
    Case {
        seed: "read-chip",
        ..case(name, what, INPUTS, one_chip)
    }
}

pub const CASES: [Case; 21] = [
    case("store", What::Store, INPUTS, nothing),
    case("put", What::Put, INPUTS, every_chip),
    case("read-clean", What::Read, INPUTS, nothing),
    case("get-clean", What::Get, INPUTS, nothing),
    case("get-register", What::CommandGet, INPUTS, nothing),
    case("patrol-clean", What::Patrol, INPUTS, nothing),
    chip_case("read-chip", What::Read),
    chip_case("get-chip", What::Get),
    chip_case("patrol-chip", What::Patrol),
    case("read-card", What::Read, INPUTS, one_card),
    case(
        "read-marked-card-and-chip",
        What::Read,
        INPUTS,
        marked_card_and_chip,
    ),
    case(
        "read-two-marked-chips",
        What::Read,
        INPUTS,
        two_marked_chips,
    ),
    case("read-none", What::ReadNone, INPUTS, two_chips_of_two_cards),
    case("read-any", What::ReadAny, 8192, anything),
    case("propose", What::Propose, INPUTS, nothing),
    case("write-slip", What::WriteSlip, INPUTS, nothing),
    case("read-slip", What::ReadSlip, INPUTS, nothing),
    case("patrol-1024", What::Patrol, 1024, nothing),
    case("report-256", What::Report, 256, nothing),
    case("report-1024", What::Report, 1024, nothing),
    Case {
        every: 24,
        ..case("report-mixed", What::Report, 1024, chip_card_or_none)
    },
];
