//! A safe Rust face of the livomashen library: a memory of five cards of nine
//! chips, corrected by proof.
//!
//! The folder that use/build makes is a cargo package:
//!
//! ```toml
//! livomashen = { path = "DIR" }
//! ```
//!
//! Without cargo, copy this file and the folder of the same name into a program
//! as a module, and link the archive:
//!
//! ```sh
//! rustc -O -L DIR -l static=livomashen main.rs
//! ```
//!
//! Rust 1.82 or later, edition 2021 or 2024, with or without std.
//!
//! Slices of any length may be passed: a wrong length is a [`Refusal`], and a
//! refused call changes nothing.  Nothing is allocated or kept between calls.
//!
//! ```ignore
//! let mut bank = [0; 4 * livomashen::BLOCK];
//! let marks = livomashen::FRESH;
//! livomashen::clear(&mut bank)?;
//! livomashen::put(&mut bank, 2, &record)?;
//! let mut out = [0; livomashen::BLOCK];
//! let mut window = livomashen::Window::fresh();
//! let corrected = livomashen::get(&bank, 2, &marks, &mut out, &mut window)?;
//! ```
//!
//! A [`Window`] holds the last 64 positions that gets and patrols corrected, and
//! proposes a chip to mark while it is going.
//!
//! [`Registers`] are for a processor that sees the corrector as twelve bytes: it
//! writes a command, and reads the answer.
//!
//! [`write_slip`] keeps what a reading said of a block in 4 to 6 bytes, a slip, and
//! [`read_slips`] gives a run of them back.

#![allow(dead_code, unused_imports)] // a program may use a part

// By path, so that it does not matter how a program takes this file.
#[path = "livomashen/raw.rs"]
pub mod raw;
#[path = "livomashen/refusal.rs"]
mod refusal;
#[path = "livomashen/registers.rs"]
mod registers;
#[path = "livomashen/slips.rs"]
mod slips;
#[path = "livomashen/window.rs"]
mod window;

pub use refusal::Refusal;
pub use registers::{at, command, pending, Registers, Said, REGISTERS};
pub use slips::{read_slip, read_slips, write_slip, Fault, Slip, Slips, LONGEST_SLIP};
pub use window::{Window, WINDOW};

pub const CARDS: usize = 5;
/// Chips of one card.
pub const CHIPS: usize = 9;
/// Bytes of a block; chip i of card j is byte 9 j + i, its position.
pub const BLOCK: usize = 45;
/// Bytes of a record: the first of its block.
pub const RECORD: usize = 34;
/// Blocks of the largest bank, of 46,080 bytes.
pub const MOST_BLOCKS: usize = 1024;
/// A fresh mark record: card, count, first chip, second chip; 255 is unused.
pub const FRESH: [u8; 4] = [255, 0, 255, 255];

/// How a block was corrected; n is the number of bytes changed.
#[derive(Clone, Copy, Debug, PartialEq, Eq)]
pub enum Corrected {
    Clean,
    Chips { n: u8 },
    Card { card: u8, n: u8 },
}

/// The blocks of a bank by their readings.
#[derive(Clone, Copy, Debug, Default, PartialEq, Eq)]
pub struct Totals {
    pub clean: u16,
    pub chips: u16,
    pub card: u16,
    pub none: u16,
    pub several: u16,
}

fn done(code: u32) -> Result<(), Refusal> {
    match code as u8 {
        0 => Ok(()),
        number => Err(Refusal::from_code(number, 0)),
    }
}

/// A number, and behind it the byte that is given with 0.
fn byte_of(code: u32) -> Result<u8, Refusal> {
    let [_, byte, ..] = code.to_le_bytes();
    done(code).map(|()| byte)
}

fn answer(code: u32) -> Result<Corrected, Refusal> {
    let [number, kind, card, n] = code.to_le_bytes();
    match (number, kind) {
        (0, 0) => Ok(Corrected::Clean),
        (0, 1) => Ok(Corrected::Chips { n }),
        (0, _) => Ok(Corrected::Card { card, n }),
        (number, _) => Err(Refusal::from_code(number, card)),
    }
}

// The unsafe blocks, here and in the modules, hand each slice over as its own
// pointer and length, and registers and window, arrays of twelve and of 64, as a
// pointer.  What is written is borrowed for the call alone, so nothing overlaps.

/// Stores a record as the only lawful block that begins with it.
pub fn store(record: &[u8], output: &mut [u8]) -> Result<(), Refusal> {
    done(unsafe {
        raw::livomashen_store(
            record.as_ptr(),
            record.len(),
            output.as_mut_ptr(),
            output.len(),
        )
    })
}

/// Reads a block under marks; the corrected 45 bytes go into the output.
pub fn read(block: &[u8], marks: &[u8], output: &mut [u8]) -> Result<Corrected, Refusal> {
    answer(unsafe {
        raw::livomashen_read(
            block.as_ptr(),
            block.len(),
            marks.as_ptr(),
            marks.len(),
            output.as_mut_ptr(),
            output.len(),
        )
    })
}

/// The record as a part of the output that `read` or `get` filled; empty on a
/// refusal, and of an output that is not 45 bytes.
pub fn record_of<'a>(output: &'a [u8], said: &Result<Corrected, Refusal>) -> &'a [u8] {
    match said {
        Ok(_) if output.len() == BLOCK => &output[..RECORD],
        _ => &[],
    }
}

/// Makes every block of a bank 45 zeros.
pub fn clear(bank: &mut [u8]) -> Result<(), Refusal> {
    done(unsafe { raw::livomashen_clear(bank.as_mut_ptr(), bank.len()) })
}

/// Stores a record as block k.
pub fn put(bank: &mut [u8], k: usize, record: &[u8]) -> Result<(), Refusal> {
    done(unsafe {
        raw::livomashen_put(
            bank.as_mut_ptr(),
            bank.len(),
            k,
            record.as_ptr(),
            record.len(),
        )
    })
}

/// Reads block k into the output; the bank stays as it is.  The positions that
/// were changed go into the window.
pub fn get(
    bank: &[u8],
    k: usize,
    marks: &[u8],
    output: &mut [u8],
    window: &mut Window,
) -> Result<Corrected, Refusal> {
    answer(unsafe {
        raw::livomashen_get(
            bank.as_ptr(),
            bank.len(),
            k,
            marks.as_ptr(),
            marks.len(),
            output.as_mut_ptr(),
            output.len(),
            window.as_mut_ptr(),
        )
    })
}

/// Reads block k and puts the corrected bytes back, and the positions that were
/// changed into the window.
pub fn patrol(
    bank: &mut [u8],
    k: usize,
    marks: &[u8],
    window: &mut Window,
) -> Result<Corrected, Refusal> {
    answer(unsafe {
        raw::livomashen_patrol(
            bank.as_mut_ptr(),
            bank.len(),
            k,
            marks.as_ptr(),
            marks.len(),
            window.as_mut_ptr(),
        )
    })
}

/// Counts the blocks of a bank by their readings; alters nothing.
pub fn report(bank: &[u8], marks: &[u8]) -> Result<Totals, Refusal> {
    let code =
        unsafe { raw::livomashen_report(bank.as_ptr(), bank.len(), marks.as_ptr(), marks.len()) };
    let total = |which: u32| (code >> (8 + 11 * which)) as u16 & 0x7FF;
    match code as u8 {
        0 => Ok(Totals {
            clean: total(0),
            chips: total(1),
            card: total(2),
            none: total(3),
            several: total(4),
        }),
        number => Err(Refusal::from_code(number, 0)),
    }
}

/// Marks the chip at a position, 0 to 44; one that is marked already stays as it is.
pub fn place_chip(marks: &mut [u8], position: u32) -> Result<(), Refusal> {
    done(unsafe { raw::livomashen_place_chip(marks.as_mut_ptr(), marks.len(), position) })
}

/// Lifts the mark of the chip at a position; a second mark moves down.
pub fn lift_chip(marks: &mut [u8], position: u32) -> Result<(), Refusal> {
    done(unsafe { raw::livomashen_lift_chip(marks.as_mut_ptr(), marks.len(), position) })
}

/// Marks a card, 0 to 4; the one that is marked already stays as it is.
pub fn place_card(marks: &mut [u8], card: u32) -> Result<(), Refusal> {
    done(unsafe { raw::livomashen_place_card(marks.as_mut_ptr(), marks.len(), card) })
}

/// Lifts the card mark, whichever card it is.
pub fn lift_card(marks: &mut [u8]) -> Result<(), Refusal> {
    done(unsafe { raw::livomashen_lift_card(marks.as_mut_ptr(), marks.len()) })
}
