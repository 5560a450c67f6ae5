//! Tests of the library through its Rust wrapper: document 01's worked blocks,
//! the limits, random damage against plain.rs, order 1's registers, order 2's
//! window and order 8's slips.
//!
//! rustc -O --edition 2021 --test -L DIR -l static=livomashen tests.rs

mod livomashen;
#[allow(dead_code)] // the benchmark uses the rest of both
mod plain;
#[allow(dead_code)]
mod random;

#[path = "tests/commands.rs"]
mod commands;
#[path = "tests/damage.rs"]
mod damage;
#[path = "tests/limits.rs"]
mod limits;
#[path = "tests/registers.rs"]
mod registers;
#[path = "tests/slips.rs"]
mod slips;
#[path = "tests/window.rs"]
mod window;
#[path = "tests/worked.rs"]
mod worked;

use livomashen::Refusal;

fn number<T>(said: Result<T, Refusal>) -> Result<T, u8> {
    said.map_err(Refusal::number)
}

/// A refusal by its number and the card that it names; 0 where it names none.
fn told<T>(said: Result<T, Refusal>) -> Result<T, (u8, u8)> {
    said.map_err(|refusal| match refusal {
        Refusal::Several { card } => (11, card),
        other => (other.number(), 0),
    })
}
