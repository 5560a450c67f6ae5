//! Order 8's fault slips: one reading of one block, written and read.

use super::{Answer, CARDS, MOST_BLOCKS};

/// The slip's bytes, of which so many count; None where there is none of it.
fn slip_of(k: usize, answer: Answer) -> Option<([u8; 6], usize)> {
    if k >= MOST_BLOCKS {
        return None;
    }
    let (low, high) = (k as u8, (k >> 8) as u8);
    match answer {
        Answer::Clean => Some(([3, low, high, 0, 0, 0], 4)),
        Answer::Chips { n: n @ 1..=2 } => Some(([11, low, high, 1, n, 0], 5)),
        Answer::Card {
            card: card @ 0..=4,
            n: n @ 1..=11,
        } => Some(([15, low, high, 2, card, n], 6)),
        Answer::None => Some(([17, low, high, 10, 0, 0], 4)),
        Answer::Several { card: card @ 0..=4 } => Some(([21, low, high, card, 11, 0], 5)),
        _ => None,
    }
}

/// Writes a slip; gives the offset behind it.  Err: 16 or 17.
pub fn write(slips: &mut [u8], at: usize, k: usize, answer: Answer) -> Result<usize, u8> {
    let (bytes, len) = slip_of(k, answer).ok_or(16)?;
    let end = at.checked_add(len).ok_or(17)?;
    let space = slips.get_mut(at..end).ok_or(17)?;
    space.copy_from_slice(&bytes[..len]);
    Ok(end)
}

/// What is left to read.
struct Bytes<'a> {
    slips: &'a [u8],
    at: usize,
}

impl Bytes<'_> {
    /// The next byte, which is to fit.  Err: 15 or 16, and the cause's offset.
    fn next(&mut self, fits: impl Fn(u8) -> bool) -> Result<u8, (u8, usize)> {
        match self.slips.get(self.at) {
            None => Err((15, self.slips.len())),
            Some(&byte) if !fits(byte) => Err((16, self.at)),
            Some(&byte) => {
                self.at += 1;
                Ok(byte)
            }
        }
    }
}

/// Reads a slip: block number, reading, and the offset behind it.  Err: 15 or 16,
/// and the cause's offset.
pub fn read(slips: &[u8], at: usize) -> Result<(u16, Answer, usize), (u8, usize)> {
    let mut bytes = Bytes { slips, at };
    let map = bytes.next(|map| matches!(map, 3 | 11 | 15 | 17 | 21))?;
    let low = bytes.next(|_| true)?;
    let high = bytes.next(|high| high < 4)?;
    let is_card = |card| usize::from(card) < CARDS;
    let answer = match map {
        3 => {
            bytes.next(|kind| kind == 0)?;
            Answer::Clean
        }
        11 => {
            bytes.next(|kind| kind == 1)?;
            let n = bytes.next(|n| matches!(n, 1..=2))?;
            Answer::Chips { n }
        }
        15 => {
            bytes.next(|kind| kind == 2)?;
            let card = bytes.next(is_card)?;
            let n = bytes.next(|n| matches!(n, 1..=11))?;
            Answer::Card { card, n }
        }
        17 => {
            bytes.next(|refusal| refusal == 10)?;
            Answer::None
        }
        _ => {
            let card = bytes.next(is_card)?;
            bytes.next(|refusal| refusal == 11)?;
            Answer::Several { card }
        }
    };
    Ok((u16::from_le_bytes([low, high]), answer, bytes.at))
}
