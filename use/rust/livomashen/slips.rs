//! Fault slips: one reading of one block, written and read.

use super::{answer, byte_of, raw, Corrected, Refusal};
use core::fmt;
use core::iter::FusedIterator;

/// Bytes of the longest slip; the shortest have 4.
pub const LONGEST_SLIP: usize = 6;

/// One reading of one block.
///
/// Its bytes are a map, then only the fields whose bits stand in it: the block
/// number (bit 0; two bytes, low first), the kind (bit 1), the card (bit 2), n
/// (bit 3), the refusal's number (bit 4).  The only maps are 3 for clean, 11 for
/// chips, 15 for a card, 17 for none and 21 for several.
#[derive(Clone, Copy, Debug, PartialEq, Eq)]
pub struct Slip {
    /// The block number, 0 to 1,023.
    pub block: u16,
    /// As [`get`](super::get) gave it: corrected, [`Refusal::None`] or
    /// [`Refusal::Several`].
    pub reading: Result<Corrected, Refusal>,
}

/// Why no slip was read, and where.
#[derive(Clone, Copy, Debug, PartialEq, Eq)]
pub struct Fault {
    /// [`Refusal::SlipCut`] or [`Refusal::SlipRules`].
    pub refusal: Refusal,
    /// Where its cause stands in the slice; the slice's length for a slip that is
    /// cut.
    pub offset: usize,
}

impl fmt::Display for Fault {
    fn fmt(&self, f: &mut fmt::Formatter) -> fmt::Result {
        write!(f, "{}, at byte {}", self.refusal, self.offset)
    }
}

impl core::error::Error for Fault {}

/// A reading as the library's code.  Each has its own: a card or n that no slip has
/// stands in it as it is, for the library to refuse.
fn code_of(reading: Result<Corrected, Refusal>) -> u32 {
    u32::from_le_bytes(match reading {
        Ok(Corrected::Clean) => [0; 4],
        Ok(Corrected::Chips { n }) => [0, 1, 0, n],
        Ok(Corrected::Card { card, n }) => [0, 2, card, n],
        Err(Refusal::Several { card }) => [11, 0, card, 0],
        Err(refusal) => [refusal.number(), 0, 0, 0],
    })
}

/// Writes the slip of block k and its reading at an offset of the slice; gives the
/// offset after it, where the next may begin.
///
/// ```ignore
/// let reading = livomashen::get(&bank, k, &marks, &mut out, &mut window);
/// end = livomashen::write_slip(&mut slips, end, k, reading)?;
/// ```
///
/// Refusals 16, for a block number of 1,024 or more and for all that is no reading,
/// other refusals than 10 and 11 among it; and 17.  They change no byte.
pub fn write_slip(
    slips: &mut [u8],
    at: usize,
    k: usize,
    reading: Result<Corrected, Refusal>,
) -> Result<usize, Refusal> {
    let (start, len) = (slips.as_mut_ptr(), slips.len());
    let code = unsafe { raw::livomashen_write_slip(start, len, at, k, code_of(reading)) };
    byte_of(code).map(|length| at + usize::from(length))
}

/// Reads the slip that begins at an offset of the slice; gives it and the offset
/// after it.
pub fn read_slip(slips: &[u8], at: usize) -> Result<(Slip, usize), Fault> {
    let code = unsafe { raw::livomashen_read_slip(slips.as_ptr(), slips.len(), at) };
    let [number, length, low, high, ..] = code.to_le_bytes();
    if number == 0 {
        let block = u16::from_le_bytes([low, high]);
        let reading = answer((code >> 32) as u32);
        return Ok((Slip { block, reading }, at + usize::from(length)));
    }
    let refusal = Refusal::from_code(number, 0);
    let offset = match refusal {
        Refusal::SlipCut => slips.len(),
        _ => at + usize::from(length),
    };
    Err(Fault { refusal, offset })
}

/// The slips of a slice that is full of them, one after the other.
///
/// ```ignore
/// for slip in livomashen::read_slips(&slips[..end]) {
///     let Slip { block, reading } = slip?;
/// }
/// ```
///
/// It ends at the slice's end, or after a fault, since no slip is known to begin
/// there.
pub fn read_slips(slips: &[u8]) -> Slips<'_> {
    Slips { slips, at: 0 }
}

/// See [`read_slips`].
#[derive(Clone, Debug)]
pub struct Slips<'a> {
    slips: &'a [u8],
    at: usize,
}

impl Iterator for Slips<'_> {
    type Item = Result<Slip, Fault>;

    fn next(&mut self) -> Option<Result<Slip, Fault>> {
        if self.at == self.slips.len() {
            return None;
        }
        let read = read_slip(self.slips, self.at);
        self.at = read.map_or(self.slips.len(), |(_, next)| next);
        Some(read.map(|(slip, _)| slip))
    }
}

impl FusedIterator for Slips<'_> {}
