//! The window over the last 64 corrected positions, and the chip to mark by it.

use super::{byte_of, raw, Refusal, BLOCK};

/// Bytes of the window.
pub const WINDOW: usize = 64;

/// No position yet, and no chip proposed.
const NO_CHIP: u8 = 255;

/// The last 64 positions that gets and patrols corrected.
///
/// ```ignore
/// let mut window = livomashen::Window::fresh();
/// livomashen::patrol(&mut bank, 2, &marks, &mut window)?;
/// if let Some(chip) = window.propose(&marks)? { .. }
/// ```
///
/// [`get`](super::get) and [`patrol`](super::patrol), and their commands, add the
/// positions of the bytes that they changed, lowest first; the oldest leave.
/// Nothing else writes it but [`clear`](Window::clear): not a report, not a plain
/// read, not a refused call, and not the clear of a bank.
#[derive(Clone, Debug, PartialEq, Eq)]
pub struct Window([u8; WINDOW]);

impl Window {
    /// Empty.
    pub const fn fresh() -> Window {
        Window([NO_CHIP; WINDOW])
    }

    /// Any 64 bytes; those of 45 and more are no positions.
    pub const fn from_bytes(bytes: [u8; WINDOW]) -> Window {
        Window(bytes)
    }

    /// The newest position is byte 63, the older ones before it; 255 is none yet.
    pub fn bytes(&self) -> &[u8; WINDOW] {
        &self.0
    }

    /// What it holds, oldest first.
    pub fn positions(&self) -> impl Iterator<Item = u8> + '_ {
        let held = self.0.iter().copied();
        held.filter(|&byte| usize::from(byte) < BLOCK)
    }

    /// How often a position stands in it.
    pub fn times(&self, position: u8) -> usize {
        self.positions().filter(|&held| held == position).count()
    }

    /// Makes it empty again.
    pub fn clear(&mut self) {
        unsafe { raw::livomashen_clear_window(self.0.as_mut_ptr()) };
    }

    /// The lowest position that stands in it four times or more and is not
    /// marked, nor its card; None where there is none.  Places no mark.  Refusals
    /// 6 and 7, for marks that are not lawful.
    pub fn propose(&self, marks: &[u8]) -> Result<Option<u8>, Refusal> {
        let code = unsafe { raw::livomashen_propose(self.0.as_ptr(), marks.as_ptr(), marks.len()) };
        byte_of(code).map(|chip| (chip != NO_CHIP).then_some(chip))
    }

    pub(super) fn as_mut_ptr(&mut self) -> *mut u8 {
        self.0.as_mut_ptr()
    }
}
