//! The corrector as twelve registers.

use super::{byte_of, done, raw, Corrected, Refusal, Window};

/// Bytes of the registers.
pub const REGISTERS: usize = 12;

/// Addresses of the registers.
pub mod at {
    /// A write runs the command.
    pub const COMMAND: u32 = 0;
    /// The block number is this byte ..
    pub const BLOCK_LOW: u32 = 1;
    /// .. plus 256 times this one.
    pub const BLOCK_HIGH: u32 = 2;
    /// The chip or card asked for.
    pub const ASKED: u32 = 3;
    /// The last answer; not written.
    pub const ANSWER: u32 = 4;
    /// Its n, plus 16 times its card; not written.
    pub const DETAIL: u32 = 5;
    /// The bits that may raise the interrupt.
    pub const ENABLE: u32 = 6;
    /// A write clears the bits that it has set.
    pub const PENDING: u32 = 7;
    /// To 11: the mark record; not written.
    pub const MARKS: u32 = 8;
}

/// Commands; each does what a call does, by what is in the registers.
pub mod command {
    pub const GET: u8 = 1;
    pub const PATROL: u8 = 2;
    /// As `place_chip`.
    pub const MARK_CHIP: u8 = 3;
    /// As `place_card`.
    pub const MARK_CARD: u8 = 4;
    pub const LIFT_CHIP: u8 = 5;
    /// The byte asked for is not looked at.
    pub const LIFT_CARD: u8 = 6;
}

/// Bits of the pending byte, and so of the enable byte.
pub mod pending {
    /// A command was done.
    pub const DONE: u8 = 1;
    /// A command was refused.
    pub const REFUSED: u8 = 2;
}

/// What a command that was done says.
#[derive(Clone, Copy, Debug, PartialEq, Eq)]
pub enum Said {
    /// A get or patrol.
    Corrected(Corrected),
    /// A mark was placed or lifted, or the one to place was already there.
    Marked,
}

/// The corrector as twelve registers.
///
/// ```ignore
/// let mut registers = livomashen::Registers::fresh();
/// registers.write(at::BLOCK_LOW, 2, &mut bank, &mut out, &mut window)?;
/// registers.write(at::COMMAND, command::GET, &mut bank, &mut out, &mut window)?;
/// if registers.last_answer() == Some(Ok(Said::Corrected(Corrected::Clean))) { .. }
/// ```
#[derive(Clone, Debug, PartialEq, Eq)]
pub struct Registers([u8; REGISTERS]);

impl Registers {
    /// At the start: all 0, but for the mark record, which is fresh.
    pub const fn fresh() -> Registers {
        Registers([0, 0, 0, 0, 0, 0, 0, 0, 255, 0, 255, 255])
    }

    /// Any twelve bytes; marks that are not lawful are refused by the commands.
    pub const fn from_bytes(bytes: [u8; REGISTERS]) -> Registers {
        Registers(bytes)
    }

    pub fn bytes(&self) -> &[u8; REGISTERS] {
        &self.0
    }

    /// The mark record, bytes 8 to 11, for calls that read under it.
    pub fn marks(&self) -> &[u8] {
        &self.0[at::MARKS as usize..]
    }

    /// The same for the calls that place and lift marks.
    pub fn marks_mut(&mut self) -> &mut [u8] {
        &mut self.0[at::MARKS as usize..]
    }

    /// Writes a register: a command runs on bank, output and window, ones clear
    /// bits of the pending byte, and bytes 1, 2, 3 and 6 take the value.  Only
    /// commands look at bank and output, those of marks at neither; `&mut []`
    /// will do.  A get or patrol that was done adds to the window.
    ///
    /// Refusals 12, 13 and 14 change nothing.  A command that is refused by
    /// another number is a write that was done, and changes only registers:
    /// [`last_answer`](Registers::last_answer) has the refusal.
    pub fn write(
        &mut self,
        address: u32,
        value: u8,
        bank: &mut [u8],
        output: &mut [u8],
        window: &mut Window,
    ) -> Result<(), Refusal> {
        done(unsafe {
            raw::livomashen_write_register(
                self.0.as_mut_ptr(),
                address,
                value,
                bank.as_mut_ptr(),
                bank.len(),
                output.as_mut_ptr(),
                output.len(),
                window.as_mut_ptr(),
            )
        })
    }

    /// Reads a register; refusal 12.
    pub fn read(&self, address: u32) -> Result<u8, Refusal> {
        byte_of(unsafe { raw::livomashen_read_register(self.0.as_ptr(), address) })
    }

    /// Whether the interrupt is raised: enable and pending byte share a set bit.
    pub fn interrupt(&self) -> bool {
        unsafe { raw::livomashen_interrupt(self.0.as_ptr()) != 0 }
    }

    /// What the last command said; before the first one, clean.  None where byte
    /// 4 is such as no command leaves.
    pub fn last_answer(&self) -> Option<Result<Said, Refusal>> {
        let (answer, detail) = (self.0[4], self.0[5]);
        let (card, n) = (detail >> 4, detail & 15);
        match answer {
            0 => Some(Ok(Said::Corrected(Corrected::Clean))),
            1 => Some(Ok(Said::Corrected(Corrected::Chips { n }))),
            2 => Some(Ok(Said::Corrected(Corrected::Card { card, n }))),
            3 => Some(Ok(Said::Marked)),
            17..=27 => Refusal::of_number(answer - 16, card).map(Err),
            _ => None,
        }
    }
}
