//! Why a call was refused.

use core::fmt;

/// Why a call was refused.  Another version may have more numbers.
#[derive(Clone, Copy, Debug, PartialEq, Eq)]
#[non_exhaustive]
pub enum Refusal {
    /// The received block is not 45 bytes.
    BlockLength,
    /// The output is not 45 bytes.
    OutputLength,
    /// The record is not 34 bytes.
    RecordLength,
    /// The bank is not 45 n bytes, n from 1 to 1,024.
    BankLength,
    /// There is no block of this number.
    BlockNumber,
    /// The mark record or the mark asked for is outside its ranges.
    MarkRange,
    /// Both chip marks of the record are equal.
    MarkTwice,
    /// A third chip mark, or another card while one is marked.
    MarkLimit,
    /// The mark to lift is not there.
    MarkAbsent,
    /// No record fits the block.
    None,
    /// Two records or more fit; `card` is the lowest card of which a change, with one in marked
    /// chips, reaches one of them.
    Several { card: u8 },
    /// The register's address is above 11.
    RegisterAddress,
    /// Bytes 4, 5 and 8 to 11 of the registers are not written.
    RegisterReadOnly,
    /// There is no command of this number.
    CommandUnknown,
    /// The slice ends before the slip does.
    SlipCut,
    /// A bit or value that no slip has, read or to be written.
    SlipRules,
    /// There is no space for the whole slip.
    SlipSpace,
}

impl Refusal {
    /// The refusal's number, 1 to 17.
    pub fn number(self) -> u8 {
        match self {
            Refusal::BlockLength => 1,
            Refusal::OutputLength => 2,
            Refusal::RecordLength => 3,
            Refusal::BankLength => 4,
            Refusal::BlockNumber => 5,
            Refusal::MarkRange => 6,
            Refusal::MarkTwice => 7,
            Refusal::MarkLimit => 8,
            Refusal::MarkAbsent => 9,
            Refusal::None => 10,
            Refusal::Several { .. } => 11,
            Refusal::RegisterAddress => 12,
            Refusal::RegisterReadOnly => 13,
            Refusal::CommandUnknown => 14,
            Refusal::SlipCut => 15,
            Refusal::SlipRules => 16,
            Refusal::SlipSpace => 17,
        }
    }

    pub(super) fn of_number(number: u8, card: u8) -> Option<Refusal> {
        Some(match number {
            1 => Refusal::BlockLength,
            2 => Refusal::OutputLength,
            3 => Refusal::RecordLength,
            4 => Refusal::BankLength,
            5 => Refusal::BlockNumber,
            6 => Refusal::MarkRange,
            7 => Refusal::MarkTwice,
            8 => Refusal::MarkLimit,
            9 => Refusal::MarkAbsent,
            10 => Refusal::None,
            11 => Refusal::Several { card },
            12 => Refusal::RegisterAddress,
            13 => Refusal::RegisterReadOnly,
            14 => Refusal::CommandUnknown,
            15 => Refusal::SlipCut,
            16 => Refusal::SlipRules,
            17 => Refusal::SlipSpace,
            _ => return None,
        })
    }

    pub(super) fn from_code(number: u8, card: u8) -> Refusal {
        // The library's contracts leave no other number.
        match Refusal::of_number(number, card) {
            Some(refusal) => refusal,
            None => unreachable!("refusal number {number}"),
        }
    }
}

impl fmt::Display for Refusal {
    fn fmt(&self, f: &mut fmt::Formatter) -> fmt::Result {
        let words = match self {
            Refusal::BlockLength => "the block is not 45 bytes",
            Refusal::OutputLength => "the output is not 45 bytes",
            Refusal::RecordLength => "the record is not 34 bytes",
            Refusal::BankLength => "the bank is not 1 to 1,024 blocks of 45 bytes",
            Refusal::BlockNumber => "there is no block of this number",
            Refusal::MarkRange => "a mark is outside its range",
            Refusal::MarkTwice => "one chip is marked twice in the mark record",
            Refusal::MarkLimit => "a third chip mark, or a second card mark",
            Refusal::MarkAbsent => "the mark to lift is not there",
            Refusal::None => "no record fits the block",
            Refusal::Several { card } => {
                return write!(
                    f,
                    "several records fit the block; card {card} is the lowest that reaches one"
                );
            }
            Refusal::RegisterAddress => "there is no register of this address",
            Refusal::RegisterReadOnly => "this register is not written",
            Refusal::CommandUnknown => "there is no command of this number",
            Refusal::SlipCut => "the slice ends before the slip does",
            Refusal::SlipRules => "a bit or value that no slip has",
            Refusal::SlipSpace => "there is no space for the whole slip",
        };
        f.write_str(words)
    }
}

impl core::error::Error for Refusal {}
