//! plain.rs, and its calls in words, as C functions of the library's shape.

use crate::plain::{slips, window, Answer, Totals};
use std::slice::{from_raw_parts, from_raw_parts_mut};

/// An answer as the library's code.
fn code(answer: Answer) -> u32 {
    match answer {
        Answer::Clean => 0,
        Answer::Chips { n } => 1 << 8 | (n as u32) << 24,
        Answer::Card { card, n } => 2 << 8 | (card as u32) << 16 | (n as u32) << 24,
        Answer::Refused(number) => number as u32,
        Answer::None => 10,
        Answer::Several { card } => 11 | (card as u32) << 16,
    }
}

/// The answer of a code; any that has no slip is a refusal.
fn answer(code: u32) -> Answer {
    match code.to_le_bytes() {
        [0, 0, 0, 0] => Answer::Clean,
        [0, 1, 0, n] => Answer::Chips { n },
        [0, 2, card, n] => Answer::Card { card, n },
        [10, 0, 0, 0] => Answer::None,
        [11, 0, card, 0] => Answer::Several { card },
        [number, ..] => Answer::Refused(number),
    }
}

/// A report as the library's code.
fn report_code(said: Result<Totals, u8>) -> u64 {
    match said {
        Err(number) => number as u64,
        Ok(t) => {
            (t.clean as u64) << 8
                | (t.chips as u64) << 19
                | (t.card as u64) << 30
                | (t.none as u64) << 41
                | (t.several as u64) << 52
        }
    }
}

/// Both versions have the same calls, and so the same C functions around them, each
/// with its version's name before its own.
macro_rules! c_functions {
    ($name:ident, $($used:item)*) => {
        pub mod $name {
            use super::{code, report_code};
            use std::slice::{from_raw_parts, from_raw_parts_mut};

            mod calls {
                $($used)*
            }

            #[export_name = concat!(stringify!($name), "_store")]
            #[inline(never)]
            pub unsafe extern "C" fn store(
                rec: *const u8,
                rec_len: usize,
                out: *mut u8,
                out_len: usize,
            ) -> u32 {
                let (rec, out) = unsafe {
                    (
                        from_raw_parts(rec, rec_len),
                        from_raw_parts_mut(out, out_len),
                    )
                };
                calls::store(rec, out).err().unwrap_or(0) as u32
            }

            #[export_name = concat!(stringify!($name), "_put")]
            #[inline(never)]
            pub unsafe extern "C" fn put(
                bank: *mut u8,
                bank_len: usize,
                k: usize,
                rec: *const u8,
                rec_len: usize,
            ) -> u32 {
                let (bank, rec) = unsafe {
                    (
                        from_raw_parts_mut(bank, bank_len),
                        from_raw_parts(rec, rec_len),
                    )
                };
                calls::put(bank, k, rec).err().unwrap_or(0) as u32
            }

            #[export_name = concat!(stringify!($name), "_read")]
            #[inline(never)]
            pub unsafe extern "C" fn read(
                block: *const u8,
                block_len: usize,
                marks: *const u8,
                marks_len: usize,
                out: *mut u8,
                out_len: usize,
            ) -> u32 {
                let (block, marks, out) = unsafe {
                    (
                        from_raw_parts(block, block_len),
                        from_raw_parts(marks, marks_len),
                        from_raw_parts_mut(out, out_len),
                    )
                };
                code(calls::read(block, marks, out))
            }

            #[export_name = concat!(stringify!($name), "_get")]
            #[inline(never)]
            pub unsafe extern "C" fn get(
                bank: *const u8,
                bank_len: usize,
                k: usize,
                marks: *const u8,
                marks_len: usize,
                out: *mut u8,
                out_len: usize,
                window: *mut u8,
            ) -> u32 {
                let (bank, marks, out, window) = unsafe {
                    (
                        from_raw_parts(bank, bank_len),
                        from_raw_parts(marks, marks_len),
                        from_raw_parts_mut(out, out_len),
                        &mut *window.cast(),
                    )
                };
                code(calls::get(bank, k, marks, out, window))
            }

            #[export_name = concat!(stringify!($name), "_patrol")]
            #[inline(never)]
            pub unsafe extern "C" fn patrol(
                bank: *mut u8,
                bank_len: usize,
                k: usize,
                marks: *const u8,
                marks_len: usize,
                window: *mut u8,
            ) -> u32 {
                let (bank, marks, window) = unsafe {
                    (
                        from_raw_parts_mut(bank, bank_len),
                        from_raw_parts(marks, marks_len),
                        &mut *window.cast(),
                    )
                };
                code(calls::patrol(bank, k, marks, window))
            }

            #[export_name = concat!(stringify!($name), "_report")]
            #[inline(never)]
            pub unsafe extern "C" fn report(
                bank: *const u8,
                bank_len: usize,
                marks: *const u8,
                marks_len: usize,
            ) -> u64 {
                let (bank, marks) = unsafe {
                    (
                        from_raw_parts(bank, bank_len),
                        from_raw_parts(marks, marks_len),
                    )
                };
                report_code(calls::report(bank, marks))
            }
        }
    };
}

c_functions! {
    plain,
    pub use crate::plain::window::{get, patrol};
    pub use crate::plain::{put, read, report, store};
}

c_functions! {
    words,
    pub use crate::plain::words::{get, patrol, put, read, report, store};
}

#[no_mangle]
#[inline(never)]
pub unsafe extern "C" fn plain_propose(
    window: *const u8,
    marks: *const u8,
    marks_len: usize,
) -> u32 {
    let (held, marks) = unsafe { (&*window.cast(), from_raw_parts(marks, marks_len)) };
    match window::propose(held, marks) {
        Err(number) => number as u32,
        Ok(chip) => (chip.unwrap_or(255) as u32) << 8,
    }
}

#[no_mangle]
#[inline(never)]
pub unsafe extern "C" fn plain_write_slip(
    slips: *mut u8,
    slips_len: usize,
    at: usize,
    k: usize,
    reading: u32,
) -> u32 {
    let lent = unsafe { from_raw_parts_mut(slips, slips_len) };
    match slips::write(lent, at, k, answer(reading)) {
        Err(number) => number as u32,
        Ok(next) => ((next - at) as u32) << 8,
    }
}

#[no_mangle]
#[inline(never)]
pub unsafe extern "C" fn plain_read_slip(slips: *const u8, slips_len: usize, at: usize) -> u64 {
    let lent = unsafe { from_raw_parts(slips, slips_len) };
    match slips::read(lent, at) {
        Err((15, _)) => 15,
        Err((number, offset)) => number as u64 | ((offset - at) as u64) << 8,
        Ok((block, reading, next)) => {
            ((next - at) as u64) << 8 | (block as u64) << 16 | (code(reading) as u64) << 32
        }
    }
}
