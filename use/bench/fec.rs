//! libfec's RS(45,34) over the same field, used as a programmer would for this
//! memory: marks are erasures, and an unknown card is sought by erasing each.

use crate::plain::window::add;
use crate::{BLOCK, RECORD};
use std::ffi::c_void;
use std::slice::from_raw_parts;
use std::sync::atomic::{AtomicPtr, Ordering};

extern "C" {
    fn init_rs_char(
        symsize: i32,
        gfpoly: i32,
        fcr: i32,
        prim: i32,
        nroots: i32,
        pad: i32,
    ) -> *mut c_void;
    fn encode_rs_char(rs: *mut c_void, data: *mut u8, parity: *mut u8);
    fn decode_rs_char(rs: *mut c_void, data: *mut u8, eras_pos: *mut i32, no_eras: i32) -> i32;
}

const CHECKS: i32 = (BLOCK - RECORD) as i32;
const PAD: i32 = 255 - BLOCK as i32;
static CODE: AtomicPtr<c_void> = AtomicPtr::new(std::ptr::null_mut());

pub fn begin() {
    let code = unsafe { init_rs_char(8, 0x11D, 1, 1, CHECKS, PAD) };
    assert!(!code.is_null(), "libfec gives no RS(45,34)");
    CODE.store(code, Ordering::Relaxed);
}

#[no_mangle]
#[inline(never)]
pub unsafe extern "C" fn fec_store(rec: *const u8, _: usize, out: *mut u8, _: usize) -> u32 {
    unsafe {
        std::ptr::copy_nonoverlapping(rec, out, RECORD);
        encode_rs_char(CODE.load(Ordering::Relaxed), out, out.add(RECORD));
    }
    0
}

#[no_mangle]
#[inline(never)]
pub unsafe extern "C" fn fec_put(
    bank: *mut u8,
    _: usize,
    k: usize,
    rec: *const u8,
    rec_len: usize,
) -> u32 {
    unsafe { fec_store(rec, rec_len, bank.add(BLOCK * k), BLOCK) }
}

/// Decodes a copy of the block with these places erased; gives libfec's
/// number of changed places, and their positions in `places`.
unsafe fn decode(block: *const u8, out: *mut u8, places: &mut [i32; 11], count: usize) -> i32 {
    unsafe {
        std::ptr::copy_nonoverlapping(block, out, BLOCK);
        decode_rs_char(
            CODE.load(Ordering::Relaxed),
            out,
            places.as_mut_ptr(),
            count as i32,
        )
    }
}

/// The places of a card.  Debian's libfec counts from the block's start;
/// one that counts the padding too would fail the check before the times.
fn erase_card(places: &mut [i32; 11], card: i32) -> usize {
    for (chip, place) in places[..9].iter_mut().enumerate() {
        *place = 9 * card + chip as i32;
    }
    9
}

/// Erases each card in turn.  A card fits if nothing else had to change;
/// all five are tried, since two that fit must not be told apart by order.
unsafe fn seek_card(block: *const u8, out: *mut u8) -> u32 {
    let mut fitting = None;
    for card in 0..5 {
        let mut places = [0; 11];
        let mut tried = [0; BLOCK];
        let erased = erase_card(&mut places, card);
        let changed = unsafe { decode(block, tried.as_mut_ptr(), &mut places, erased) };
        let on_card = |p: &i32| *p / 9 == card;
        if changed >= 0 && places[..changed as usize].iter().all(on_card) {
            if fitting.is_some() {
                return 11;
            }
            fitting = Some(tried);
        }
    }
    match fitting {
        None => 10,
        Some(found) => {
            unsafe { std::ptr::copy_nonoverlapping(found.as_ptr(), out, BLOCK) };
            0
        }
    }
}

#[no_mangle]
#[inline(never)]
pub unsafe extern "C" fn fec_read(
    block: *const u8,
    _: usize,
    marks: *const u8,
    _: usize,
    out: *mut u8,
    _: usize,
) -> u32 {
    let marks = unsafe { from_raw_parts(marks, 4) };
    let mut places = [0; 11];
    let mut erased = 0;
    if marks[0] != 255 {
        erased = erase_card(&mut places, marks[0] as i32);
    }
    for &chip in &marks[2..2 + marks[1] as usize] {
        places[erased] = chip as i32;
        erased += 1;
    }
    match unsafe { decode(block, out, &mut places, erased) } {
        0.. => 0,
        _ if erased == 0 => unsafe { seek_card(block, out) },
        _ => 10,
    }
}

/// Adds what was changed to the window, as plain.rs does.
unsafe fn note(window: *mut u8, block: *const u8, out: *const u8) {
    unsafe {
        add(
            &mut *window.cast(),
            from_raw_parts(block, BLOCK),
            from_raw_parts(out, BLOCK),
        );
    }
}

#[no_mangle]
#[inline(never)]
pub unsafe extern "C" fn fec_get(
    bank: *const u8,
    _: usize,
    k: usize,
    marks: *const u8,
    marks_len: usize,
    out: *mut u8,
    out_len: usize,
    window: *mut u8,
) -> u32 {
    unsafe {
        let block = bank.add(BLOCK * k);
        let said = fec_read(block, BLOCK, marks, marks_len, out, out_len);
        if said == 0 {
            note(window, block, out);
        }
        said
    }
}

#[no_mangle]
#[inline(never)]
pub unsafe extern "C" fn fec_patrol(
    bank: *mut u8,
    _: usize,
    k: usize,
    marks: *const u8,
    marks_len: usize,
    window: *mut u8,
) -> u32 {
    let mut out = [0; BLOCK];
    unsafe {
        let block = bank.add(BLOCK * k);
        let said = fec_read(block, BLOCK, marks, marks_len, out.as_mut_ptr(), BLOCK);
        if said == 0 {
            note(window, block, out.as_ptr());
            std::ptr::copy_nonoverlapping(out.as_ptr(), block, BLOCK);
        }
        said
    }
}

#[no_mangle]
#[inline(never)]
pub unsafe extern "C" fn fec_report(
    bank: *const u8,
    bank_len: usize,
    _: *const u8,
    _: usize,
) -> u64 {
    let mut clean = 0;
    for k in 0..bank_len / BLOCK {
        let mut copy = [0; BLOCK];
        let mut places = [0; 11];
        let changed = unsafe { decode(bank.add(BLOCK * k), copy.as_mut_ptr(), &mut places, 0) };
        clean += (changed == 0) as u64;
    }
    clean << 8
}
