//! The C functions themselves, as in livomashen.h.

unsafe extern "C" {
    pub fn livomashen_store(rec: *const u8, rec_len: usize, out: *mut u8, out_len: usize) -> u32;
    pub fn livomashen_read(
        block: *const u8,
        block_len: usize,
        marks: *const u8,
        marks_len: usize,
        out: *mut u8,
        out_len: usize,
    ) -> u32;
    pub fn livomashen_clear(bank: *mut u8, bank_len: usize) -> u32;
    pub fn livomashen_put(
        bank: *mut u8,
        bank_len: usize,
        k: usize,
        rec: *const u8,
        rec_len: usize,
    ) -> u32;
    pub fn livomashen_get(
        bank: *const u8,
        bank_len: usize,
        k: usize,
        marks: *const u8,
        marks_len: usize,
        out: *mut u8,
        out_len: usize,
        window: *mut u8,
    ) -> u32;
    pub fn livomashen_patrol(
        bank: *mut u8,
        bank_len: usize,
        k: usize,
        marks: *const u8,
        marks_len: usize,
        window: *mut u8,
    ) -> u32;
    pub fn livomashen_report(
        bank: *const u8,
        bank_len: usize,
        marks: *const u8,
        marks_len: usize,
    ) -> u64;
    pub fn livomashen_place_chip(marks: *mut u8, marks_len: usize, position: u32) -> u32;
    pub fn livomashen_lift_chip(marks: *mut u8, marks_len: usize, position: u32) -> u32;
    pub fn livomashen_place_card(marks: *mut u8, marks_len: usize, card: u32) -> u32;
    pub fn livomashen_lift_card(marks: *mut u8, marks_len: usize) -> u32;
    pub fn livomashen_write_register(
        registers: *mut u8,
        address: u32,
        value: u8,
        bank: *mut u8,
        bank_len: usize,
        out: *mut u8,
        out_len: usize,
        window: *mut u8,
    ) -> u32;
    pub fn livomashen_read_register(registers: *const u8, address: u32) -> u32;
    pub fn livomashen_interrupt(registers: *const u8) -> u32;
    pub fn livomashen_clear_window(window: *mut u8) -> u32;
    pub fn livomashen_propose(window: *const u8, marks: *const u8, marks_len: usize) -> u32;
    pub fn livomashen_write_slip(
        slips: *mut u8,
        slips_len: usize,
        at: usize,
        k: usize,
        answer: u32,
    ) -> u32;
    pub fn livomashen_read_slip(slips: *const u8, slips_len: usize, at: usize) -> u64;
}
