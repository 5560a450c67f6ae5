//! The codecs of the benchmark, each as the same C functions.

#[cfg(libfec)]
use crate::fec;
#[cfg(library)]
use crate::livomashen::raw;
use crate::plainly::{self, plain, words};

type Store = unsafe extern "C" fn(*const u8, usize, *mut u8, usize) -> u32;
type Put = unsafe extern "C" fn(*mut u8, usize, usize, *const u8, usize) -> u32;
type Read = unsafe extern "C" fn(*const u8, usize, *const u8, usize, *mut u8, usize) -> u32;
type Get =
    unsafe extern "C" fn(*const u8, usize, usize, *const u8, usize, *mut u8, usize, *mut u8) -> u32;
type Patrol = unsafe extern "C" fn(*mut u8, usize, usize, *const u8, usize, *mut u8) -> u32;
type Propose = unsafe extern "C" fn(*const u8, *const u8, usize) -> u32;
type WriteSlip = unsafe extern "C" fn(*mut u8, usize, usize, usize, u32) -> u32;
type ReadSlip = unsafe extern "C" fn(*const u8, usize, usize) -> u64;
type Report = unsafe extern "C" fn(*const u8, usize, *const u8, usize) -> u64;
type WriteRegister =
    unsafe extern "C" fn(*mut u8, u32, u8, *mut u8, usize, *mut u8, usize, *mut u8) -> u32;

/// The last 64 changed positions, at its end.
pub type Window = [u8; 64];

/// The corrector as registers: the command in byte 0, the block number in bytes 1
/// and 2, the answer in bytes 4 and 5, and the mark record from byte 8 on.
pub type Registers = [u8; 12];

/// Runs a get where it is written to byte 0.
const COMMAND_GET: u8 = 1;

/// What libfec has nothing of, and what is no other in words.
pub struct Beyond {
    propose: Propose,
    write_slip: WriteSlip,
    read_slip: ReadSlip,
}

pub struct Codec {
    pub name: &'static str,
    store: Store,
    put: Put,
    read: Read,
    get: Get,
    patrol: Patrol,
    report: Report,
    pub beyond: Option<Beyond>,
    pub write_register: Option<WriteRegister>,
}

impl Codec {
    pub fn store(&self, record: &[u8], out: &mut [u8]) -> u32 {
        unsafe { (self.store)(record.as_ptr(), record.len(), out.as_mut_ptr(), out.len()) }
    }

    pub fn put(&self, bank: &mut [u8], k: usize, record: &[u8]) -> u32 {
        let (b, r) = (bank.as_mut_ptr(), record.as_ptr());
        unsafe { (self.put)(b, bank.len(), k, r, record.len()) }
    }

    pub fn read(&self, block: &[u8], marks: &[u8], out: &mut [u8]) -> u32 {
        let (b, m, o) = (block.as_ptr(), marks.as_ptr(), out.as_mut_ptr());
        unsafe { (self.read)(b, block.len(), m, marks.len(), o, out.len()) }
    }

    pub fn get(
        &self,
        bank: &[u8],
        k: usize,
        marks: &[u8],
        out: &mut [u8],
        window: &mut Window,
    ) -> u32 {
        let (b, m, o) = (bank.as_ptr(), marks.as_ptr(), out.as_mut_ptr());
        let w = window.as_mut_ptr();
        unsafe { (self.get)(b, bank.len(), k, m, marks.len(), o, out.len(), w) }
    }

    pub fn patrol(&self, bank: &mut [u8], k: usize, marks: &[u8], window: &mut Window) -> u32 {
        let (b, m, w) = (bank.as_mut_ptr(), marks.as_ptr(), window.as_mut_ptr());
        unsafe { (self.patrol)(b, bank.len(), k, m, marks.len(), w) }
    }

    pub fn report(&self, bank: &[u8], marks: &[u8]) -> u64 {
        unsafe { (self.report)(bank.as_ptr(), bank.len(), marks.as_ptr(), marks.len()) }
    }

    /// A get by command; gives 0, or why the write is refused.
    pub fn command_get(
        &self,
        registers: &mut Registers,
        bank: &mut [u8],
        out: &mut [u8],
        window: &mut Window,
    ) -> u32 {
        let write = self.write_register.expect("a codec with registers");
        let (b, o, w) = (bank.as_mut_ptr(), out.as_mut_ptr(), window.as_mut_ptr());
        let r = registers.as_mut_ptr();
        unsafe { write(r, 0, COMMAND_GET, b, bank.len(), o, out.len(), w) }
    }

    fn beyond(&self) -> &Beyond {
        self.beyond
            .as_ref()
            .expect("a codec with proposals and slips")
    }

    pub fn propose(&self, window: &Window, marks: &[u8]) -> u32 {
        unsafe { (self.beyond().propose)(window.as_ptr(), marks.as_ptr(), marks.len()) }
    }

    pub fn write_slip(&self, slips: &mut [u8], at: usize, k: usize, reading: u32) -> u32 {
        unsafe { (self.beyond().write_slip)(slips.as_mut_ptr(), slips.len(), at, k, reading) }
    }

    pub fn read_slip(&self, slips: &[u8], at: usize) -> u64 {
        unsafe { (self.beyond().read_slip)(slips.as_ptr(), slips.len(), at) }
    }
}

pub fn codecs() -> Vec<Codec> {
    vec![
        #[cfg(library)]
        Codec {
            name: "livomashen",
            store: raw::livomashen_store,
            put: raw::livomashen_put,
            read: raw::livomashen_read,
            get: raw::livomashen_get,
            patrol: raw::livomashen_patrol,
            report: raw::livomashen_report,
            beyond: Some(Beyond {
                propose: raw::livomashen_propose,
                write_slip: raw::livomashen_write_slip,
                read_slip: raw::livomashen_read_slip,
            }),
            write_register: Some(raw::livomashen_write_register),
        },
        Codec {
            name: "plain",
            store: plain::store,
            put: plain::put,
            read: plain::read,
            get: plain::get,
            patrol: plain::patrol,
            report: plain::report,
            beyond: Some(Beyond {
                propose: plainly::plain_propose,
                write_slip: plainly::plain_write_slip,
                read_slip: plainly::plain_read_slip,
            }),
            write_register: None,
        },
        Codec {
            name: "words",
            store: words::store,
            put: words::put,
            read: words::read,
            get: words::get,
            patrol: words::patrol,
            report: words::report,
            beyond: None,
            write_register: None,
        },
        #[cfg(libfec)]
        Codec {
            name: "fec",
            store: fec::fec_store,
            put: fec::fec_put,
            read: fec::fec_read,
            get: fec::fec_get,
            patrol: fec::fec_patrol,
            report: fec::fec_report,
            beyond: None,
            write_register: None,
        },
    ]
}
