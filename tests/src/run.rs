//! The whole operations of `include/valve_journal_run.h`, over a chip in memory
//! whose driver can be made to fail.

use crate::random::cut_step;
use crate::reader::{BLOCK_BYTES, PAGE_BYTES};
use crate::valve_journal::State;
use crate::writer::{put_page, Touched};
use std::ffi::{c_char, c_int, c_void, CStr};
use std::slice;

/// The answers beside the refusals' numbers.
pub const NOT_OPEN: u8 = 254;
pub const FAILED: u8 = 255;

/// A chip in memory, and what its driver does.
#[derive(Default)]
pub struct Chip {
    pub bytes: Vec<u8>,
    /// How many steps were made on it.
    pub steps: usize,
    /// After so many more steps the driver fails, and leaves what a cut with
    /// this mask leaves.
    pub fails: Option<(usize, Vec<u8>)>,
    /// The next reading fails.
    pub unreadable: bool,
    /// With the next page, the driver writes to the page after it in the copy.
    pub meddles: bool,
}

impl Chip {
    /// A step on the chip, which would leave `after`: 0 where it is made.
    fn step(&mut self, touched: Touched, after: Vec<u8>) -> c_int {
        match &mut self.fails {
            Some((0, mask)) => {
                cut_step(&mut self.bytes, &after, &touched, mask);
                self.fails = None;
                return 1;
            }
            Some((steps, _)) => *steps -= 1,
            None => {}
        }
        self.bytes = after;
        self.steps += 1;
        0
    }
}

// ---------------------------------------------------------------------------
// The driver. Each callback is handed the chip of the journal whose call runs.

unsafe extern "C" fn read(chip: *mut c_void, bytes: *mut u8, length: usize) -> c_int {
    let chip = &mut *chip.cast::<Chip>();
    if std::mem::take(&mut chip.unreadable) {
        return -1;
    }
    slice::from_raw_parts_mut(bytes, length).copy_from_slice(&chip.bytes);
    0
}

unsafe extern "C" fn program(chip: *mut c_void, page: usize, bytes: *const u8) -> c_int {
    let chip = &mut *chip.cast::<Chip>();
    let mut after = chip.bytes.clone();
    put_page(&mut after, page, slice::from_raw_parts(bytes, PAGE_BYTES));
    if std::mem::take(&mut chip.meddles) {
        bytes.cast_mut().add(PAGE_BYTES).write(0);
    }
    chip.step(Touched::Page(page), after)
}

unsafe extern "C" fn erase(chip: *mut c_void, block: usize) -> c_int {
    let chip = &mut *chip.cast::<Chip>();
    let mut after = chip.bytes.clone();
    after[block * BLOCK_BYTES..(block + 1) * BLOCK_BYTES].fill(0xFF);
    chip.step(Touched::Block(block), after)
}

// ---------------------------------------------------------------------------
// The journal

#[repr(C)]
struct Driver {
    read: unsafe extern "C" fn(*mut c_void, *mut u8, usize) -> c_int,
    program: unsafe extern "C" fn(*mut c_void, usize, *const u8) -> c_int,
    erase: unsafe extern "C" fn(*mut c_void, usize) -> c_int,
    user: *mut c_void,
}

/// `VjJournal`.
#[repr(C)]
struct VjJournal {
    medium: *mut u8,
    length: usize,
    chip_length: usize,
    state: State,
    buffer: [u8; PAGE_BYTES],
    driver: Driver,
}

#[rustfmt::skip]
extern "C" {
    static test_journal_bytes: usize;
    static test_run_stack_most: usize;
    fn test_refusal_text(number: u8) -> *const c_char;
    fn test_run_text(number: u8) -> *const c_char;
    fn test_run_is_open(journal: *const VjJournal) -> c_int;
    fn test_run_init(journal: *mut VjJournal, medium: *mut u8, length: usize, driver: *const Driver);
    fn test_run_open(journal: *mut VjJournal) -> u8;
    fn test_run_format(journal: *mut VjJournal) -> u8;
    fn test_run_append(journal: *mut VjJournal, keys: *const u16, words: *const u64, count: usize) -> u8;
    fn test_run_write(
        journal: *mut VjJournal,
        keys: *const u16,
        words: *const u64,
        count: usize,
        filed: bool,
    ) -> u8;
    fn test_run_commit(journal: *mut VjJournal) -> u8;
    fn test_run_collect(journal: *mut VjJournal, block: u64) -> u8;
    fn test_run_buffer(journal: *mut VjJournal, keys: *const u16, words: *const u64, count: usize) -> u8;
    fn test_run_flush(journal: *mut VjJournal) -> u8;
}

/// The most stack that the header says a call takes.
pub fn most_stack() -> usize {
    // It is a constant.
    unsafe { test_run_stack_most }
}

/// The text that `vj_refusal_text` has for a number.
pub fn refusal_text(number: u8) -> &'static str {
    // It is a string literal.
    unsafe { CStr::from_ptr(test_refusal_text(number)) }.to_str().expect("a text")
}

/// The text that `vj_run_text` has for a number.
pub fn run_text(number: u8) -> &'static str {
    // It is a string literal.
    unsafe { CStr::from_ptr(test_run_text(number)) }.to_str().expect("a text")
}

/// A journal with its chip and the chip's copy. While a call runs, all of them
/// are lent to it alone.
pub struct Journal {
    pub chip: Box<Chip>,
    copy: Vec<u8>,
    raw: Box<VjJournal>,
}

// What its pointers point to is its own.
unsafe impl Send for Journal {}

impl Journal {
    /// A journal that is not open, on a chip with these bytes; the copy is
    /// not read from the chip yet.
    pub fn new(bytes: &[u8]) -> Journal {
        // Both are constants.
        assert_eq!(unsafe { test_journal_bytes }, size_of::<VjJournal>());
        let mut chip = Box::new(Chip { bytes: bytes.to_vec(), ..Chip::default() });
        let mut copy = vec![0xA5; bytes.len()];
        let user = (&raw mut *chip).cast();
        let driver = Driver { read, program, erase, user };
        let mut raw = Box::<VjJournal>::new_uninit();
        // It fills in every field.
        let raw = unsafe {
            test_run_init(raw.as_mut_ptr(), copy.as_mut_ptr(), copy.len(), &raw const driver);
            raw.assume_init()
        };
        Journal { chip, copy, raw }
    }

    /// The journal as a call is lent it.
    fn lent(&mut self) -> *mut VjJournal {
        self.raw.medium = self.copy.as_mut_ptr();
        self.raw.driver.user = (&raw mut *self.chip).cast();
        &raw mut *self.raw
    }

    pub fn is_open(&self) -> bool {
        // It reads the journal alone.
        let open = unsafe { test_run_is_open(&raw const *self.raw) };
        assert!(open == 0 || open == 1);
        open == 1
    }

    /// The copy as callers read it: of the journal's length.
    pub fn medium(&self) -> &[u8] {
        &self.copy[..self.raw.length]
    }

    pub fn state(&self) -> &State {
        &self.raw.state
    }

    pub fn buffered(&self) -> &[u8; PAGE_BYTES] {
        &self.raw.buffer
    }

    // The calls. Each pointer and length are those of one slice.

    pub fn open(&mut self) -> u8 {
        unsafe { test_run_open(self.lent()) }
    }

    pub fn format(&mut self) -> u8 {
        unsafe { test_run_format(self.lent()) }
    }

    pub fn append(&mut self, keys: &[u16], words: &[u64]) -> u8 {
        assert_eq!(keys.len(), words.len());
        unsafe { test_run_append(self.lent(), keys.as_ptr(), words.as_ptr(), keys.len()) }
    }

    /// With the housekeeping that it takes; `filed`: the log has been filed.
    pub fn write(&mut self, keys: &[u16], words: &[u64], filed: bool) -> u8 {
        assert_eq!(keys.len(), words.len());
        unsafe { test_run_write(self.lent(), keys.as_ptr(), words.as_ptr(), keys.len(), filed) }
    }

    pub fn commit(&mut self) -> u8 {
        unsafe { test_run_commit(self.lent()) }
    }

    pub fn collect(&mut self, block: usize) -> u8 {
        unsafe { test_run_collect(self.lent(), block as u64) }
    }

    pub fn buffer(&mut self, keys: &[u16], words: &[u64]) -> u8 {
        assert_eq!(keys.len(), words.len());
        unsafe { test_run_buffer(self.lent(), keys.as_ptr(), words.as_ptr(), keys.len()) }
    }

    pub fn flush(&mut self) -> u8 {
        unsafe { test_run_flush(self.lent()) }
    }
}
