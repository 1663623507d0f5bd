//! The tight writer behind the library's own interface, so that what the interface
//! costs and what the code costs can be told apart: functions for C with the
//! arguments and answers of the library's, raw parts and the state by value in, a
//! struct by value out, each one line over the tight writer; and the safe calls over
//! them, as `include/valve_journal.rs` has them over the library's.
//!
//! The calls that the tight writer leaves to the second implementation are no
//! yardstick, and stand here as they stand there.

use crate::proved::{VjCells, VjHead, VjState, IDLE};
use crate::reader::{Refused, MAX_BLOCKS, MAX_VALVES};
use crate::tight_writer;
use crate::writer::{Step, Touched};
use std::mem::size_of;
use std::slice::{from_raw_parts, from_raw_parts_mut};

pub use crate::tight_writer::{settings_into, survey, wanted, word_at};

// ---------------------------------------------------------------------------
// The safe calls

/// Recovery.
pub fn recover(medium: &[u8]) -> Result<VjState, Refused> {
    let r = unsafe { tight_recover(medium.as_ptr(), medium.len()) };
    answer(r.number, r.state)
}

/// The log into three lent lists: keys, words and numbers of groups; its length
/// is handed back.
pub fn log_into(
    medium: &[u8],
    keys: &mut [u16],
    words: &mut [u64],
    groups: &mut [u32],
) -> Result<usize, Refused> {
    let (m, k) = (medium.as_ptr(), keys.as_mut_ptr());
    let (w, g) = (words.as_mut_ptr(), groups.as_mut_ptr());
    let (ml, kl, wl, gl) = (medium.len(), keys.len(), words.len(), groups.len());
    let r = unsafe { tight_log(m, ml, k, kl, w, wl, g, gl) };
    answer(r.number, r.count)
}

/// Opening of a valve: its word.
pub fn open(medium: &[u8], state: &VjState, valve: u16) -> Result<u64, Refused> {
    let r = unsafe { tight_opening(medium.as_ptr(), medium.len(), *state, valve) };
    answer(r.number, r.word)
}

/// The picker.
pub fn pick(medium: &[u8], state: &VjState) -> Result<Option<usize>, Refused> {
    let r = unsafe { tight_pick(medium.as_ptr(), medium.len(), *state) };
    answer(r.number, (r.found == 1).then_some(r.block as usize))
}

/// Available pages.
pub fn count_available(medium: &[u8], state: &VjState) -> Result<usize, Refused> {
    let r = unsafe { tight_available(medium.as_ptr(), medium.len(), *state) };
    answer(r.number, r.pages as usize)
}

/// Begins formatting.
pub fn format(medium: &[u8]) -> Result<VjState, Refused> {
    let r = unsafe { tight_format(medium.as_ptr(), medium.len()) };
    answer(r.number, r.state)
}

/// Begins an append.
pub fn append(
    medium: &[u8],
    state: &mut VjState,
    buffer: &[u8],
    keys: &[u16],
    words: &[u64],
) -> Result<(), Refused> {
    let (m, b, k, w) = (medium.as_ptr(), buffer.as_ptr(), keys.as_ptr(), words.as_ptr());
    let (ml, bl, kl, wl) = (medium.len(), buffer.len(), keys.len(), words.len());
    begun(unsafe { tight_append(m, ml, *state, b, bl, k, kl, w, wl) }, state)
}

/// Begins a commit.
pub fn commit(medium: &[u8], state: &mut VjState, buffer: &[u8]) -> Result<(), Refused> {
    let (m, b) = (medium.as_ptr(), buffer.as_ptr());
    begun(unsafe { tight_commit(m, medium.len(), *state, b, buffer.len()) }, state)
}

/// Begins a collection of a named block.
pub fn collect(
    medium: &[u8],
    state: &mut VjState,
    buffer: &[u8],
    block: usize,
) -> Result<(), Refused> {
    let (m, b) = (medium.as_ptr(), buffer.as_ptr());
    begun(unsafe { tight_collect(m, medium.len(), *state, b, buffer.len(), block as u64) }, state)
}

/// Begins a flush.
pub fn flush(medium: &[u8], state: &mut VjState, buffer: &[u8]) -> Result<(), Refused> {
    let (m, b) = (medium.as_ptr(), buffer.as_ptr());
    begun(unsafe { tight_flush(m, medium.len(), *state, b, buffer.len()) }, state)
}

/// Puts a group into the lent buffer.
pub fn buffer(
    medium: &[u8],
    state: &VjState,
    buffer: &mut [u8],
    keys: &[u16],
    words: &[u64],
) -> Result<(), Refused> {
    let (m, b, k, w) = (medium.as_ptr(), buffer.as_mut_ptr(), keys.as_ptr(), words.as_ptr());
    let (ml, bl, kl, wl) = (medium.len(), buffer.len(), keys.len(), words.len());
    answer(unsafe { tight_buffer(m, ml, *state, b, bl, k, kl, w, wl) }, ())
}

/// One device step of the pending operation.
pub fn step(medium: &mut [u8], state: &mut VjState, buffer: &mut [u8]) -> Result<Step, Refused> {
    let (m, b) = (medium.as_mut_ptr(), buffer.as_mut_ptr());
    let r = unsafe { tight_step(m, medium.len(), *state, b, buffer.len()) };
    *state = r.state;
    answer(r.number, ())?;
    let touched = match r.touched {
        1 => Touched::Page(r.at as usize),
        2 => Touched::Block(r.at as usize),
        other => unreachable!("a step touches a page or a block, not {other}"),
    };
    Ok(Step { touched, finished: r.finished == 1 })
}

/// The answer of a number and a value.
fn answer<T>(number: u8, value: T) -> Result<T, Refused> {
    if number == 0 {
        Ok(value)
    } else {
        Err(Refused(number))
    }
}

/// The answer of a call that begins an operation.
fn begun(r: Begun, state: &mut VjState) -> Result<(), Refused> {
    *state = r.state;
    answer(r.number, ())
}

// ---------------------------------------------------------------------------
// The answers, as the library hands them back

#[repr(C)]
struct Recovered {
    number: u8,
    state: VjState,
}

#[repr(C)]
struct Count {
    number: u8,
    count: usize,
}

#[repr(C)]
struct Word {
    number: u8,
    word: u64,
}

#[repr(C)]
struct Pick {
    number: u8,
    found: u8,
    block: u64,
}

#[repr(C)]
struct Pages {
    number: u8,
    pages: u64,
}

#[repr(C)]
struct Begun {
    number: u8,
    state: VjState,
}

#[repr(C)]
struct Stepped {
    number: u8,
    touched: u8,
    finished: u8,
    at: u64,
    state: VjState,
}

// The sizes that the header asserts.
const _: () = assert!(size_of::<VjState>() == 4176 && size_of::<Recovered>() == 4184);
const _: () = assert!(size_of::<Begun>() == 4184 && size_of::<Stepped>() == 4192);
const _: () = assert!(size_of::<Count>() == 16 && size_of::<Word>() == 16);
const _: () = assert!(size_of::<Pick>() == 16 && size_of::<Pages>() == 16);

/// The state handed back where there is none: all 0.
const NONE: VjState = VjState {
    head: VjHead { blocks: 0, block: 0, next: 0, serial: 0, base: 0 },
    index: VjCells { count: 0, keys: [0; MAX_VALVES], vals: [0; MAX_VALVES] },
    group: VjCells { count: 0, keys: [0; MAX_VALVES], vals: [0; MAX_VALVES] },
    pages: [0; 4],
    operation: IDLE,
    progress: 0,
    erased: [0; MAX_BLOCKS],
};

/// The number of an answer, 0 for no refusal, and its value, or this one.
fn parts<T>(answer: Result<T, Refused>, none: T) -> (u8, T) {
    match answer {
        Ok(value) => (0, value),
        Err(Refused(number)) => (number, none),
    }
}

// ---------------------------------------------------------------------------
// The functions for C. A pointer and the length after it are those of one slice,
// and what a function writes to is lent to it alone; the calls above keep to that.
// They have names for the linker, so that no call can be made without its copies.

#[no_mangle]
#[inline(never)]
unsafe extern "C" fn tight_recover(m: *const u8, ml: usize) -> Recovered {
    let (number, state) = parts(tight_writer::recover(from_raw_parts(m, ml)), NONE);
    Recovered { number, state }
}

#[no_mangle]
#[inline(never)]
#[rustfmt::skip]
#[allow(clippy::too_many_arguments)]
unsafe extern "C" fn tight_log(m: *const u8, ml: usize, keys: *mut u16, kl: usize, words: *mut u64, wl: usize, groups: *mut u32, gl: usize) -> Count {
    let (k, w, g) = (from_raw_parts_mut(keys, kl), from_raw_parts_mut(words, wl), from_raw_parts_mut(groups, gl));
    let (number, count) = parts(tight_writer::log_into(from_raw_parts(m, ml), k, w, g), 0);
    Count { number, count }
}

#[no_mangle]
#[inline(never)]
unsafe extern "C" fn tight_opening(m: *const u8, ml: usize, state: VjState, valve: u16) -> Word {
    let (number, word) = parts(tight_writer::open(from_raw_parts(m, ml), &state, valve), 0);
    Word { number, word }
}

#[no_mangle]
#[inline(never)]
unsafe extern "C" fn tight_pick(m: *const u8, ml: usize, state: VjState) -> Pick {
    let (number, picked) = parts(tight_writer::pick(from_raw_parts(m, ml), &state), None);
    Pick { number, found: picked.is_some().into(), block: picked.unwrap_or(0) as u64 }
}

#[no_mangle]
#[inline(never)]
unsafe extern "C" fn tight_available(m: *const u8, ml: usize, state: VjState) -> Pages {
    let (number, pages) = parts(tight_writer::count_available(from_raw_parts(m, ml), &state), 0);
    Pages { number, pages: pages as u64 }
}

#[no_mangle]
#[inline(never)]
unsafe extern "C" fn tight_format(m: *const u8, ml: usize) -> Begun {
    let (number, state) = parts(tight_writer::format(from_raw_parts(m, ml)), NONE);
    Begun { number, state }
}

#[no_mangle]
#[inline(never)]
#[rustfmt::skip]
#[allow(clippy::too_many_arguments)]
unsafe extern "C" fn tight_append(m: *const u8, ml: usize, mut state: VjState, b: *const u8, bl: usize, keys: *const u16, kl: usize, words: *const u64, wl: usize) -> Begun {
    let (m, b, k, w) = (from_raw_parts(m, ml), from_raw_parts(b, bl), from_raw_parts(keys, kl), from_raw_parts(words, wl));
    let (number, ()) = parts(tight_writer::append(m, &mut state, b, k, w), ());
    Begun { number, state }
}

#[no_mangle]
#[inline(never)]
#[rustfmt::skip]
unsafe extern "C" fn tight_commit(m: *const u8, ml: usize, mut state: VjState, b: *const u8, bl: usize) -> Begun {
    let (number, ()) = parts(tight_writer::commit(from_raw_parts(m, ml), &mut state, from_raw_parts(b, bl)), ());
    Begun { number, state }
}

#[no_mangle]
#[inline(never)]
#[rustfmt::skip]
unsafe extern "C" fn tight_collect(m: *const u8, ml: usize, mut state: VjState, b: *const u8, bl: usize, block: u64) -> Begun {
    let (m, b) = (from_raw_parts(m, ml), from_raw_parts(b, bl));
    let (number, ()) = parts(tight_writer::collect(m, &mut state, b, block as usize), ());
    Begun { number, state }
}

#[no_mangle]
#[inline(never)]
#[rustfmt::skip]
unsafe extern "C" fn tight_flush(m: *const u8, ml: usize, mut state: VjState, b: *const u8, bl: usize) -> Begun {
    let (number, ()) = parts(tight_writer::flush(from_raw_parts(m, ml), &mut state, from_raw_parts(b, bl)), ());
    Begun { number, state }
}

#[no_mangle]
#[inline(never)]
#[rustfmt::skip]
#[allow(clippy::too_many_arguments)]
unsafe extern "C" fn tight_buffer(m: *const u8, ml: usize, state: VjState, b: *mut u8, bl: usize, keys: *const u16, kl: usize, words: *const u64, wl: usize) -> u8 {
    let (m, b, k, w) = (from_raw_parts(m, ml), from_raw_parts_mut(b, bl), from_raw_parts(keys, kl), from_raw_parts(words, wl));
    parts(tight_writer::buffer(m, &state, b, k, w), ()).0
}

#[no_mangle]
#[inline(never)]
#[rustfmt::skip]
unsafe extern "C" fn tight_step(m: *mut u8, ml: usize, mut state: VjState, b: *mut u8, bl: usize) -> Stepped {
    let stepped = tight_writer::step(from_raw_parts_mut(m, ml), &mut state, from_raw_parts_mut(b, bl));
    let (number, step) = parts(stepped.map(Some), None);
    let (touched, at) = match step.map(|step| step.touched) {
        None => (0, 0),
        Some(Touched::Page(page)) => (1, page as u64),
        Some(Touched::Block(block)) => (2, block as u64),
    };
    Stepped { number, touched, finished: step.is_some_and(|step| step.finished).into(), at, state }
}
