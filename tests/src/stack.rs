//! How much stack a call takes: it is made on a thread whose stack was painted,
//! and the deepest byte that lost its paint is sought. The library's calls are
//! made as a C program makes them, in `tests/c/calls.c`; with null pointers, in
//! `tests/c/nulls.c`.

use crate::valve_journal::{Record, State, BUFFER_BYTES};
use std::ffi::{c_char, c_int, c_void, CStr};
use std::hint::black_box;
use std::ptr::{null, null_mut};
use std::slice;

// ---------------------------------------------------------------------------
// The painted stack

/// Bytes of the painted stack.
const STACK_BYTES: usize = 4 << 20;
/// A stack begins at a multiple of this.
const ALIGN: usize = 4096;
/// The paint.
const PAINT: u8 = 0xA5;
/// Below what was touched so many bytes must have kept their paint: a run of
/// untouched bytes could lie within a frame.
const LEFT: usize = 65536;

/// The thread attributes of the C library, at least as large as it has them.
#[repr(C, align(16))]
struct Attributes([u8; 256]);

extern "C" {
    fn pthread_attr_init(attributes: *mut Attributes) -> c_int;
    fn pthread_attr_setstack(a: *mut Attributes, lowest: *mut c_void, bytes: usize) -> c_int;
    fn pthread_attr_destroy(attributes: *mut Attributes) -> c_int;
    fn pthread_create(
        thread: *mut usize,
        attributes: *const Attributes,
        run: extern "C" fn(*mut c_void) -> *mut c_void,
        argument: *mut c_void,
    ) -> c_int;
    fn pthread_join(thread: usize, answer: *mut *mut c_void) -> c_int;
}

/// What the thread is given and leaves: the call, and where its stack begins.
struct Job<'a> {
    call: &'a mut (dyn FnMut() + Send),
    begins_at: usize,
}

/// The bytes of stack that a call takes, from the caller's frame down to the
/// deepest byte written: what the caller puts there for its arguments and its
/// answer is counted. The call must not panic.
pub fn taken(call: &mut (dyn FnMut() + Send)) -> usize {
    let mut memory = vec![PAINT; STACK_BYTES + ALIGN];
    let skipped = memory.as_ptr().align_offset(ALIGN);
    let stack = &mut memory[skipped..skipped + STACK_BYTES];
    let mut job = Job { call, begins_at: 0 };
    // The thread has the stack and the job to itself, and ends here.
    unsafe { run_on(stack, &mut job) };
    let untouched = stack.iter().take_while(|&&byte| byte == PAINT).count();
    assert!(untouched >= LEFT, "more than {} bytes of stack", STACK_BYTES - LEFT);
    job.begins_at - (stack.as_ptr() as usize + untouched)
}

/// Runs a job on a thread with this stack, to its end.
unsafe fn run_on(stack: &mut [u8], job: &mut Job) {
    let (mut attributes, mut thread) = (Attributes([0; 256]), 0);
    let (lowest, job): (*mut c_void, *mut Job) = (stack.as_mut_ptr().cast(), job);
    assert_eq!(pthread_attr_init(&mut attributes), 0);
    assert_eq!(pthread_attr_setstack(&mut attributes, lowest, stack.len()), 0);
    assert_eq!(pthread_create(&mut thread, &attributes, run, job.cast()), 0);
    assert_eq!(pthread_join(thread, null_mut()), 0);
    assert_eq!(pthread_attr_destroy(&mut attributes), 0);
}

/// The thread: notes where its frame is and makes the call.
extern "C" fn run(job: *mut c_void) -> *mut c_void {
    let mark = 0u8;
    // It is the job of the caller, who waits.
    let job = unsafe { &mut *job.cast::<Job>() };
    job.begins_at = black_box(&raw const mark) as usize;
    (job.call)();
    null::<c_void>().cast_mut()
}

// ---------------------------------------------------------------------------
// The library's calls from C

/// All that can be lent to a call, each list of its own; the three lists of a
/// log are of one length, and keys and words are a group or the settings too.
pub struct Lent<'a> {
    pub medium: &'a mut [u8],
    pub state: &'a State,
    pub buffer: &'a mut [u8; BUFFER_BYTES],
    pub keys: &'a mut [u16],
    pub words: &'a mut [u64],
    pub groups: &'a mut [u32],
    pub records: &'a [Record],
    /// The page, the valve, the block, or the end of a span of the log.
    pub number: usize,
}

/// The same as C has it.
#[repr(C)]
struct RawLent {
    medium: *mut u8,
    length: usize,
    state: *const State,
    buffer: *mut u8,
    keys: *mut u16,
    words: *mut u64,
    groups: *mut u32,
    count: usize,
    records: *const Record,
    records_count: usize,
    number: usize,
}

// The thread that lends it waits for the one that is lent it.
unsafe impl Sync for RawLent {}

/// A call with the most stack that the header says it takes.
#[repr(C)]
pub struct Call {
    name: *const c_char,
    most: usize,
    make: unsafe extern "C" fn(*const RawLent),
}

// It is made once and only read.
unsafe impl Sync for Call {}

extern "C" {
    static test_calls: Call;
    static test_calls_count: usize;
    fn test_nulls(medium: *mut u8, length: usize, state: *const State, buffer: *mut u8) -> u32;
}

/// Every call of the header.
pub fn calls() -> &'static [Call] {
    // Both are constants of one C file.
    unsafe { slice::from_raw_parts(&raw const test_calls, test_calls_count) }
}

/// Makes every call with null pointers where a length is 0, from C: the answer
/// that is not as expected, counted from 1, or 0. The medium was just formatted.
pub fn with_nulls(medium: &mut [u8], state: &State, buffer: &mut [u8; BUFFER_BYTES]) -> u32 {
    // The buffer is as long as C takes it to be.
    unsafe { test_nulls(medium.as_mut_ptr(), medium.len(), state, buffer.as_mut_ptr()) }
}

impl Call {
    pub fn name(&self) -> &'static str {
        // It is a string literal.
        unsafe { CStr::from_ptr(self.name) }.to_str().expect("a name")
    }

    /// The most stack that the header says it takes.
    pub fn most(&self) -> usize {
        self.most
    }

    /// The stack that it takes with this lent to it.
    pub fn taken(&self, lent: &mut Lent) -> usize {
        assert!(lent.keys.len() == lent.words.len() && lent.keys.len() == lent.groups.len());
        let raw = RawLent {
            medium: lent.medium.as_mut_ptr(),
            length: lent.medium.len(),
            state: lent.state,
            buffer: lent.buffer.as_mut_ptr(),
            keys: lent.keys.as_mut_ptr(),
            words: lent.words.as_mut_ptr(),
            groups: lent.groups.as_mut_ptr(),
            count: lent.keys.len(),
            records: lent.records.as_ptr(),
            records_count: lent.records.len(),
            number: lent.number,
        };
        // Each pointer with its length is that of one slice, lent to it alone.
        taken(&mut || unsafe { (self.make)(&raw const raw) })
    }
}
