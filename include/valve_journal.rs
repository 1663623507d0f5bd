//! The valve journal for Rust programs, behind safe calls: what `valve_journal.h` declares, call by call. That file says what each call does and
//! refuses, and what each field means. One file without dependencies, to be included as a module:
//!
//! ```text
//! #[path = "../include/valve_journal.rs"]
//! mod valve_journal;
//! ```
//!
//! Link with `target/staticlib/libjournal_c.a`, which `tools/build journal_archive` writes for x86-64: `rustc -L target/staticlib`.
//!
//! Names: a call `vj_x` is `x` here, a constant `VJ_X` is `X`, a struct `VjX` that a caller keeps or fills in is `X`. A lent list is a slice. A
//! refusal is the `Err` of a `Result`. A call that takes a state and hands one back puts it in the place of the one given; on a refusal it is the
//! same. What a step touched is carried to the chip before the next call; where that fails, the medium is read from the chip again and recovered,
//! as after a power cut.

use std::fmt;
use std::mem::size_of;

/// The versions of the interface and of the layout.
pub const INTERFACE_VERSION: u32 = 3;
pub const LAYOUT_VERSION: u32 = 2;

// Sizes and limits, as the header explains them.
pub const PAGE_BYTES: usize = 256;
pub const BLOCK_PAGES: usize = 16;
pub const BLOCK_BYTES: usize = 4096;
pub const BUFFER_BYTES: usize = 256;
pub const PAGE_ENTRIES: usize = 24;
pub const BLOCK_ENTRIES: usize = 384;
pub const BUFFER_ENTRIES: usize = 16;
pub const RESERVE_PAGES: usize = 16;
pub const LEAST_BLOCKS: usize = 4;
pub const MOST_BLOCKS: usize = 256;
pub const MOST_VALVES: usize = 192;
pub const MOST_ENTRIES: usize = 96;
pub const MOST_RECORDS: usize = 192;
pub const LAST_VALVE: u16 = 32767;
pub const REMOVAL: u16 = 32768;

/// An empty write buffer: as it is lent after formatting, after a cut and after a recovery.
pub const EMPTY_BUFFER: [u8; BUFFER_BYTES] = [0xFF; BUFFER_BYTES];

/// Makes the refusals of a list of number, name and text.
macro_rules! refusals {
    ($($number:literal $name:ident $text:literal,)*) => {
        /// Why a call refused. `refusal as u8` is the number.
        #[derive(Clone, Copy, PartialEq, Eq, PartialOrd, Ord, Hash, Debug)]
        #[repr(u8)]
        pub enum Refusal {
            $(#[doc = $text] $name = $number,)*
        }

        impl Refusal {
            /// Every refusal, by rising number.
            pub const ALL: &'static [Refusal] = &[$(Refusal::$name,)*];

            /// The text of the refusal, as `vj_refusal_text` has it.
            pub fn text(self) -> &'static str {
                match self {
                    $(Refusal::$name => $text,)*
                }
            }

            /// The refusal of a number that a call answered.
            fn of(number: u8) -> Refusal {
                match number {
                    $($number => Refusal::$name,)*
                    other => unreachable!("no call answers {other}"),
                }
            }
        }
    };
}

refusals! {
    1 Length "the medium's length is not 4 to 256 times 4096 bytes",
    2 PageRules "a whole page breaks the page rules",
    3 SameSerial "two whole pages share a serial",
    4 NoBase "no complete base",
    5 Sequence "from the base on, a gap in the serials or a page out of its group",
    6 Index "the base's valves do not rise, over 192 valves are set, or an address of the index lacks its entry",
    7 State "the state does not fit the medium, or the buffer is not well formed or, while a flush is pending, holds nothing that can be flushed",
    8 Pending "an operation is pending",
    9 NonePending "no operation is pending",
    10 Lists "the lists of a group differ in length, or have no entry, or over 96; or a flush of an empty buffer",
    11 Entry "a removal's word is not 0, or valve 0 is set",
    12 Valves "more than 192 valves would be set, those of the buffer counted",
    13 Pages "too few pages are available",
    14 Serials "too few serials are left: the next serial and the pages make more than 2^64 - 1",
    15 Block "the block is not collectible, or there is no such block",
    16 PageDue "the page due is not there, or is not clean",
    17 ShortList "a lent list is too short",
    18 NotSet "the valve is not set",
    19 Record "the wanted valves do not rise strictly, or one is above 32767",
    20 Records "there are more than 192 wanted records",
    21 Span "the ends of the span are out of order or past the log",
    22 Touched "more than 192 valves are touched in the span",
    23 BufferFull "a group has more entries than the buffer has places left",
    24 BufferHolds "the buffer holds a group where an append, a commit or a collection is begun",
    25 ShortGroups "the lent list is too short for all groups that mattered",
    28 Earlier "the medium shows an earlier moment than the mark filed last: it has faded or was formatted, or is another one",
    29 Other "the mark filed last is not of this medium, or the medium was formatted since",
}

impl fmt::Display for Refusal {
    fn fmt(&self, f: &mut fmt::Formatter) -> fmt::Result {
        write!(f, "refused {}: {}", *self as u8, self.text())
    }
}

impl std::error::Error for Refusal {}

/// A list of at most `MOST_VALVES` numbers under keys. In the index: a valve and the address of its entry. In a group: a key and a word.
#[repr(C)]
#[derive(Clone, Copy, PartialEq, Eq, Debug)]
pub struct Cells {
    pub count: usize,
    pub keys: [u16; MOST_VALVES],
    pub vals: [u64; MOST_VALVES],
}

impl Cells {
    /// The keys in the list.
    pub fn keys(&self) -> &[u16] {
        &self.keys[..self.count.min(MOST_VALVES)]
    }

    /// The numbers under them.
    pub fn vals(&self) -> &[u64] {
        &self.vals[..self.count.min(MOST_VALVES)]
    }
}

/// Where the journal writes next.
#[repr(C)]
#[derive(Clone, Copy, PartialEq, Eq, Debug)]
pub struct Head {
    pub blocks: usize,
    pub block: usize,
    pub next: usize,
    pub serial: u64,
    pub base: u64,
}

/// The state. Two are equal where every field is, those that mean nothing too.
#[repr(C)]
#[derive(Clone, Copy, PartialEq, Eq, Debug)]
pub struct State {
    pub head: Head,
    pub index: Cells,
    pub group: Cells,
    pub pages: [u16; 4],
    pub operation: u8,
    pub progress: u64,
    pub erased: [u8; MOST_BLOCKS],
}

// The values of `State::operation`; any other names no operation.
pub const IDLE: u8 = 0;
pub const APPEND: u8 = 1;
pub const COMMIT: u8 = 2;
pub const COLLECT: u8 = 3;
pub const FORMAT: u8 = 4;
pub const FLUSH: u8 = 5;

/// A valve and its word.
#[repr(C)]
#[derive(Clone, Copy, PartialEq, Eq, Debug)]
pub struct Record {
    pub valve: u16,
    pub word: u64,
}

/// A place in the log.
#[repr(C)]
#[derive(Clone, Copy, PartialEq, Eq, Debug)]
pub struct Place {
    pub number: u8,
    pub entry: u8,
    pub page: u16,
    pub group: u32,
}

/// A change of the log: key and word as stored, and the number of its group.
#[derive(Clone, Copy, PartialEq, Eq, Debug)]
pub struct Change {
    pub key: u16,
    pub word: u64,
    pub group: u32,
}

/// The changes of a log, one after the other.
#[derive(Clone, Debug)]
pub struct Changes<'a> {
    medium: &'a [u8],
    place: Place,
}

impl Iterator for Changes<'_> {
    type Item = Change;

    fn next(&mut self) -> Option<Change> {
        let (found, after) = change(self.medium, self.place)?;
        self.place = after;
        Some(found)
    }
}

impl std::iter::FusedIterator for Changes<'_> {}

/// The eight bytes of a valve's word, little-endian, as a part of what holds them.
#[derive(Clone, Copy, PartialEq, Eq, Debug)]
pub enum Word<'a> {
    InBuffer(&'a [u8; 8]),
    InMedium(&'a [u8; 8]),
}

impl Word<'_> {
    /// The word itself.
    pub fn value(self) -> u64 {
        let (Word::InBuffer(bytes) | Word::InMedium(bytes)) = self;
        u64::from_le_bytes(*bytes)
    }
}

/// The pages of a block, counted by what they are.
#[derive(Clone, Copy, PartialEq, Eq, Debug, Default)]
pub struct Row {
    pub whole: u16,
    pub clean: u16,
    pub spoilt: u16,
}

/// What a step touched: the number of a page that it programmed, or of a block that it erased.
#[derive(Clone, Copy, PartialEq, Eq, Debug)]
pub enum Touched {
    Page(usize),
    Block(usize),
}

impl Touched {
    /// The bytes of the medium that it is.
    pub fn bytes(self) -> std::ops::Range<usize> {
        match self {
            Touched::Page(page) => page * PAGE_BYTES..(page + 1) * PAGE_BYTES,
            Touched::Block(block) => block * BLOCK_BYTES..(block + 1) * BLOCK_BYTES,
        }
    }
}

/// What a step did, and whether the operation is finished.
#[derive(Clone, Copy, PartialEq, Eq, Debug)]
pub struct Step {
    pub touched: Touched,
    pub finished: bool,
}

/// Recovers the state from the medium, whose bytes are the chip's: after a cut they are taken from it anew.
pub fn recover(medium: &[u8]) -> Result<State, Refusal> {
    let r = unsafe { vj_recover(medium.as_ptr(), medium.len()) };
    answer(r.number, r.state)
}

/// Reads the log into three lists, keys, words and numbers of groups; hands back how many changes it has.
pub fn log(medium: &[u8], keys: &mut [u16], words: &mut [u64], groups: &mut [u32]) -> Result<usize, Refusal> {
    let (m, k, w, g) = (medium.as_ptr(), keys.as_mut_ptr(), words.as_mut_ptr(), groups.as_mut_ptr());
    let (ml, kl, wl, gl) = (medium.len(), keys.len(), words.len(), groups.len());
    let r = unsafe { vj_log(m, ml, k, kl, w, wl, g, gl) };
    answer(r.number, r.count)
}

/// The log change by change, with no list: an iterator over the changes of a medium that recovery accepts. It keeps the medium and a place.
pub fn changes(medium: &[u8]) -> Result<Changes<'_>, Refusal> {
    let place = unsafe { vj_reader(medium.as_ptr(), medium.len()) };
    answer(place.number, Changes { medium, place })
}

/// A place in the log, for a caller that keeps the place and lends the medium anew each time; `changes` does both.
pub fn reader(medium: &[u8]) -> Result<Place, Refusal> {
    let place = unsafe { vj_reader(medium.as_ptr(), medium.len()) };
    answer(place.number, place)
}

/// The change at a place, and the place after it; none for no more. A place of any content is answered.
pub fn change(medium: &[u8], place: Place) -> Option<(Change, Place)> {
    let r = unsafe { vj_change(medium.as_ptr(), medium.len(), place) };
    (r.found == 1).then_some((Change { key: r.key, word: r.word, group: r.group }, r.next))
}

/// What an archive files beside log and settings: the base's first serial, the next serial and how many changes the log has. Zeros, the default, where
/// nothing was filed since the medium was formatted.
#[derive(Clone, Copy, PartialEq, Eq, Debug, Default)]
pub struct Mark {
    pub base: u64,
    pub serial: u64,
    pub count: usize,
}

/// What is new in a log to an archive: the first change that it has not filed, counted from 0, and the mark of this reading, to be filed with it.
#[derive(Clone, Copy, PartialEq, Eq, Debug)]
pub struct News {
    pub first: usize,
    pub mark: Mark,
}

/// From which change on the log is new to an archive that filed this mark last. A medium that shows an earlier moment, was formatted since, or is another
/// one, is refused where base, next serial and count tell it; the caller compares the medium's length, and the changes before `first` with those filed.
pub fn news(medium: &[u8], filed: Mark) -> Result<News, Refusal> {
    let r = unsafe { vj_news(medium.as_ptr(), medium.len(), filed.base, filed.serial, filed.count) };
    answer(r.number, News { first: r.first, mark: Mark { base: r.base, serial: r.serial, count: r.count } })
}

/// What the groups of the log from number `first` up to, not including, number `second` did: for each valve touched, ascending, its last word or its
/// removal, keys as stored.
pub fn effect(medium: &[u8], first: u32, second: u32) -> Result<Cells, Refusal> {
    let r = unsafe { vj_effect(medium.as_ptr(), medium.len(), first, second) };
    answer(r.number, r.cells)
}

/// Lists the numbers of the groups that mattered, fewest entries first and the earlier first on a tie; hands back how many they are.
pub fn mattered(medium: &[u8], groups: &mut [u32]) -> Result<usize, Refusal> {
    let r = unsafe { vj_mattered(medium.as_ptr(), medium.len(), groups.as_mut_ptr(), groups.len()) };
    answer(r.number, r.count)
}

/// Page `p` as a part of the medium; empty where the medium lacks one of its bytes.
pub fn page(medium: &[u8], p: usize) -> &[u8] {
    let part = unsafe { vj_page(medium.as_ptr(), medium.len(), p) };
    &medium[part.offset..part.offset + part.length]
}

/// The word of a valve on the medium.
pub fn opening(medium: &[u8], state: &State, valve: u16) -> Result<u64, Refusal> {
    let r = unsafe { vj_opening(medium.as_ptr(), medium.len(), *state, valve) };
    answer(r.number, r.word)
}

/// All valves that are set, ascending, with their words on the medium, into two lists; hands back how many there are.
pub fn settings(medium: &[u8], state: &State, valves: &mut [u16], words: &mut [u64]) -> Result<usize, Refusal> {
    let (m, v, w) = (medium.as_ptr(), valves.as_mut_ptr(), words.as_mut_ptr());
    let r = unsafe { vj_settings(m, medium.len(), *state, v, valves.len(), w, words.len()) };
    answer(r.number, r.count)
}

/// The block to collect, if there is one.
pub fn pick(medium: &[u8], state: &State) -> Result<Option<usize>, Refusal> {
    let r = unsafe { vj_pick(medium.as_ptr(), medium.len(), *state) };
    answer(r.number, (r.found == 1).then_some(r.block as usize))
}

/// The pages of each block; rows past the last block are 0.
pub fn survey(medium: &[u8], state: &State) -> Result<[Row; MOST_BLOCKS], Refusal> {
    let r = unsafe { vj_survey(medium.as_ptr(), medium.len(), *state) };
    let mut rows = [Row::default(); MOST_BLOCKS];
    for (row, counts) in rows.iter_mut().zip(r.counts.chunks_exact(3)) {
        *row = Row { whole: counts[0], clean: counts[1], spoilt: counts[2] };
    }
    answer(r.number, rows)
}

/// The pages that can still be written.
pub fn available(medium: &[u8], state: &State) -> Result<usize, Refusal> {
    let r = unsafe { vj_available(medium.as_ptr(), medium.len(), *state) };
    answer(r.number, r.pages as usize)
}

/// The word of a valve, in the buffer where an entry there names it, else on the medium.
pub fn word<'a>(medium: &'a [u8], state: &State, buffer: &'a [u8], valve: u16) -> Result<Word<'a>, Refusal> {
    let (m, b) = (medium.as_ptr(), buffer.as_ptr());
    let r = unsafe { vj_word(m, medium.len(), *state, b, buffer.len(), valve) };
    match (r.number, r.in_buffer, r.offset, r.length) {
        (0, 1, offset, 8) => Ok(Word::InBuffer(buffer[offset..].first_chunk().expect("eight bytes"))),
        (0, 0, offset, 8) => Ok(Word::InMedium(medium[offset..].first_chunk().expect("eight bytes"))),
        (number, 0, 0, 0) => Err(Refusal::of(number)),
        _ => unreachable!("eight bytes, or a refusal with an empty part"),
    }
}

/// The group that leads from the present settings to the wanted ones; none where more than 96 valves differ. Neither what is pending nor what the
/// buffer holds is counted: finish and flush first, ask then, and append before anything else changes a valve.
pub fn wanted(medium: &[u8], state: &State, records: &[Record]) -> Result<Option<Cells>, Refusal> {
    let r = unsafe { vj_wanted(medium.as_ptr(), medium.len(), *state, records.as_ptr(), records.len()) };
    answer(r.number, (r.found == 1).then_some(r.group))
}

/// The operation that `next` names: an append of the group offered, a commit, or the collection of a block.
#[derive(Clone, Copy, PartialEq, Eq, Debug)]
pub enum Operation {
    Append,
    Commit,
    Collect(usize),
}

/// Names the next operation of a box that keeps itself able to write, where the group of these keys and words is to be appended; `filed` is whether
/// every change in the log is filed. It begins nothing: make the call named and its steps, and ask again, until the append is named.
pub fn next(medium: &[u8], state: &State, buffer: &[u8], keys: &[u16], words: &[u64], filed: bool) -> Result<Operation, Refusal> {
    let (m, b, k, w) = (medium.as_ptr(), buffer.as_ptr(), keys.as_ptr(), words.as_ptr());
    let (ml, bl, kl, wl) = (medium.len(), buffer.len(), keys.len(), words.len());
    let r = unsafe { vj_next(m, ml, *state, b, bl, k, kl, w, wl, filed) };
    match (r.number, r.operation, r.block) {
        (0, APPEND, 0) => Ok(Operation::Append),
        (0, COMMIT, 0) => Ok(Operation::Commit),
        (0, COLLECT, block) => Ok(Operation::Collect(block)),
        (number, 0, 0) => Err(Refusal::of(number)),
        _ => unreachable!("an operation, or a refusal and nothing else"),
    }
}

/// Begins formatting. It takes no state, so it drops whatever was pending. A cut inside it promises nothing: formatting is begun again.
pub fn format(medium: &[u8]) -> Result<State, Refusal> {
    let r = unsafe { vj_format(medium.as_ptr(), medium.len()) };
    answer(r.number, r.state)
}

/// Begins an append of 1 to 96 entries.
pub fn append(medium: &[u8], state: &mut State, buffer: &[u8], keys: &[u16], words: &[u64]) -> Result<(), Refusal> {
    let (m, b, k, w) = (medium.as_ptr(), buffer.as_ptr(), keys.as_ptr(), words.as_ptr());
    let (ml, bl, kl, wl) = (medium.len(), buffer.len(), keys.len(), words.len());
    begun(unsafe { vj_append(m, ml, *state, b, bl, k, kl, w, wl) }, state)
}

/// Begins a commit. Finished, it empties the log, so it is begun only where nothing was appended or flushed since the reading that is
/// filed.
pub fn commit(medium: &[u8], state: &mut State, buffer: &[u8]) -> Result<(), Refusal> {
    let (m, b) = (medium.as_ptr(), buffer.as_ptr());
    begun(unsafe { vj_commit(m, medium.len(), *state, b, buffer.len()) }, state)
}

/// Begins the collection of a block.
pub fn collect(medium: &[u8], state: &mut State, buffer: &[u8], block: usize) -> Result<(), Refusal> {
    let (m, b) = (medium.as_ptr(), buffer.as_ptr());
    begun(unsafe { vj_collect(m, medium.len(), *state, b, buffer.len(), block as u64) }, state)
}

/// Begins a flush of the groups in the buffer.
pub fn flush(medium: &[u8], state: &mut State, buffer: &[u8]) -> Result<(), Refusal> {
    let (m, b) = (medium.as_ptr(), buffer.as_ptr());
    begun(unsafe { vj_flush(m, medium.len(), *state, b, buffer.len()) }, state)
}

/// Puts a group of 1 to 16 entries into the buffer.
pub fn buffer(medium: &[u8], state: &State, buffer: &mut [u8], keys: &[u16], words: &[u64]) -> Result<(), Refusal> {
    let (m, b, k, w) = (medium.as_ptr(), buffer.as_mut_ptr(), keys.as_ptr(), words.as_ptr());
    let (ml, bl, kl, wl) = (medium.len(), buffer.len(), keys.len(), words.len());
    answer(unsafe { vj_buffer(m, ml, *state, b, bl, k, kl, w, wl) }, ())
}

/// Makes one device step of the pending operation.
pub fn step(medium: &mut [u8], state: &mut State, buffer: &mut [u8]) -> Result<Step, Refusal> {
    let (m, b) = (medium.as_mut_ptr(), buffer.as_mut_ptr());
    let r = unsafe { vj_step(m, medium.len(), *state, b, buffer.len()) };
    *state = r.state;
    answer(r.number, ())?;
    let touched = match r.touched {
        1 => Touched::Page(r.at as usize),
        2 => Touched::Block(r.at as usize),
        other => unreachable!("a step touches a page or a block, not {other}"),
    };
    Ok(Step { touched, finished: r.finished == 1 })
}

/// The answer of a number and a value.
fn answer<T>(number: u8, value: T) -> Result<T, Refusal> {
    if number == 0 {
        Ok(value)
    } else {
        Err(Refusal::of(number))
    }
}

/// The answer of a call that begins an operation.
fn begun(r: VjBegun, state: &mut State) -> Result<(), Refusal> {
    *state = r.state;
    answer(r.number, ())
}

// The answers as the library hands them back.

#[repr(C)]
struct VjRecovered {
    number: u8,
    state: State,
}

#[repr(C)]
struct VjCount {
    number: u8,
    count: usize,
}

#[repr(C)]
struct VjChange {
    found: u8,
    key: u16,
    group: u32,
    word: u64,
    next: Place,
}

#[repr(C)]
struct VjNews {
    number: u8,
    first: usize,
    base: u64,
    serial: u64,
    count: usize,
}

#[repr(C)]
struct VjPart {
    offset: usize,
    length: usize,
}

#[repr(C)]
struct VjWord {
    number: u8,
    word: u64,
}

#[repr(C)]
struct VjWordPlace {
    number: u8,
    in_buffer: u8,
    offset: usize,
    length: usize,
}

#[repr(C)]
struct VjPick {
    number: u8,
    found: u8,
    block: u64,
}

#[repr(C)]
struct VjSurvey {
    number: u8,
    counts: [u16; 3 * MOST_BLOCKS],
}

#[repr(C)]
struct VjPages {
    number: u8,
    pages: u64,
}

#[repr(C)]
struct VjEffect {
    number: u8,
    cells: Cells,
}

#[repr(C)]
struct VjWanted {
    number: u8,
    found: u8,
    group: Cells,
}

#[repr(C)]
struct VjNext {
    number: u8,
    operation: u8,
    block: usize,
}

#[repr(C)]
struct VjBegun {
    number: u8,
    state: State,
}

#[repr(C)]
struct VjStepped {
    number: u8,
    touched: u8,
    finished: u8,
    at: u64,
    state: State,
}

// The sizes that the header asserts.
const _: () = assert!(size_of::<Cells>() == 1928 && size_of::<Head>() == 40 && size_of::<State>() == 4176 && size_of::<Record>() == 16);
const _: () = assert!(size_of::<VjRecovered>() == 4184 && size_of::<VjCount>() == 16 && size_of::<VjPart>() == 16 && size_of::<VjWord>() == 16);
const _: () = assert!(size_of::<VjWordPlace>() == 24 && size_of::<VjPick>() == 16 && size_of::<VjSurvey>() == 1538 && size_of::<VjPages>() == 16);
const _: () = assert!(size_of::<Place>() == 8 && size_of::<VjChange>() == 24 && size_of::<VjNews>() == 40);
const _: () = assert!(size_of::<VjWanted>() == 1936 && size_of::<VjEffect>() == 1936 && size_of::<VjNext>() == 16 && size_of::<VjBegun>() == 4184 && size_of::<VjStepped>() == 4192);

// The library's calls. A pointer and the length after it are those of one slice, and what a call writes to is lent to it alone; then each call is
// safe for every value of its arguments. The functions above keep to that.
#[rustfmt::skip]
#[link(name = "journal_c", kind = "static")]
extern "C" {
    fn vj_recover(m: *const u8, ml: usize) -> VjRecovered;
    fn vj_log(m: *const u8, ml: usize, keys: *mut u16, kl: usize, words: *mut u64, wl: usize, groups: *mut u32, gl: usize) -> VjCount;
    fn vj_reader(m: *const u8, ml: usize) -> Place;
    fn vj_change(m: *const u8, ml: usize, place: Place) -> VjChange;
    fn vj_news(m: *const u8, ml: usize, base: u64, serial: u64, count: usize) -> VjNews;
    fn vj_effect(m: *const u8, ml: usize, first: u32, second: u32) -> VjEffect;
    fn vj_mattered(m: *const u8, ml: usize, groups: *mut u32, gl: usize) -> VjCount;
    fn vj_page(m: *const u8, ml: usize, p: usize) -> VjPart;
    fn vj_opening(m: *const u8, ml: usize, state: State, valve: u16) -> VjWord;
    fn vj_settings(m: *const u8, ml: usize, state: State, valves: *mut u16, vl: usize, words: *mut u64, wl: usize) -> VjCount;
    fn vj_pick(m: *const u8, ml: usize, state: State) -> VjPick;
    fn vj_survey(m: *const u8, ml: usize, state: State) -> VjSurvey;
    fn vj_available(m: *const u8, ml: usize, state: State) -> VjPages;
    fn vj_word(m: *const u8, ml: usize, state: State, b: *const u8, bl: usize, valve: u16) -> VjWordPlace;
    fn vj_wanted(m: *const u8, ml: usize, state: State, records: *const Record, rl: usize) -> VjWanted;
    fn vj_next(m: *const u8, ml: usize, state: State, b: *const u8, bl: usize, keys: *const u16, kl: usize, words: *const u64, wl: usize, filed: bool) -> VjNext;
    fn vj_format(m: *const u8, ml: usize) -> VjBegun;
    fn vj_append(m: *const u8, ml: usize, state: State, b: *const u8, bl: usize, keys: *const u16, kl: usize, words: *const u64, wl: usize) -> VjBegun;
    fn vj_commit(m: *const u8, ml: usize, state: State, b: *const u8, bl: usize) -> VjBegun;
    fn vj_collect(m: *const u8, ml: usize, state: State, b: *const u8, bl: usize, block: u64) -> VjBegun;
    fn vj_flush(m: *const u8, ml: usize, state: State, b: *const u8, bl: usize) -> VjBegun;
    fn vj_buffer(m: *const u8, ml: usize, state: State, b: *mut u8, bl: usize, keys: *const u16, kl: usize, words: *const u64, wl: usize) -> u8;
    fn vj_step(m: *mut u8, ml: usize, state: State, b: *mut u8, bl: usize) -> VjStepped;
}
