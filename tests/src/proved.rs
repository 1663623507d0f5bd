//! The proved library in the second implementation's terms: the calls that
//! users of Rust make, in `include/valve_journal.rs`.
//!
//! A call that takes a state takes it as a [`VjState`], each field as the
//! library has it. A call that hands one back puts it in the place of the one
//! given, on a refusal too, so that a caller can see whether it is the same.

pub use crate::valve_journal::{
    page, Cells as VjCells, Head as VjHead, Place as VjPlace, State as VjState, APPEND, COLLECT,
    COMMIT, FLUSH, FORMAT, IDLE,
};

use crate::dispatcher::Operation;
use crate::reader::{
    self, Change, Entry, Pending, Place, Record, Refused, State, WordAt, MAX_BLOCKS,
};
use crate::valve_journal::{self, Refusal, Touched, Word};
use crate::writer;

// ---------------------------------------------------------------------------
// States: the library's and the second implementation's

impl VjCells {
    /// A list as the library has it; what is past 192 shows in the count alone.
    fn of(list: impl ExactSizeIterator<Item = (u16, u64)>) -> VjCells {
        let mut cells = VjCells { count: list.len(), keys: [0; 192], vals: [0; 192] };
        for (i, (key, val)) in list.take(192).enumerate() {
            (cells.keys[i], cells.vals[i]) = (key, val);
        }
        cells
    }

    /// The keys in the list with the numbers under them; none where the count
    /// is past 192.
    fn used(&self) -> Option<impl Iterator<Item = (u16, u64)> + '_> {
        let (keys, vals) = (self.keys.get(..self.count)?, self.vals.get(..self.count)?);
        Some(keys.iter().copied().zip(vals.iter().copied()))
    }
}

/// A state of the second implementation, as the library has it. Places that
/// mean nothing hold 0.
impl From<&State> for VjState {
    fn from(state: &State) -> VjState {
        let (mut group, mut pages) = (VjCells::of([].into_iter()), [0; 4]);
        let (operation, progress) = match &state.pending {
            None => (IDLE, 0),
            Some(Pending::Append { entries, written }) => {
                group = VjCells::of(entries.iter().map(|entry| (entry.key, entry.word)));
                for (page, &number) in pages.iter_mut().zip(written) {
                    *page = number as u16;
                }
                (APPEND, written.len() as u64)
            }
            Some(Pending::Commit { done }) => (COMMIT, *done),
            Some(Pending::Collect { block }) => (COLLECT, *block as u64),
            Some(Pending::Format { erased }) => (FORMAT, *erased as u64),
            Some(Pending::Flush) => (FLUSH, 0),
        };
        let head = VjHead {
            blocks: state.blocks,
            block: state.head,
            next: state.next_page,
            serial: state.next_serial,
            base: state.first_base_serial,
        };
        let index = VjCells::of(state.index.iter().map(|place| (place.valve, place.address)));
        let erased = state.erased.map(u8::from);
        VjState { head, index, group, pages, operation, progress, erased }
    }
}

impl VjState {
    /// The state in the second implementation's terms. There is none where the
    /// operation names none, a list that means something has a count past 192,
    /// or an append has written more than four pages; such a state is unfit.
    pub fn meaning(&self) -> Option<State> {
        let place = |(valve, address)| Place { valve, address };
        Some(State {
            blocks: self.head.blocks,
            head: self.head.block,
            next_page: self.head.next,
            next_serial: self.head.serial,
            first_base_serial: self.head.base,
            index: self.index.used()?.map(place).collect(),
            pending: self.pending()?,
            erased: self.erased.map(|number| number == 1),
        })
    }

    /// What is pending, if anything; none where that has no meaning.
    fn pending(&self) -> Option<Option<Pending>> {
        let progress = usize::try_from(self.progress).ok()?;
        match self.operation {
            IDLE => Some(None),
            FLUSH => Some(Some(Pending::Flush)),
            APPEND => {
                let entry = |(key, word)| Entry { key, word };
                let entries = self.group.used()?.map(entry).collect();
                let written = self.pages.get(..progress)?.iter().map(|&page| page.into());
                Some(Some(Pending::Append { entries, written: written.collect() }))
            }
            COMMIT => Some(Some(Pending::Commit { done: self.progress })),
            COLLECT => Some(Some(Pending::Collect { block: progress })),
            FORMAT => Some(Some(Pending::Format { erased: progress })),
            _ => None,
        }
    }
}

// ---------------------------------------------------------------------------
// The calls

impl From<Refusal> for Refused {
    fn from(refusal: Refusal) -> Refused {
        Refused(refusal as u8)
    }
}

/// Recovery.
pub fn recover(medium: &[u8]) -> Result<VjState, Refused> {
    Ok(valve_journal::recover(medium)?)
}

/// The log into three lent lists: keys, words and numbers of groups; its length
/// is handed back.
pub fn log_into(
    medium: &[u8],
    keys: &mut [u16],
    words: &mut [u64],
    groups: &mut [u32],
) -> Result<usize, Refused> {
    Ok(valve_journal::log(medium, keys, words, groups)?)
}

/// Makes a reader of the log: its place.
pub fn reader(medium: &[u8]) -> Result<VjPlace, Refused> {
    Ok(valve_journal::reader(medium)?)
}

/// The change at a place, and the place after it; none for no more.
pub fn change(medium: &[u8], place: VjPlace) -> Option<(Change, VjPlace)> {
    valve_journal::change(medium, place).map(|(change, next)| (change.into(), next))
}

impl From<valve_journal::Change> for Change {
    fn from(change: valve_journal::Change) -> Change {
        let entry = Entry { key: change.key, word: change.word };
        Change { group: change.group, entry }
    }
}

/// The log read change by change, and no change more than a log can have.
pub fn changes(medium: &[u8]) -> Result<Vec<Change>, Refused> {
    let most = reader::most_changes(medium);
    let changes = valve_journal::changes(medium)?.map(Change::from).take(most + 1);
    let changes = changes.collect::<Vec<_>>();
    assert!(changes.len() <= most, "it never ends");
    Ok(changes)
}

/// The log read change by change into three lists, with the refusals that its
/// read-out has.
pub fn one_by_one(
    medium: &[u8],
    keys: &mut [u16],
    words: &mut [u64],
    groups: &mut [u32],
) -> Result<usize, Refused> {
    let changes = changes(medium)?;
    if changes.len() > keys.len().min(words.len()).min(groups.len()) {
        return Err(Refused(17));
    }
    for (at, Change { group, entry }) in changes.iter().enumerate() {
        (keys[at], words[at], groups[at]) = (entry.key, entry.word, *group);
    }
    Ok(changes.len())
}

/// The effect of a span of groups. A number that 32 bits do not hold is past every
/// log, as is the greatest that they do.
pub fn effect(medium: &[u8], first: usize, second: usize) -> Result<Vec<Entry>, Refused> {
    let [first, second] = [first, second].map(|end| u32::try_from(end).unwrap_or(u32::MAX));
    let cells = valve_journal::effect(medium, first, second)?;
    let entry = |(key, word)| Entry { key, word };
    Ok(cells.used().expect("at most 192 cells").map(entry).collect())
}

/// The groups that mattered, into a lent list; their number is handed back.
pub fn mattered_into(medium: &[u8], groups: &mut [u32]) -> Result<usize, Refused> {
    Ok(valve_journal::mattered(medium, groups)?)
}

/// Opening of a valve: its word.
pub fn open(medium: &[u8], state: &VjState, valve: u16) -> Result<u64, Refused> {
    Ok(valve_journal::opening(medium, state, valve)?)
}

/// All valves set with their words into two lent lists; their number is handed
/// back.
pub fn settings_into(
    medium: &[u8],
    state: &VjState,
    valves: &mut [u16],
    words: &mut [u64],
) -> Result<usize, Refused> {
    Ok(valve_journal::settings(medium, state, valves, words)?)
}

/// The place of a valve's word.
pub fn word_at(
    medium: &[u8],
    state: &VjState,
    buffer: &[u8],
    valve: u16,
) -> Result<WordAt, Refused> {
    let offset = |part: &[u8], whole: &[u8]| part.as_ptr() as usize - whole.as_ptr() as usize;
    Ok(match valve_journal::word(medium, state, buffer, valve)? {
        Word::InBuffer(part) => WordAt::Buffer(offset(part, buffer)),
        Word::InMedium(part) => WordAt::Medium(offset(part, medium)),
    })
}

/// The group for wanted openings, if there is one.
pub fn wanted(
    medium: &[u8],
    state: &VjState,
    records: &[Record],
) -> Result<Option<Vec<Entry>>, Refused> {
    let group = valve_journal::wanted(medium, state, records)?;
    let entry = |(key, word)| Entry { key, word };
    Ok(group.map(|cells| cells.used().expect("a group").map(entry).collect()))
}

/// The picker.
pub fn pick(medium: &[u8], state: &VjState) -> Result<Option<usize>, Refused> {
    Ok(valve_journal::pick(medium, state)?)
}

/// The survey.
pub fn survey(medium: &[u8], state: &VjState) -> Result<[[u32; 3]; MAX_BLOCKS], Refused> {
    let rows = valve_journal::survey(medium, state)?;
    Ok(rows.map(|row| [row.whole, row.clean, row.spoilt].map(u32::from)))
}

/// Available pages.
pub fn count_available(medium: &[u8], state: &VjState) -> Result<usize, Refused> {
    Ok(valve_journal::available(medium, state)?)
}

/// The operation that comes next.
pub fn next_operation(
    medium: &[u8],
    state: &VjState,
    buffer: &[u8],
    (keys, words): (&[u16], &[u64]),
    log_is_read: bool,
) -> Result<Operation, Refused> {
    Ok(match valve_journal::next(medium, state, buffer, keys, words, log_is_read)? {
        valve_journal::Operation::Append => Operation::Append,
        valve_journal::Operation::Commit => Operation::Commit,
        valve_journal::Operation::Collect(block) => Operation::Collect(block),
    })
}

/// Begins formatting.
pub fn format(medium: &[u8]) -> Result<VjState, Refused> {
    Ok(valve_journal::format(medium)?)
}

/// Begins an append.
pub fn append(
    medium: &[u8],
    state: &mut VjState,
    buffer: &[u8],
    keys: &[u16],
    words: &[u64],
) -> Result<(), Refused> {
    Ok(valve_journal::append(medium, state, buffer, keys, words)?)
}

/// Begins a commit.
pub fn commit(medium: &[u8], state: &mut VjState, buffer: &[u8]) -> Result<(), Refused> {
    Ok(valve_journal::commit(medium, state, buffer)?)
}

/// Begins a collection of a named block.
pub fn collect(
    medium: &[u8],
    state: &mut VjState,
    buffer: &[u8],
    block: usize,
) -> Result<(), Refused> {
    Ok(valve_journal::collect(medium, state, buffer, block)?)
}

/// Puts a group into the lent buffer.
pub fn buffer(
    medium: &[u8],
    state: &VjState,
    buffer: &mut [u8],
    keys: &[u16],
    words: &[u64],
) -> Result<(), Refused> {
    Ok(valve_journal::buffer(medium, state, buffer, keys, words)?)
}

/// Begins a flush.
pub fn flush(medium: &[u8], state: &mut VjState, buffer: &[u8]) -> Result<(), Refused> {
    Ok(valve_journal::flush(medium, state, buffer)?)
}

/// One device step of the pending operation.
pub fn step(
    medium: &mut [u8],
    state: &mut VjState,
    buffer: &mut [u8],
) -> Result<writer::Step, Refused> {
    let step = valve_journal::step(medium, state, buffer)?;
    let touched = match step.touched {
        Touched::Page(page) => writer::Touched::Page(page),
        Touched::Block(block) => writer::Touched::Block(block),
    };
    Ok(writer::Step { touched, finished: step.finished })
}
