//! The calls of either implementation under one name, for tests and times that
//! are made of both.

use crate::proved::{self, VjState};
use crate::reader::{self, Entry, Record, Refused, State, WordAt, MAX_BLOCKS, PAGE_BYTES};
use crate::writer::{self, Pending, Step};
use crate::{tight_by_value, tight_writer};
use std::fmt::Debug;

/// An empty buffer.
pub const EMPTY: [u8; PAGE_BYTES] = [0xFF; PAGE_BYTES];

/// No operation takes more steps: formatting has one for each block and one for
/// its page.
const MOST_STEPS: usize = MAX_BLOCKS + 1;

/// The proved library.
pub struct Proved;

/// The second implementation.
pub struct Second;

/// The yardstick for times, on the proved library's state, which it changes where
/// it stands.
pub struct Tight;

/// The same behind the proved library's interface, which takes the state by value
/// and hands it back.
pub struct TightByValue;

/// The calls of one implementation. Each has the name, the arguments and the
/// answer that it has there.
#[rustfmt::skip]
pub trait Calls {
    type State: Clone + PartialEq + Debug;
    /// A state of the second implementation as this one has it.
    fn of(state: &State) -> Self::State;
    /// The state in the second implementation's terms.
    fn meaning(state: &Self::State) -> State;
    /// Whether formatting is pending.
    fn is_formatting(state: &Self::State) -> bool;

    fn recover(m: &[u8]) -> Result<Self::State, Refused>;
    fn log_into(m: &[u8], k: &mut [u16], w: &mut [u64], g: &mut [u32]) -> Result<usize, Refused>;
    fn open(m: &[u8], state: &Self::State, valve: u16) -> Result<u64, Refused>;
    fn settings_into(m: &[u8], state: &Self::State, v: &mut [u16], w: &mut [u64]) -> Result<usize, Refused>;
    fn word_at(m: &[u8], state: &Self::State, b: &[u8], valve: u16) -> Result<WordAt, Refused>;
    fn wanted(m: &[u8], state: &Self::State, records: &[Record]) -> Result<Option<Vec<Entry>>, Refused>;
    fn pick(m: &[u8], state: &Self::State) -> Result<Option<usize>, Refused>;
    fn survey(m: &[u8], state: &Self::State) -> Result<[[u32; 3]; MAX_BLOCKS], Refused>;
    fn count_available(m: &[u8], state: &Self::State) -> Result<usize, Refused>;

    fn format(m: &[u8]) -> Result<Self::State, Refused>;
    fn append(m: &[u8], state: &mut Self::State, b: &[u8], k: &[u16], w: &[u64]) -> Result<(), Refused>;
    fn commit(m: &[u8], state: &mut Self::State, b: &[u8]) -> Result<(), Refused>;
    fn collect(m: &[u8], state: &mut Self::State, b: &[u8], block: usize) -> Result<(), Refused>;
    fn buffer(m: &[u8], state: &Self::State, b: &mut [u8], k: &[u16], w: &[u64]) -> Result<(), Refused>;
    fn flush(m: &[u8], state: &mut Self::State, b: &[u8]) -> Result<(), Refused>;
    fn step(m: &mut [u8], state: &mut Self::State, b: &mut [u8]) -> Result<Step, Refused>;

    /// Steps until the pending operation is finished; what each step told.
    fn finish(m: &mut [u8], state: &mut Self::State, b: &mut [u8]) -> Vec<Step> {
        let mut steps = Vec::new();
        while steps.last().is_none_or(|step: &Step| !step.finished) {
            assert!(steps.len() < MOST_STEPS, "no operation takes more steps");
            steps.push(Self::step(m, state, b).expect("a step"));
        }
        steps
    }

    /// The same with an empty buffer, which stays so.
    fn finish_unbuffered(m: &mut [u8], state: &mut Self::State) -> Vec<Step> {
        let mut buffer = EMPTY;
        let steps = Self::finish(m, state, &mut buffer);
        assert_eq!(buffer, EMPTY);
        steps
    }
}

/// Takes the calls that read and those that write from these modules.
macro_rules! calls {
    ($name:ident, $state:ty, $of:expr, $meaning:expr, $formatting:expr, $reader:ident, $writer:ident) => {
        #[rustfmt::skip]
        impl Calls for $name {
            type State = $state;
            fn of(state: &State) -> $state { $of(state) }
            fn meaning(state: &$state) -> State { $meaning(state) }
            fn is_formatting(state: &$state) -> bool { $formatting(state) }
            fn recover(m: &[u8]) -> Result<$state, Refused> { $reader::recover(m) }
            fn log_into(m: &[u8], k: &mut [u16], w: &mut [u64], g: &mut [u32]) -> Result<usize, Refused> {
                $reader::log_into(m, k, w, g)
            }
            fn open(m: &[u8], state: &$state, valve: u16) -> Result<u64, Refused> { $reader::open(m, state, valve) }
            fn settings_into(m: &[u8], state: &$state, v: &mut [u16], w: &mut [u64]) -> Result<usize, Refused> {
                $reader::settings_into(m, state, v, w)
            }
            fn word_at(m: &[u8], state: &$state, b: &[u8], valve: u16) -> Result<WordAt, Refused> {
                $reader::word_at(m, state, b, valve)
            }
            fn wanted(m: &[u8], state: &$state, records: &[Record]) -> Result<Option<Vec<Entry>>, Refused> {
                $reader::wanted(m, state, records)
            }
            fn pick(m: &[u8], state: &$state) -> Result<Option<usize>, Refused> { $reader::pick(m, state) }
            fn survey(m: &[u8], state: &$state) -> Result<[[u32; 3]; MAX_BLOCKS], Refused> { $reader::survey(m, state) }
            fn count_available(m: &[u8], state: &$state) -> Result<usize, Refused> { $reader::count_available(m, state) }
            fn format(m: &[u8]) -> Result<$state, Refused> { $writer::format(m) }
            fn append(m: &[u8], state: &mut $state, b: &[u8], k: &[u16], w: &[u64]) -> Result<(), Refused> {
                $writer::append(m, state, b, k, w)
            }
            fn commit(m: &[u8], state: &mut $state, b: &[u8]) -> Result<(), Refused> { $writer::commit(m, state, b) }
            fn collect(m: &[u8], state: &mut $state, b: &[u8], block: usize) -> Result<(), Refused> {
                $writer::collect(m, state, b, block)
            }
            fn buffer(m: &[u8], state: &$state, b: &mut [u8], k: &[u16], w: &[u64]) -> Result<(), Refused> {
                $writer::buffer(m, state, b, k, w)
            }
            fn flush(m: &[u8], state: &mut $state, b: &[u8]) -> Result<(), Refused> { $writer::flush(m, state, b) }
            fn step(m: &mut [u8], state: &mut $state, b: &mut [u8]) -> Result<Step, Refused> { $writer::step(m, state, b) }
        }
    };
}

calls!(Proved, VjState, VjState::from, meaning, formats, proved, proved);
calls!(Tight, VjState, VjState::from, meaning, formats, tight_writer, tight_writer);
calls!(TightByValue, VjState, VjState::from, meaning, formats, tight_by_value, tight_by_value);
calls!(Second, State, State::clone, State::clone, second_formats, reader, writer);

/// What a state of the proved library means.
fn meaning(state: &VjState) -> State {
    state.meaning().expect("a state that means something")
}

fn formats(state: &VjState) -> bool {
    state.operation == proved::FORMAT
}

fn second_formats(state: &State) -> bool {
    matches!(state.pending, Some(Pending::Format { .. }))
}

// ---------------------------------------------------------------------------
// The log read-out

/// The log read-out of one implementation.
pub type LogInto = fn(&[u8], &mut [u16], &mut [u64], &mut [u32]) -> Result<usize, Refused>;

/// What the log read-out answers, and the lists lent to it after that.
pub type ReadOut = (Result<usize, Refused>, LogLists);

/// Three lists to lend to the log read-out.
#[derive(Clone, PartialEq, Eq, Debug)]
pub struct LogLists {
    pub keys: Vec<u16>,
    pub words: Vec<u64>,
    pub groups: Vec<u32>,
}

impl LogLists {
    /// Lists of these lengths, filled with what hardly stands in a log.
    pub fn new([keys, words, groups]: [usize; 3]) -> LogLists {
        LogLists {
            keys: vec![0xA5A5; keys],
            words: vec![0xA5A5_A5A5_A5A5_A5A5; words],
            groups: vec![0xA5A5_A5A5; groups],
        }
    }
}

/// The log of a medium read into lists of these lengths.
pub fn read_out(log_into: LogInto, medium: &[u8], lengths: [usize; 3]) -> ReadOut {
    let mut lists = LogLists::new(lengths);
    let answer = log_into(medium, &mut lists.keys, &mut lists.words, &mut lists.groups);
    (answer, lists)
}

// ---------------------------------------------------------------------------
// Tests of both

/// Makes each of these tests of either implementation.
#[macro_export]
macro_rules! both {
    ($($name:ident,)*) => {
        mod second {
            $(#[test] fn $name() { super::$name::<$crate::calls::Second>() })*
        }
        mod proved {
            $(#[test] fn $name() { super::$name::<$crate::calls::Proved>() })*
        }
    };
}
