//! Recorded runs: the form of a trace, its calls played, what is printed for
//! them, and what the plain history of the same calls defines.

use crate::calls::{Calls, Second};
use crate::history::{Event, History};
use crate::player::{Action, Outcome, Player};
use crate::reader::{
    self, entries_of, Entry, Refused, BLOCK_BYTES, MAX_VALVES, MORNING_BYTES, PAGE_BYTES,
};
use crate::writer::{Step, Touched};
use std::fmt::Write;

/// A trace is at most so many bytes, as a medium of the program `morning`.
pub const MOST_BYTES: usize = MORNING_BYTES;

/// Blocks of a trace's medium.
pub const FEWEST_BLOCKS: u64 = 4;
pub const MOST_BLOCKS: u64 = 16;

/// A cut's number is a page below this, else this and the block.
pub const CUT_BLOCKS: u64 = 256;
/// The last number of a cut, whatever the blocks.
pub const LAST_CUT: u64 = 271;

/// One call of a trace. What numbers and lists may be is the form's.
#[derive(Clone, PartialEq, Eq, Debug)]
pub enum Call {
    Format {
        blocks: u64,
    },
    Append {
        keys: Vec<u16>,
        words: Vec<u64>,
    },
    Commit,
    Collect {
        block: u64,
    },
    Step,
    /// A page, or 256 + a block, and the pattern of what the cut leaves.
    Cut {
        place: u64,
        pattern: Vec<u8>,
    },
    Recover,
    /// A group is put into the buffer.
    Buffer {
        keys: Vec<u16>,
        words: Vec<u64>,
    },
    Flush,
}

impl Call {
    /// The code and the number that tell the call.
    pub fn code_and_number(&self) -> (u64, u64) {
        match self {
            Call::Format { blocks } => (1, *blocks),
            Call::Append { keys, .. } => (2, keys.len() as u64),
            Call::Commit => (3, 0),
            Call::Collect { block } => (4, *block),
            Call::Step => (5, 0),
            Call::Cut { place, .. } => (6, *place),
            Call::Recover => (7, 0),
            Call::Buffer { keys, .. } => (8, keys.len() as u64),
            Call::Flush => (9, 0),
        }
    }

    /// The bytes that come after the two lists: a group's keys, then its words,
    /// or a cut's pattern.
    pub fn bytes_behind(&self) -> Vec<u8> {
        match self {
            Call::Append { keys, words } | Call::Buffer { keys, words } => {
                let keys = keys.iter().flat_map(|key| key.to_le_bytes());
                keys.chain(words.iter().flat_map(|word| word.to_le_bytes())).collect()
            }
            Call::Cut { pattern, .. } => pattern.clone(),
            _ => Vec::new(),
        }
    }

    /// How many bytes of a trace the call takes.
    pub fn length(&self) -> usize {
        16 + self.bytes_behind().len()
    }
}

// ---------------------------------------------------------------------------
// The form

/// The bytes of a trace of these calls, whether or not they make one in form.
pub fn bytes_of(calls: &[Call]) -> Vec<u8> {
    let told = calls.iter().map(Call::code_and_number);
    let numbers = told.clone().map(|(code, _)| code).chain(told.map(|(_, number)| number));
    let mut bytes = (calls.len() as u64).to_le_bytes().to_vec();
    bytes.extend(numbers.flat_map(u64::to_le_bytes));
    bytes.extend(calls.iter().flat_map(Call::bytes_behind));
    bytes
}

/// The calls of a trace; 26 where it breaks the form.
pub fn read(bytes: &[u8]) -> Result<Vec<Call>, Refused> {
    calls_in(bytes).ok_or(Refused(26))
}

fn calls_in(bytes: &[u8]) -> Option<Vec<Call>> {
    if bytes.len() > MOST_BYTES {
        return None;
    }
    let mut rest = Rest(bytes);
    let count = rest.numbers(1)?[0];
    let codes = rest.numbers(count)?;
    let numbers = rest.numbers(count)?;
    let calls = codes.iter().zip(numbers).map(|(&code, number)| rest.call(code, number));
    let calls = calls.collect::<Option<Vec<Call>>>()?;
    (in_order(&codes) && rest.0.is_empty()).then_some(calls)
}

/// "The first code is 1, used only once; after 6 comes 7."
fn in_order(codes: &[u64]) -> bool {
    let formats = codes.iter().filter(|&&code| code == 1).count();
    let cuts = (0..codes.len()).filter(|&at| codes[at] == 6);
    codes.first() == Some(&1)
        && formats == 1
        && cuts.into_iter().all(|at| codes.get(at + 1) == Some(&7))
}

/// The bytes of a trace that are not read yet.
struct Rest<'a>(&'a [u8]);

impl<'a> Rest<'a> {
    /// The next so many pieces of a width, if there are so many.
    fn take(&mut self, count: u64, width: usize) -> Option<std::slice::ChunksExact<'a, u8>> {
        let length = usize::try_from(count).ok()?.checked_mul(width)?;
        let (taken, rest) = self.0.split_at_checked(length)?;
        self.0 = rest;
        Some(taken.chunks_exact(width))
    }

    /// The next so many 64-bit numbers.
    fn numbers(&mut self, count: u64) -> Option<Vec<u64>> {
        let number = |bytes: &[u8]| bytes.iter().rev().fold(0, |sum, &b| sum << 8 | u64::from(b));
        Some(self.take(count, 8)?.map(number).collect())
    }

    /// The next group: keys as 16-bit, then words as 64-bit numbers.
    fn group(&mut self, entries: u64) -> Option<(Vec<u16>, Vec<u64>)> {
        let key = |bytes: &[u8]| u16::from(bytes[0]) | u16::from(bytes[1]) << 8;
        let keys = self.take(entries, 2)?.map(key).collect();
        Some((keys, self.numbers(entries)?))
    }

    /// A call of this code and number, with what comes behind the lists for it.
    fn call(&mut self, code: u64, number: u64) -> Option<Call> {
        let zero = |call: Call| (number == 0).then_some(call);
        match code {
            1 if (FEWEST_BLOCKS..=MOST_BLOCKS).contains(&number) => {
                Some(Call::Format { blocks: number })
            }
            2 => self.group(number).map(|(keys, words)| Call::Append { keys, words }),
            3 => zero(Call::Commit),
            4 => Some(Call::Collect { block: number }),
            5 => zero(Call::Step),
            6 if number <= LAST_CUT => {
                let width = if number < CUT_BLOCKS { PAGE_BYTES } else { BLOCK_BYTES };
                let pattern = self.take(1, width)?.next()?.to_vec();
                Some(Call::Cut { place: number, pattern })
            }
            7 => zero(Call::Recover),
            8 => self.group(number).map(|(keys, words)| Call::Buffer { keys, words }),
            9 => zero(Call::Flush),
            _ => None,
        }
    }
}

// ---------------------------------------------------------------------------
// The calls played

/// The log length in changes, and the settings.
#[derive(Clone, PartialEq, Eq, Debug)]
pub struct Listing {
    pub changes: usize,
    pub settings: Vec<Entry>,
}

/// What came of a call.
#[derive(Clone, PartialEq, Eq, Debug)]
pub enum Came {
    Refused(u8),
    Accepted,
    Stepped(Step),
    /// A cut of the step due; whether it left a page being programmed complete,
    /// and what was found of the page or block.
    Cut {
        struck: Touched,
        complete: bool,
        found: Vec<u8>,
    },
    Recovered(Listing),
}

/// What came of each call of a trace in form that was played: all of them, but
/// for those behind 27 or a refused recovery.
pub fn play<C: Calls>(calls: &[Call]) -> Vec<Came> {
    let mut run = Run::<C> { medium: Vec::new(), buffer: [0xFF; PAGE_BYTES], state: None };
    let mut all = Vec::new();
    for call in calls {
        let came = run.call(call);
        let ends = matches!((call, &came), (Call::Cut { .. } | Call::Recover, Came::Refused(_)));
        all.push(came);
        if ends {
            break;
        }
    }
    all
}

impl Call {
    /// The call as lists of calls have it; the pattern of a cut aside.
    pub fn action(&self) -> Action {
        match self.clone() {
            Call::Format { .. } => Action::Format,
            Call::Append { keys, words } => Action::Append { keys, words },
            Call::Commit => Action::Commit,
            Call::Collect { block } => Action::Collect { block: block as usize },
            Call::Step => Action::Step,
            Call::Cut { .. } => Action::Cut,
            Call::Recover => Action::Recover,
            Call::Buffer { keys, words } => Action::Buffer { keys, words },
            Call::Flush => Action::Flush,
        }
    }
}

/// What a trace is played on; no state after a cut.
struct Run<C: Calls> {
    medium: Vec<u8>,
    buffer: [u8; PAGE_BYTES],
    state: Option<C::State>,
}

impl<C: Calls> Run<C> {
    fn call(&mut self, call: &Call) -> Came {
        match call {
            Call::Format { blocks } => self.medium = vec![0xFF; *blocks as usize * BLOCK_BYTES],
            Call::Cut { place, pattern } => return self.cut(*place, pattern),
            _ => {}
        }
        let (medium, buffer, state) = (&mut self.medium[..], &mut self.buffer, &mut self.state);
        let outcome = Player::<C> { medium, buffer, state }.play(&call.action());
        match outcome {
            Outcome::Refused(number) => Came::Refused(number),
            Outcome::Accepted if *call == Call::Recover => Came::Recovered(self.listing()),
            Outcome::Accepted => Came::Accepted,
            Outcome::Stepped(step) => Came::Stepped(step),
            Outcome::Cut { .. } => panic!("a cut between steps is in no trace"),
        }
    }

    /// What the state just recovered has.
    fn listing(&self) -> Listing {
        let (medium, state) = (&self.medium, self.state.as_ref().expect("a state"));
        let most = reader::most_changes(medium);
        let (mut keys, mut words, mut groups) = (vec![0; most], vec![0; most], vec![0; most]);
        let changes = C::log_into(medium, &mut keys, &mut words, &mut groups).expect("the log");
        let (mut valves, mut words) = ([0; MAX_VALVES], [0; MAX_VALVES]);
        let set = C::settings_into(medium, state, &mut valves, &mut words).expect("the settings");
        Listing { changes, settings: entries_of(&valves[..set], &words[..set]) }
    }

    /// A cut takes the place of the step due: 27 where none is, or the cut names
    /// another page or block.
    fn cut(&mut self, place: u64, pattern: &[u8]) -> Came {
        let (mut after, mut buffer) = (self.medium.clone(), self.buffer);
        let mut state = self.state.clone().expect("a state");
        let step = C::step(&mut after, &mut state, &mut buffer);
        let Some(struck) = step.ok().map(|step| step.touched).filter(|t| place_of(*t) == place)
        else {
            return Came::Refused(27);
        };
        let found = self.leave(struck, &after, pattern);
        let complete = matches!(struck, Touched::Page(_)) && self.medium == after;
        (self.state, self.buffer) = (None, [0xFF; PAGE_BYTES]);
        Came::Cut { struck, complete, found }
    }

    /// "Each 1 bit of its pattern keeps that bit at 1 in a cut program, or sets
    /// it to 1 in a cut erase": so the others are final, or as they were.
    fn leave(&mut self, struck: Touched, after: &[u8], pattern: &[u8]) -> Vec<u8> {
        let (first, others) = match struck {
            Touched::Page(page) => (page * PAGE_BYTES, after),
            Touched::Block(block) => (block * BLOCK_BYTES, &self.medium[..]),
        };
        let left = others[first..].iter().zip(pattern).map(|(byte, bits)| byte | bits);
        let left: Vec<u8> = left.collect();
        self.medium[first..first + left.len()].copy_from_slice(&left);
        left
    }
}

/// The number by which a cut names a page or a block.
pub fn place_of(touched: Touched) -> u64 {
    match touched {
        Touched::Page(page) => page as u64,
        Touched::Block(block) => CUT_BLOCKS + block as u64,
    }
}

// ---------------------------------------------------------------------------
// What is printed

/// What the program `rerun` prints for these bytes.
pub fn rerun(bytes: &[u8]) -> String {
    match read(bytes) {
        Ok(calls) => text(&play::<Second>(&calls)),
        Err(Refused(number)) => text(&[Came::Refused(number)]),
    }
}

/// The lines for what came of the calls: a listing after each recovery, and each
/// refusal.
pub fn text(all: &[Came]) -> String {
    let mut text = String::new();
    for came in all {
        // Writing to a string cannot fail.
        let _ = match came {
            Came::Refused(number) => writeln!(text, "refused {number}"),
            Came::Recovered(listing) => write!(text, "{}", listing.lines()),
            Came::Accepted | Came::Stepped(_) | Came::Cut { .. } => Ok(()),
        };
    }
    text
}

impl Listing {
    fn lines(&self) -> String {
        let mut text = format!("log {}\nset {}\n", self.changes, self.settings.len());
        for Entry { key, word } in &self.settings {
            let _ = writeln!(text, "{key} {word}");
        }
        text
    }
}

// ---------------------------------------------------------------------------
// The plain history

/// What the plain history of these calls, with what came of them, defines at
/// each recovery accepted: nothing before formatting has finished by its steps,
/// and nothing at all where a recovery was accepted before that.
pub fn defined(calls: &[Call], all: &[Came]) -> Vec<Option<Listing>> {
    let (mut history, mut begins, mut defined) = (None, true, Vec::new());
    for (call, came) in calls.iter().zip(all) {
        match (&mut history, came) {
            (None, Came::Stepped(step)) if begins && step.finished => {
                history = Some(History::new());
            }
            (None, Came::Recovered(_)) => begins = false,
            (None, _) => {}
            (Some(history), came) => history.feed(event(call, came)),
        }
        if let Came::Recovered(_) = came {
            defined.push(history.as_ref().map(listing_of));
        }
    }
    defined
}

/// What the history is fed for a call and what came of it.
fn event<'a>(call: &'a Call, came: &Came) -> Event<'a> {
    match (call, came) {
        (_, Came::Refused(_)) => Event::Refused,
        (_, Came::Stepped(Step { touched: Touched::Page(_), .. })) => Event::StepOnPage,
        (_, Came::Stepped(Step { touched: Touched::Block(_), .. })) => Event::StepOnBlock,
        (_, Came::Cut { complete, .. }) => Event::Cut { complete: *complete },
        (_, Came::Recovered(_)) => Event::Recovery,
        (Call::Append { keys, words }, _) => Event::Append { keys, words },
        (Call::Buffer { keys, words }, _) => Event::Buffer { keys, words },
        (Call::Commit, _) => Event::Commit,
        (Call::Collect { block }, _) => Event::Collect { block: *block as usize },
        (Call::Flush, _) => Event::Flush,
        (call, came) => panic!("{call:?} {came:?}"),
    }
}

fn listing_of(history: &History) -> Listing {
    Listing { changes: history.log().iter().map(Vec::len).sum(), settings: history.settings() }
}

/// The listings after the recoveries of a trace are those that the history
/// defines, wherever it defines one: how many it does.
pub fn assert_is_history(calls: &[Call], all: &[Came]) -> usize {
    let shown = all.iter().filter_map(|came| match came {
        Came::Recovered(listing) => Some(listing),
        _ => None,
    });
    let defined = defined(calls, all);
    for (listing, defined) in shown.zip(&defined) {
        assert!(defined.as_ref().is_none_or(|defined| defined == listing), "{defined:?}");
    }
    defined.iter().flatten().count()
}
