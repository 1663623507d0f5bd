//! Recorded runs by chance: well formed ones, as a life on one medium would have
//! recorded them, and damaged ones.

use super::{cut_mask, flip_bits, Life, Random};
use crate::history::History;
use crate::player::{Action, Outcome};
use crate::reader::{self, BLOCK_BYTES, GROUP_ENTRIES, PAGE_BYTES};
use crate::trace::{bytes_of, place_of, Call, CUT_BLOCKS, LAST_CUT, MOST_BYTES};
use crate::writer::{self, Touched};

/// The calls of a trace in form, of some length; most run to their end.
pub fn some_calls(random: &mut Random) -> Vec<Call> {
    let most = random.one_of(&[600, 2000, 5000, 15000, MOST_BYTES]);
    some_calls_within(random, most)
}

/// The calls of a trace in form that takes at most so many bytes, at least 600.
pub fn some_calls_within(random: &mut Random, most: usize) -> Vec<Call> {
    let blocks = if random.one_in(2) { 4 } else { random.from_to(4, 16) };
    let mut record = Record { calls: Vec::new(), left: most - 8, over: false };
    let mut life = Life::blank(random, blocks);
    life.act(&Action::Format);
    record.note(vec![Call::Format { blocks: blocks as u64 }]);
    loop {
        let next = if record.over { anything(random) } else { next_calls(random, &mut life) };
        let went_on = record.note(next.clone());
        if !went_on || record.over && random.one_in(3) {
            return record.calls;
        }
        record.over = record.over || next.iter().any(|call| ends(&mut life, call));
    }
}

/// What is recorded so far.
struct Record {
    calls: Vec<Call>,
    /// Bytes that the trace may still take.
    left: usize,
    /// Whether a refused recovery or 27 has ended the run.
    over: bool,
}

impl Record {
    /// Notes these calls, all or none of them: whether there was room.
    fn note(&mut self, calls: Vec<Call>) -> bool {
        let length: usize = calls.iter().map(Call::length).sum();
        let room = length <= self.left;
        if room {
            self.left -= length;
            self.calls.extend(calls);
        }
        room
    }
}

/// What stands behind the end of a run; nobody plays it.
fn anything(random: &mut Random) -> Vec<Call> {
    match random.below(5) {
        0 => vec![Call::Append { keys: vec![5], words: vec![random.word()] }],
        1 => vec![Call::Cut { place: 3, pattern: vec![0; PAGE_BYTES] }, Call::Recover],
        2 => vec![Call::Recover],
        3 => vec![Call::Collect { block: random.bits() }],
        _ => vec![Call::Step],
    }
}

/// The life goes on by a call: whether the run ends with it.
fn ends(life: &mut Life, call: &Call) -> bool {
    let action = match call {
        Call::Cut { place, .. } if step_due(life).map(place_of) != Some(*place) => return true,
        // The mask that leaves the same.
        Call::Cut { place, pattern } => {
            let flip = if *place < CUT_BLOCKS { 0 } else { 0xFF };
            Action::CutInside { mask: pattern.iter().map(|bits| bits ^ flip).collect() }
        }
        call => call.action(),
    };
    let outcome = life.act(&action);
    if action == Action::Recover && outcome == Outcome::Accepted && life.history.is_none() {
        // Formatting was cut and had left its page complete: the run goes on.
        life.history = Some(History::new());
    }
    matches!((outcome, action), (Outcome::Refused(_), Action::Recover))
}

/// What the step due would touch.
fn step_due(life: &Life) -> Option<Touched> {
    let (mut medium, mut buffer) = (life.medium.clone(), life.buffer);
    let step = writer::step(&mut medium, &mut life.state.clone()?, &mut buffer);
    step.ok().map(|step| step.touched)
}

// ---------------------------------------------------------------------------
// What comes next

/// The next call of a life, or two: a cut and its recovery. Readings are in no
/// trace, nor are lists of different lengths; a cut between steps is the recovery
/// that comes after it, and where a life would format once more it makes room.
fn next_calls(random: &mut Random, life: &mut Life) -> Vec<Call> {
    if random.one_in(60) {
        return odd_calls(random, life);
    }
    // Formatting is cut at its page more often than a life does it.
    if life.formatting() && random.one_in(20) && step_due(life) == Some(Touched::Page(0)) {
        let mask = if random.one_in(2) { vec![0; BLOCK_BYTES] } else { cut_mask(random) };
        return cut(random, life, &mask);
    }
    let call = match life.next_action(random) {
        Action::CutInside { mask } => return cut(random, life, &mask),
        Action::Append { keys, words } if keys.len() == words.len() => Call::Append { keys, words },
        Action::Buffer { keys, words } if keys.len() == words.len() => Call::Buffer { keys, words },
        Action::Commit => Call::Commit,
        Action::Collect { block } => Call::Collect { block: block as u64 },
        Action::Flush => Call::Flush,
        Action::Recover | Action::Cut => Call::Recover,
        Action::Format => make_room(random, life),
        Action::Step | Action::Read(_) | Action::Append { .. } | Action::Buffer { .. } => {
            Call::Step
        }
    };
    vec![call]
}

/// A step where one is due, else a commit or a collection of the block that the
/// picker names; then the life tries again.
fn make_room(random: &mut Random, life: &mut Life) -> Call {
    life.full = 0;
    let pick = |state| reader::pick(&life.medium, state).ok().flatten();
    match life.state.as_ref().and_then(pick) {
        _ if step_due(life).is_some() => Call::Step,
        Some(block) if !random.one_in(3) => Call::Collect { block: block as u64 },
        _ => Call::Commit,
    }
}

/// A cut of the step due and its recovery. Now and then it names another place,
/// and most often there is none where no step is due.
fn cut(random: &mut Random, life: &Life, mask: &[u8]) -> Vec<Call> {
    let due = step_due(life).map(place_of);
    if due.is_none() && !random.one_in(10) {
        return vec![Call::Step];
    }
    let place = due.filter(|_| !random.one_in(40)).unwrap_or_else(|| another(random, due));
    let width = if place < CUT_BLOCKS { PAGE_BYTES } else { BLOCK_BYTES };
    vec![Call::Cut { place, pattern: mask[..width].to_vec() }, Call::Recover]
}

/// A page or block of any number, near the one due or not.
fn another(random: &mut Random, due: Option<u64>) -> u64 {
    let near = due.unwrap_or(0);
    match random.below(6) {
        0 => near ^ 1,
        // The block of the page, or the first page of the block.
        1 if near < CUT_BLOCKS => CUT_BLOCKS + near / 16,
        1 => (near - CUT_BLOCKS) * 16,
        2 if near + 16 < CUT_BLOCKS => near + 16,
        3 => random.one_of(&[0, 255, 256, LAST_CUT]),
        _ => random.below(LAST_CUT as usize + 1) as u64,
    }
}

/// Calls that a life hardly makes: groups of too many entries or none, any
/// block, a recovery at any time, a cut at any place.
fn odd_calls(random: &mut Random, life: &Life) -> Vec<Call> {
    let length = match random.below(8) {
        0 => random.from_to(GROUP_ENTRIES, 700),
        1..=3 => GROUP_ENTRIES + 1,
        _ => 0,
    };
    let keys: Vec<u16> = (0..length).map(|_| random.bits() as u16).collect();
    let words: Vec<u64> = (0..length).map(|_| random.word()).collect();
    match random.below(12) {
        0..=2 => vec![Call::Append { keys, words }],
        3..=5 => vec![Call::Buffer { keys, words }],
        6 | 7 => vec![Call::Collect { block: random.bits() >> random.below(64) }],
        8 if life.history.is_some() => vec![Call::Recover],
        9 => {
            let mut mask = [0; BLOCK_BYTES];
            random.fill(&mut mask);
            cut(random, life, &mask)
        }
        _ => vec![Call::Flush],
    }
}

// ---------------------------------------------------------------------------
// Damage

/// The bytes of a trace, in form or not: one of the above whose calls or whose
/// bytes were changed.
pub fn damaged_trace(random: &mut Random) -> Vec<u8> {
    let most = random.one_of(&[600, 2000, 15000]);
    let mut calls = some_calls_within(random, most);
    if random.one_in(3) {
        damage_calls(random, &mut calls);
        return bytes_of(&calls);
    }
    let mut bytes = bytes_of(&calls);
    for _ in 0..random.one_of(&[1, 1, 1, 2]) {
        damage_bytes(random, calls.len(), &mut bytes);
    }
    bytes
}

/// One call is left out, put in, or changes its place; or a pattern or a group
/// is of another length.
fn damage_calls(random: &mut Random, calls: &mut Vec<Call>) {
    let (one, other) = (random.below(calls.len()), random.below(calls.len()));
    match random.below(6) {
        0 => drop(calls.remove(one)),
        1 => calls.swap(one, other),
        2 => calls.insert(one, calls[other].clone()),
        3 => calls.insert(one, Call::Recover),
        4 => calls.truncate(one),
        _ => match &mut calls[one] {
            Call::Append { keys, .. } | Call::Buffer { keys, .. } => drop(keys.pop()),
            Call::Cut { pattern, .. } => pattern.resize(random.one_of(&[255, 256, 4096]), 0xFF),
            Call::Format { blocks } => *blocks = random.one_of(&[0, 3, 4, 16, 17, u64::MAX]),
            _ => drop(calls.remove(one)),
        },
    }
}

/// Bits, a code, a number, the count, or the length.
fn damage_bytes(random: &mut Random, calls: usize, bytes: &mut Vec<u8>) {
    let (first, call) = (bytes.len().min(8), random.below(calls.max(1)));
    match random.below(16) {
        0..=3 if !bytes.is_empty() => flip_bits(random, bytes, 1),
        4..=6 => put_number(bytes, first + 8 * call, some_code(random)),
        7..=9 => put_number(bytes, first + 8 * (calls + call), some_number(random)),
        10 => {
            let near = [calls + 1, calls.saturating_sub(1), calls * 2, 0];
            let far = [u64::MAX, 1 << 63, 1 << 61, 1 << 60, (1 << 60) + calls as u64];
            let count =
                if random.one_in(2) { random.one_of(&near) as u64 } else { random.one_of(&far) };
            put_number(bytes, 0, count);
        }
        11 => bytes.truncate(bytes.len().saturating_sub(random.one_of(&[1, 2, 8, 10, 16, 256]))),
        12 => bytes.truncate(random.below(bytes.len() + 1)),
        13 => bytes.truncate(random.below(9)),
        14 => bytes.resize(bytes.len() + random.from_to(1, 20), random.one_of(&[0, 0xFF])),
        _ => bytes.resize(random.one_of(&[MOST_BYTES, MOST_BYTES + 1, 2 * MOST_BYTES]), 0),
    }
}

/// A code, mostly one that there is.
fn some_code(random: &mut Random) -> u64 {
    match random.below(8) {
        0 => random.one_of(&[0, 10, 256 + 5, 1 << 32, u64::MAX]),
        _ => random.from_to(1, 9) as u64,
    }
}

/// A number at the ends of what some call may have, or any.
fn some_number(random: &mut Random) -> u64 {
    let ends = [0, 1, 3, 4, 16, 17, 96, 97, 255, 256, 271, 272, 1 << 32, 1 << 63, u64::MAX];
    if random.one_in(4) {
        random.below(300) as u64
    } else {
        random.one_of(&ends)
    }
}

/// Puts a number in the place of the eight bytes from here on, if they are there.
fn put_number(bytes: &mut [u8], first: usize, number: u64) {
    if let Some(place) = bytes.get_mut(first..first + 8) {
        place.copy_from_slice(&number.to_le_bytes());
    }
}
