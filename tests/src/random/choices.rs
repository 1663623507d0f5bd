//! What happens next in a life: mostly what a user of the journal would do, now
//! and then any call with any arguments.

use super::{cut_mask, some_records, Life, Random};
use crate::grown::FEW_BLOCKS;
use crate::player::{Action, Reading};
use crate::reader::{self, Entry, BUFFER_ENTRIES, GROUP_ENTRIES, REMOVAL};
use crate::writer::{Pending, State};

/// What makes one life differ from another.
#[derive(Clone, Copy, Debug)]
pub(super) struct Habits {
    /// Valves used are below this.
    valves: usize,
    /// Of so many steps one is cut.
    cut_one_in: usize,
    /// Of so many entries one is a removal.
    removal_one_in: usize,
    /// Of so many operations one is a group put into an empty buffer.
    gather_one_in: usize,
}

impl Habits {
    pub(super) fn new(random: &mut Random) -> Habits {
        Habits {
            valves: random.one_of(&[3, 40, 191, 200, 260, 32768]),
            cut_one_in: random.one_of(&[2, 6, 20, 60, 400]),
            removal_one_in: random.one_of(&[2, 5, 30]),
            gather_one_in: random.one_of(&[2, 5, 20, 100]),
        }
    }
}

impl Life {
    /// How many refusals with 13 or 14 are borne before formatting: more where
    /// this takes longer.
    fn patience(&self) -> usize {
        if self.weak.len() > FEW_BLOCKS {
            50
        } else {
            4
        }
    }

    /// How much seldomer formatting is disturbed, where it takes many steps.
    fn undisturbed(&self) -> usize {
        if self.weak.len() > FEW_BLOCKS {
            20
        } else {
            1
        }
    }

    /// What happens next. Where the state is lost that is formatting or
    /// recovery; else mostly what a user of the journal would do.
    pub fn next_action(&self, random: &mut Random) -> Action {
        let Some(state) = &self.state else {
            return self.after_a_cut(random);
        };
        let formatting = self.formatting();
        if (self.history.is_none() && !formatting)
            || self.full > self.patience()
            || random.one_in(2000)
        {
            return Action::Format;
        }
        if random.one_in(12) {
            return self.any_call(random, state);
        }
        if state.pending.is_some() {
            return self.go_on(random, state, formatting);
        }
        self.begin(random, state)
    }

    /// A recovery, or formatting where that was cut; now and then a cut again.
    fn after_a_cut(&self, random: &mut Random) -> Action {
        if random.one_in(8) {
            Action::Cut
        } else if self.history.is_some() {
            Action::Recover
        } else {
            Action::Format
        }
    }

    /// A step, or a cut: in most lives rare, but often in an erase that comes
    /// before a first page and in a flush.
    fn go_on(&self, random: &mut Random, state: &State, formatting: bool) -> Action {
        let flush = state.pending == Some(Pending::Flush);
        let erase_due = reader::erase_due(&self.medium, state).is_some();
        let times = match self.habits.cut_one_in {
            _ if formatting => 200 * self.undisturbed(),
            times if erase_due || flush => times.min(4),
            times => times,
        };
        if !random.one_in(times) {
            return Action::Step;
        }
        if random.one_in(4) {
            return Action::Cut;
        }
        Action::CutInside { mask: cut_mask(random) }
    }

    /// An operation that would be begun with nothing pending.
    fn begin(&self, random: &mut Random, state: &State) -> Action {
        if !self.buffer_is_empty() && !random.one_in(8) {
            return if random.one_in(3) { Action::Flush } else { self.some_small_group(random) };
        }
        if random.one_in(self.habits.gather_one_in) && !random.one_in(4) {
            return self.some_small_group(random);
        }
        match random.below(16) {
            0 | 1 => Action::Commit,
            2..=5 => self.picked(random, state),
            6 => self.wanted(random, state),
            _ => self.some_append(random, 1, GROUP_ENTRIES),
        }
    }

    /// An append of the group that leads to some settings, if it has an entry.
    fn wanted(&self, random: &mut Random, state: &State) -> Action {
        let records = some_records(random, &self.medium, state);
        match reader::wanted(&self.medium, state, &records) {
            Ok(Some(group)) if !group.is_empty() => {
                let (keys, words) = group.iter().map(|entry| (entry.key, entry.word)).unzip();
                Action::Append { keys, words }
            }
            _ => self.some_append(random, 1, GROUP_ENTRIES),
        }
    }

    /// A collection of the block that the picker names, or of any.
    fn picked(&self, random: &mut Random, state: &State) -> Action {
        let picked = reader::pick(&self.medium, state).unwrap_or(None);
        let block = picked.unwrap_or_else(|| random.below(state.blocks + 2));
        Action::Collect { block }
    }

    /// Any call with any arguments, fitting or not. During formatting a
    /// recovery would end the formatting, so it is rare.
    fn any_call(&self, random: &mut Random, state: &State) -> Action {
        match random.below(17) {
            0 => self.some_append(random, 0, GROUP_ENTRIES + 2),
            1 => self.spoilt_append(random),
            2 => Action::Commit,
            3 => Action::Collect { block: random.below(state.blocks + 2) },
            4 => Action::Collect { block: random.one_of(&[state.blocks, 256, usize::MAX]) },
            5 => Action::Step,
            6 if self.history.is_some() || random.one_in(5 * self.undisturbed()) => Action::Recover,
            7 if self.history.is_some() || random.one_in(5 * self.undisturbed()) => Action::Cut,
            8 => buffered(self.some_append(random, 0, GROUP_ENTRIES + 2)),
            9 => buffered(self.spoilt_append(random)),
            10 => Action::Flush,
            _ => Action::Read(self.some_reading(random, state)),
        }
    }

    fn some_reading(&self, random: &mut Random, state: &State) -> Reading {
        match random.below(11) {
            0 => Reading::Pick,
            1 => Reading::Survey,
            2 => {
                let mut length = || random.below(300);
                Reading::Log { keys: length(), words: length(), groups: length() }
            }
            3 => {
                let places = reader::most_changes(&self.medium);
                Reading::Log { keys: places, words: places, groups: places }
            }
            4 => Reading::Available,
            5 => Reading::Open { valve: random.bits() as u16 },
            6 => Reading::Word { valve: random.bits() as u16 },
            7 => Reading::Word { valve: random.below(self.habits.valves) as u16 },
            8 | 9 => Reading::Wanted { records: some_records(random, &self.medium, state) },
            _ => Reading::Open { valve: random.below(self.habits.valves) as u16 },
        }
    }

    /// An append of `least` to `most` entries, mostly few.
    fn some_append(&self, random: &mut Random, least: usize, most: usize) -> Action {
        let ends = [least, 1, 23, 24, 25, 48, 49, 72, 73, 96, most];
        let length = match random.below(4) {
            0 => random.one_of(&ends),
            1 => random.from_to(least, most),
            _ => random.from_to(1, 30),
        };
        let (keys, words) = self.some_entries(random, length);
        Action::Append { keys, words }
    }

    /// A group for the buffer, mostly one that has its place there.
    fn some_small_group(&self, random: &mut Random) -> Action {
        let length = match random.below(8) {
            0 => random.from_to(1, BUFFER_ENTRIES + 2),
            1 => random.from_to(1, 8),
            _ => random.from_to(1, 3),
        };
        let (keys, words) = self.some_entries(random, length);
        Action::Buffer { keys, words }
    }

    fn some_entries(&self, random: &mut Random, length: usize) -> (Vec<u16>, Vec<u64>) {
        let Habits { valves, removal_one_in, .. } = self.habits;
        let entries = (0..length).map(|_| some_entry(random, valves, removal_one_in));
        entries.map(|entry| (entry.key, entry.word)).unzip()
    }

    /// An append with lists that differ, a removal with a word, or an entry that
    /// sets valve 0.
    fn spoilt_append(&self, random: &mut Random) -> Action {
        let mut action = self.some_append(random, 1, GROUP_ENTRIES);
        if let Action::Append { keys, words } = &mut action {
            let at = random.below(words.len());
            match random.below(4) {
                0 | 1 => words.truncate(at),
                2 => keys[at] = 0,
                _ => {
                    keys[at] |= REMOVAL;
                    words[at] = random.word();
                }
            }
        }
        action
    }
}

/// An entry of a valve below `valves`; one in so many is a removal. Valve 0 is
/// set very seldom.
pub fn some_entry(random: &mut Random, valves: usize, removal_one_in: usize) -> Entry {
    let valve = random.below(valves) as u16;
    if random.one_in(removal_one_in) {
        Entry { key: valve + REMOVAL, word: 0 }
    } else {
        let least = u16::from(!random.one_in(2000));
        Entry { key: valve.max(least), word: random.word() }
    }
}

/// The same group, put into the buffer.
fn buffered(action: Action) -> Action {
    match action {
        Action::Append { keys, words } => Action::Buffer { keys, words },
        other => other,
    }
}
