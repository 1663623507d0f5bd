//! A life: a list of calls and cuts on one medium, played by the second
//! implementation, with the plain history. What is chosen next stands in
//! `choices.rs`.

use super::choices::Habits;
use super::Random;
use crate::before;
use crate::calls::Second;
use crate::grown::{some_blocks, some_grown, FEW_BLOCKS};
use crate::history::{Event, History};
use crate::player::{Action, Outcome, Player};
use crate::reader::{self, Entry, BASE, BLOCK_BYTES, BLOCK_PAGES, MAX_VALVES, PAGE_BYTES};
use crate::writer::{lay_page, put_page, Pending, State, Step, Touched};

/// A medium, the state last handed back (none after a cut), the buffer as the
/// next call is lent it, and the plain history (none until formatting is
/// finished).
#[derive(Clone, Debug)]
pub struct Life {
    pub medium: Vec<u8>,
    pub buffer: [u8; PAGE_BYTES],
    /// Whether each block is weak: its last erase was cut, or is not known.
    pub weak: Vec<bool>,
    pub state: Option<State>,
    pub history: Option<History>,
    pub(super) habits: Habits,
    /// Refusals with 13 or 14 since something was last finished.
    pub(super) full: usize,
}

impl Life {
    /// A life on a medium of some block count.
    pub fn new(random: &mut Random) -> Life {
        let blocks = some_blocks(random);
        Life::on(random, blocks)
    }

    /// A life on any medium of so many blocks, not yet formatted; or, where
    /// these are many, mostly with a journal that was written for long.
    pub fn on(random: &mut Random, blocks: usize) -> Life {
        if blocks > FEW_BLOCKS && !random.one_in(4) {
            return some_grown(random, blocks);
        }
        Life::unformatted(random, blocks)
    }

    /// A life on any medium of so many blocks, not yet formatted.
    pub fn unformatted(random: &mut Random, blocks: usize) -> Life {
        let mut life = Life::blank(random, blocks);
        match random.below(3) {
            0 => {}
            1 => life.medium.fill(0),
            _ => random.fill(&mut life.medium),
        }
        life
    }

    /// A life on a medium that reads clean, not yet formatted.
    pub fn blank(random: &mut Random, blocks: usize) -> Life {
        Life {
            medium: vec![0xFF; blocks * BLOCK_BYTES],
            buffer: [0xFF; PAGE_BYTES],
            weak: vec![true; blocks],
            state: None,
            history: None,
            habits: Habits::new(random),
            full: 0,
        }
    }

    /// From now on it is led otherwise.
    pub fn change_habits(&mut self, random: &mut Random) {
        self.habits = Habits::new(random);
        self.full = 0;
    }

    /// Whether formatting was finished and nothing was begun or buffered since.
    pub fn just_formatted(&self) -> bool {
        let new = |state: &State| state.next_serial == 2 && state.pending.is_none();
        self.buffer_is_empty() && self.history.is_some() && self.state.as_ref().is_some_and(new)
    }

    /// Makes a journal that is just formatted an old one, with so many serials
    /// left: its base and its state get a serial near the last.
    pub fn grow_old(&mut self, serials_left: u64) {
        let Some(state) = &mut self.state else { return };
        state.next_serial = u64::MAX - serials_left;
        state.first_base_serial = state.next_serial - 1;
        let base = lay_page(BASE, 3, state.first_base_serial, &[]);
        put_page(&mut self.medium, 0, &base);
    }

    /// A group that sets valve 0, written by the rules of before, if a page of
    /// the head block and more are left and nothing is under way: whether it was.
    pub fn set_valve_0(&mut self, word: u64) -> bool {
        let (Some(state), Some(history)) = (&mut self.state, &mut self.history) else {
            return false;
        };
        let room = state.next_page < BLOCK_PAGES && state.index.len() < MAX_VALVES;
        let serials = state.next_serial < u64::MAX - 1;
        let idle = state.pending.is_none() && self.buffer == [0xFF; PAGE_BYTES];
        if !(room && serials && idle && reader::available(&self.medium, state) > BLOCK_PAGES) {
            return false;
        }
        before::append(&mut self.medium, state, &[Entry { key: 0, word }]);
        history.feed(Event::Append { keys: &[0], words: &[word] });
        history.feed(Event::StepOnPage);
        true
    }

    pub(super) fn buffer_is_empty(&self) -> bool {
        self.buffer == [0xFF; PAGE_BYTES]
    }

    /// Whether formatting is under way.
    pub(super) fn formatting(&self) -> bool {
        let pending = self.state.as_ref().and_then(|state| state.pending.as_ref());
        matches!(pending, Some(Pending::Format { .. }))
    }

    /// Carries out an action and feeds the history.
    pub fn act(&mut self, action: &Action) -> Outcome {
        let formatting = self.formatting();
        let (medium, buffer, state) = (&mut self.medium[..], &mut self.buffer, &mut self.state);
        let outcome = Player::<Second> { medium, buffer, state }.play(action);
        match outcome {
            Outcome::Refused(number) => {
                self.full += usize::from(number == 13 || number == 14);
                self.feed(Event::Refused);
            }
            Outcome::Accepted => self.accepted(action),
            Outcome::Stepped(step) => self.stepped(step, formatting),
            Outcome::Cut { struck, complete } => {
                if let Some(touched) = struck {
                    self.touch(touched, true);
                }
                self.feed(Event::Cut { complete });
            }
        }
        outcome
    }

    /// Steps until what is pending is finished. With `cut` the step after so
    /// many others is cut inside, with this mask. Whether it was finished.
    pub fn finish(&mut self, cut: Option<(usize, &[u8])>) -> bool {
        let mut steps = 0;
        while self.state.as_ref().is_some_and(|state| state.pending.is_some()) {
            if let Some((_, mask)) = cut.filter(|&(after, _)| after == steps) {
                self.act(&Action::CutInside { mask: mask.to_vec() });
                return false;
            }
            let outcome = self.act(&Action::Step);
            assert!(matches!(outcome, Outcome::Stepped(_)), "a step of what was begun");
            steps += 1;
        }
        true
    }

    fn feed(&mut self, event: Event) {
        if let Some(history) = &mut self.history {
            history.feed(event);
        }
    }

    /// A call was accepted. Where formatting begins, the list that the history
    /// was about is over.
    fn accepted(&mut self, action: &Action) {
        match action {
            Action::Format => {
                self.history = None;
                self.full = 0;
            }
            Action::Recover => self.feed(Event::Recovery),
            Action::Append { keys, words } => self.feed(Event::Append { keys, words }),
            Action::Buffer { keys, words } => self.feed(Event::Buffer { keys, words }),
            Action::Commit => self.feed(Event::Commit),
            Action::Collect { block } => self.feed(Event::Collect { block: *block }),
            Action::Flush => self.feed(Event::Flush),
            Action::Read(_) => self.feed(Event::Reading),
            Action::Step | Action::Cut | Action::CutInside { .. } => {}
        }
    }

    /// A step was made. The last one of formatting starts a history; this step
    /// itself is not of the list.
    fn stepped(&mut self, step: Step, formatting: bool) {
        self.touch(step.touched, false);
        if formatting && step.finished {
            self.history = Some(History::new());
        } else {
            self.feed(match step.touched {
                Touched::Page(_) => Event::StepOnPage,
                Touched::Block(_) => Event::StepOnBlock,
            });
        }
        if step.finished {
            self.full = 0;
        }
    }

    /// A page is programmed in no weak block; an erase leaves its block weak
    /// exactly if it was cut.
    fn touch(&mut self, touched: Touched, cut: bool) {
        match touched {
            Touched::Page(page) => assert!(!self.weak[page / BLOCK_PAGES], "a weak block"),
            Touched::Block(block) => self.weak[block] = cut,
        }
    }
}

/// A life of some block count after so many events.
pub fn lived(random: &mut Random, events: usize) -> Life {
    let blocks = some_blocks(random);
    lived_on(random, blocks, events)
}

/// A life on so many blocks after so many events; where the blocks are many,
/// after a quarter of them.
pub fn lived_on(random: &mut Random, blocks: usize, events: usize) -> Life {
    let mut life = Life::on(random, blocks);
    for _ in 0..if blocks > FEW_BLOCKS { events / 4 } else { events } {
        let action = life.next_action(random);
        life.act(&action);
    }
    life
}

/// A medium that a life of up to 400 events has left and that recovery takes.
pub fn medium(random: &mut Random) -> Vec<u8> {
    let blocks = some_blocks(random);
    medium_on(random, blocks)
}

/// The same of so many blocks.
pub fn medium_on(random: &mut Random, blocks: usize) -> Vec<u8> {
    for _ in 0..1000 {
        let events = random.from_to(20, 400);
        let life = lived_on(random, blocks, events);
        if life.history.is_some() {
            return life.medium;
        }
    }
    panic!("formatting is never finished");
}
