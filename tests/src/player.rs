//! The player of lists of calls and cuts: what each action does to a medium, a
//! buffer and a state, by either implementation.

use crate::calls::{read_out, Calls, ReadOut};
use crate::random::cut_step;
use crate::reader::{Entry, Record, Refused, WordAt, MAX_BLOCKS, PAGE_BYTES};
use crate::writer::{Step, Touched};

/// One event of a list, as plain data.
#[derive(Clone, PartialEq, Eq, Debug)]
pub enum Action {
    Format,
    Append {
        keys: Vec<u16>,
        words: Vec<u64>,
    },
    Commit,
    Collect {
        block: usize,
    },
    /// A group is put into the buffer.
    Buffer {
        keys: Vec<u16>,
        words: Vec<u64>,
    },
    Flush,
    Step,
    /// A cut between steps.
    Cut,
    /// A cut inside the step then due; where none is due, between steps.
    CutInside {
        mask: Vec<u8>,
    },
    Recover,
    Read(Reading),
}

/// A call that alters nothing.
#[derive(Clone, PartialEq, Eq, Debug)]
pub enum Reading {
    Open {
        valve: u16,
    },
    /// The place of a valve's word, in the buffer or the medium.
    Word {
        valve: u16,
    },
    /// The group that leads to these settings.
    Wanted {
        records: Vec<Record>,
    },
    Pick,
    Survey,
    Available,
    /// The log into lists of so many places.
    Log {
        keys: usize,
        words: usize,
        groups: usize,
    },
}

/// What came of an action.
#[derive(Clone, Copy, PartialEq, Eq, Debug)]
pub enum Outcome {
    Refused(u8),
    Accepted,
    Stepped(Step),
    /// A cut: what the step it struck was touching, if it struck one, and
    /// whether it left a page being programmed complete.
    Cut {
        struck: Option<Touched>,
        complete: bool,
    },
}

/// What a list is played on.
pub struct Player<'a, C: Calls> {
    pub medium: &'a mut [u8],
    /// The buffer as the next call is lent it.
    pub buffer: &'a mut [u8; PAGE_BYTES],
    /// The state last handed back; none after a cut.
    pub state: &'a mut Option<C::State>,
}

impl<C: Calls> Player<'_, C> {
    /// Carries out an action. After a cut only `Format` and `Recover` may come;
    /// any other is passed over as a cut.
    pub fn play(&mut self, action: &Action) -> Outcome {
        match action {
            Action::Format => self.handed_back(C::format(self.medium)),
            Action::Recover => self.recover(),
            Action::Cut => self.cut_between(),
            _ if self.state.is_none() => self.cut_between(),
            Action::CutInside { mask } => self.cut_inside(mask),
            Action::Step => self.step(),
            Action::Append { keys, words } => self.call(|m, s, b| C::append(m, s, b, keys, words)),
            Action::Commit => self.call(|m, s, b| C::commit(m, s, b)),
            Action::Collect { block } => self.call(|m, s, b| C::collect(m, s, b, *block)),
            Action::Buffer { keys, words } => self.call(|m, s, b| C::buffer(m, s, b, keys, words)),
            Action::Flush => self.call(|m, s, b| C::flush(m, s, b)),
            Action::Read(reading) => {
                self.call(|m, s, b| Answer::of::<C>(m, s, b, reading).refusal())
            }
        }
    }

    /// A call that takes no state; a refusal hands none back.
    fn handed_back(&mut self, result: Result<C::State, Refused>) -> Outcome {
        match result {
            Ok(state) => {
                *self.state = Some(state);
                Outcome::Accepted
            }
            Err(Refused(number)) => Outcome::Refused(number),
        }
    }

    /// After a recovery the buffer is lent empty.
    fn recover(&mut self) -> Outcome {
        let outcome = self.handed_back(C::recover(self.medium));
        if outcome == Outcome::Accepted {
            self.buffer.fill(0xFF);
        }
        outcome
    }

    /// A call that takes a state and does no device step.
    fn call(
        &mut self,
        call: impl FnOnce(&[u8], &mut C::State, &mut [u8]) -> Result<(), Refused>,
    ) -> Outcome {
        let state = self.state.as_mut().expect("a state");
        let given = state.clone();
        match call(self.medium, state, self.buffer) {
            Ok(()) => Outcome::Accepted,
            Err(Refused(number)) => {
                assert!(*state == given, "a refusal hands back the state given");
                Outcome::Refused(number)
            }
        }
    }

    /// After the last step of formatting the buffer is lent empty.
    fn step(&mut self) -> Outcome {
        let state = self.state.as_mut().expect("a state");
        let given = state.clone();
        match C::step(self.medium, state, self.buffer) {
            Ok(step) => {
                if step.finished && C::is_formatting(&given) {
                    self.buffer.fill(0xFF);
                }
                Outcome::Stepped(step)
            }
            Err(Refused(number)) => {
                assert!(*state == given, "a refusal hands back the state given");
                Outcome::Refused(number)
            }
        }
    }

    /// A cut takes the state, and what the buffer held.
    fn cut_between(&mut self) -> Outcome {
        *self.state = None;
        self.buffer.fill(0xFF);
        Outcome::Cut { struck: None, complete: false }
    }

    /// The step due is made on a copy, to see what the cut strikes.
    fn cut_inside(&mut self, mask: &[u8]) -> Outcome {
        let mut state = self.state.take().expect("a state");
        let mut after = self.medium.to_vec();
        let Ok(step) = C::step(&mut after, &mut state, self.buffer) else {
            return self.cut_between();
        };
        self.buffer.fill(0xFF);
        let complete = cut_step(self.medium, &after, &step.touched, mask);
        Outcome::Cut { struck: Some(step.touched), complete }
    }
}

/// What a reading hands back.
#[derive(Clone, PartialEq, Eq, Debug)]
pub enum Answer {
    Open(Result<u64, Refused>),
    Word(Result<WordAt, Refused>),
    Wanted(Result<Option<Vec<Entry>>, Refused>),
    Pick(Result<Option<usize>, Refused>),
    Survey(Box<Result<[[u32; 3]; MAX_BLOCKS], Refused>>),
    Available(Result<usize, Refused>),
    Log(ReadOut),
}

impl Answer {
    /// What an implementation answers to a reading.
    pub fn of<C: Calls>(m: &[u8], state: &C::State, b: &[u8], reading: &Reading) -> Answer {
        match *reading {
            Reading::Open { valve } => Answer::Open(C::open(m, state, valve)),
            Reading::Word { valve } => Answer::Word(C::word_at(m, state, b, valve)),
            Reading::Wanted { ref records } => Answer::Wanted(C::wanted(m, state, records)),
            Reading::Pick => Answer::Pick(C::pick(m, state)),
            Reading::Survey => Answer::Survey(Box::new(C::survey(m, state))),
            Reading::Available => Answer::Available(C::count_available(m, state)),
            Reading::Log { keys, words, groups } => {
                Answer::Log(read_out(C::log_into, m, [keys, words, groups]))
            }
        }
    }

    /// The refusal, if it is one.
    fn refusal(&self) -> Result<(), Refused> {
        match self {
            Answer::Open(answer) => answer.map(drop),
            Answer::Word(answer) => answer.map(drop),
            Answer::Wanted(answer) => answer.as_ref().map(drop).map_err(|&refused| refused),
            Answer::Pick(answer) => answer.map(drop),
            Answer::Survey(answer) => answer.map(drop),
            Answer::Available(answer) => answer.map(drop),
            Answer::Log((answer, _)) => answer.map(drop),
        }
    }
}
