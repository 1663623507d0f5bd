//! The whole operations of `include/valve_journal_run.h`, with a driver that
//! fails at any step: a failure is a cut, and what comes after it is held to the
//! second implementation and the plain history.

mod common;

use common::{blank, lists, read_out, refused, valves, EMPTY};
use journal_tests::player::{Action, Outcome};
use journal_tests::proved;
use journal_tests::random::{cut_mask, Life, Random};
use journal_tests::reader::{self, REMOVAL};
use journal_tests::run::{Journal, FAILED, NOT_OPEN};
use std::collections::BTreeMap;

/// One life led twice: step by step in the second implementation, and in whole
/// operations on a chip.
struct Pair {
    life: Life,
    journal: Journal,
}

impl Pair {
    fn of(life: Life) -> Pair {
        Pair { journal: Journal::new(&life.medium), life }
    }

    /// Carries out a whole operation, a group put into the buffer, a recovery or
    /// a cut between steps. With `fails` the driver fails after so many steps,
    /// if there are so many. Both answer the same and leave the same.
    fn act(&mut self, action: &Action, fails: Option<(usize, &[u8])>) -> u8 {
        self.journal.chip.fails = fails.map(|(steps, mask)| (steps, mask.to_vec()));
        let open = self.journal.is_open();
        let number = self.run(action);
        self.journal.chip.fails = None;
        if !open && number == NOT_OPEN {
            assert!(self.life.state.is_none());
        } else {
            assert_eq!(number, self.live(action, fails), "{action:?}");
        }
        self.check();
        number
    }

    /// What the run of the action answers.
    fn run(&mut self, action: &Action) -> u8 {
        let journal = &mut self.journal;
        match action {
            Action::Format => journal.format(),
            Action::Recover => journal.open(),
            Action::Append { keys, words } => journal.append(keys, words),
            Action::Buffer { keys, words } => journal.buffer(keys, words),
            Action::Commit => journal.commit(),
            Action::Collect { block } => journal.collect(*block),
            Action::Flush => journal.flush(),
            Action::Cut => {
                *journal = Journal::new(&journal.chip.bytes);
                0
            }
            Action::Step | Action::CutInside { .. } | Action::Read(_) => unreachable!(),
        }
    }

    /// The same in the second implementation: begun, and stepped to its end, or
    /// cut inside a step. What it must answer.
    fn live(&mut self, action: &Action, fails: Option<(usize, &[u8])>) -> u8 {
        match self.life.act(action) {
            Outcome::Refused(number) => return number,
            Outcome::Cut { .. } => return 0,
            Outcome::Accepted | Outcome::Stepped(_) => {}
        }
        if self.life.finish(fails) {
            0
        } else {
            FAILED
        }
    }

    /// The chip is the life's medium. An open journal has it as its copy, and the
    /// life's state and buffer; one that is not open has nothing to read.
    fn check(&self) {
        let (life, journal) = (&self.life, &self.journal);
        assert!(journal.chip.bytes == life.medium, "every byte of the chip");
        assert!(*journal.buffered() == life.buffer, "every byte of the buffer");
        assert_eq!(journal.is_open(), life.state.is_some());
        if journal.is_open() {
            assert!(journal.medium() == life.medium, "every byte of the copy");
            assert_eq!(journal.state().meaning(), life.state);
        } else {
            assert!(journal.medium().is_empty() && *journal.buffered() == EMPTY);
            assert_eq!(proved::recover(journal.medium()), refused(1));
            assert_eq!(proved::open(journal.medium(), journal.state(), 5), refused(1));
            assert_eq!(proved::open(&life.medium, journal.state(), 5), refused(7));
        }
    }

    /// A journal that is not open takes no call but two, and the chip stays.
    fn check_not_open(&mut self) {
        let (keys, words) = lists(&valves(1, 3));
        for action in [
            Action::Append { keys: keys.clone(), words: words.clone() },
            Action::Buffer { keys, words },
            Action::Commit,
            Action::Collect { block: 0 },
            Action::Flush,
        ] {
            assert_eq!(self.act(&action, None), NOT_OPEN);
        }
    }

    /// The log and the settings of an open journal are the history's.
    fn check_history(&self) {
        let Some(history) = &self.life.history else { return };
        let length = history.log().iter().map(Vec::len).sum();
        let log = read_out(proved::log_into, self.journal.medium(), [length; 3]);
        assert!(log == common::expected_read_out(history.log(), [length; 3]), "the log");
        let settings = history.settings();
        assert_eq!(self.journal.state().index.keys().len(), settings.len());
        for entry in settings {
            let word = proved::open(self.journal.medium(), self.journal.state(), entry.key);
            assert_eq!(word, Ok(entry.word));
        }
    }

    /// After a failure: the chip cannot be read, and then it can. Formatting
    /// that failed is made again.
    fn reopen(&mut self) {
        self.check_not_open();
        self.journal.chip.unreadable = true;
        assert_eq!(self.journal.open(), FAILED);
        self.check();
        let again = if self.life.history.is_some() { Action::Recover } else { Action::Format };
        assert_eq!(self.act(&again, None), 0);
        self.check_history();
    }
}

/// Operations of every kind on four blocks, with collections that move nodes
/// and ones that do not, and groups of up to four pages.
fn script() -> Vec<Action> {
    let append = |entries: &[(u16, u64)]| {
        let (keys, words) = lists(entries);
        Action::Append { keys, words }
    };
    let buffer = |entries: &[(u16, u64)]| {
        let (keys, words) = lists(entries);
        Action::Buffer { keys, words }
    };
    vec![
        Action::Format,
        append(&valves(1, 96)),
        append(&valves(90, 30)),
        buffer(&[(5, 1000), (7, 20)]),
        buffer(&[(5 + REMOVAL, 0)]),
        Action::Flush,
        Action::Commit,
        append(&valves(100, 50)),
        append(&valves(10, 72)),
        Action::Commit,
        Action::Collect { block: 0 },
        buffer(&[(3, 30)]),
        Action::Flush,
        append(&[(3 + REMOVAL, 0), (4, 40)]),
        Action::Commit,
        Action::Collect { block: 1 },
        append(&valves(1, 25)),
    ]
}

/// Plays the script with a driver that fails at step k, counted over the whole
/// of it; whether it came to that.
fn play(k: usize, mask: &[u8]) -> bool {
    let mut life = Life::blank(&mut Random::new(1), 4);
    life.medium.fill(0);
    let (mut pair, mut left, mut failed) = (Pair::of(life), Some(k), false);
    for action in script() {
        let before = pair.journal.chip.steps;
        match pair.act(&action, left.map(|steps| (steps, mask))) {
            FAILED => {
                failed = true;
                left = None;
                pair.reopen();
            }
            _ => left = left.map(|steps| steps - (pair.journal.chip.steps - before)),
        }
        if pair.journal.is_open() {
            pair.check_history();
        }
    }
    failed
}

#[test]
fn a_failure_at_each_step() {
    let half: Vec<u8> = (0..4096).map(|i| if i % 256 < 128 { 0 } else { 0xFF }).collect();
    for mask in [vec![0; 4096], vec![0xFF; 4096], half] {
        let steps = (0..).take_while(|&k| play(k, &mask)).count();
        assert!(steps > 40, "{steps} steps in the script");
    }
}

/// Counts of what happened, by name.
type Counts = BTreeMap<String, usize>;

/// Operations by chance, with failures by chance.
fn live(seed: u64, counts: &mut Counts) {
    let mut random = Random::new(seed);
    let blocks = random.one_of(&[4, 5, 8, 16, 17]);
    let mut pair = Pair::of(Life::on(&mut random, blocks));
    if pair.life.state.is_some() {
        // A journal that was written for long, as after its power came back.
        pair.life.act(&Action::Cut);
    }
    for _ in 0..120 {
        let action = pair.life.next_action(&mut random);
        match &action {
            Action::Step | Action::CutInside { .. } | Action::Read(_) => continue,
            Action::Append { keys, words } | Action::Buffer { keys, words }
                if keys.len() != words.len() =>
            {
                continue;
            }
            _ => {}
        }
        let mask = cut_mask(&mut random);
        let fails = random.one_in(4).then(|| (random.below(5), &mask[..]));
        let name = format!("{action:?}");
        let name = name.split(|c: char| !c.is_alphabetic()).next().expect("a name");
        let number = pair.act(&action, fails);
        *counts.entry(format!("{name} {number}")).or_default() += 1;
        if pair.journal.is_open() {
            pair.check_history();
        } else {
            pair.check_not_open();
        }
    }
}

/// What must happen: the action and its answer.
#[rustfmt::skip]
const HAPPENINGS: [&str; 21] = [
    "Format 0", "Format 255", "Append 0", "Append 255", "Append 11", "Append 12", "Append 13",
    "Append 24", "Commit 0", "Commit 255", "Collect 0", "Collect 255", "Collect 15", "Buffer 0",
    "Buffer 11", "Buffer 23", "Flush 0", "Flush 255", "Flush 10", "Recover 0", "Cut 0",
];

#[test]
fn operations_and_failures_by_chance() {
    let mut counts = Counts::new();
    (0..400).for_each(|seed| live(seed, &mut counts));
    for name in HAPPENINGS {
        let count = counts.get(name).copied().unwrap_or(0);
        assert!(count >= 5, "{name} came {count} times: {counts:?}");
    }
}

/// What a recovery or a length refuses leaves the journal as it should.
#[test]
fn refusals_at_the_start() {
    let mut journal = Journal::new(&blank(4));
    assert_eq!((journal.open(), journal.is_open()), (4, false));
    assert_eq!(journal.append(&[5], &[1]), NOT_OPEN);
    assert_eq!((journal.format(), journal.is_open()), (0, true));
    let mut journal = Journal::new(&blank(3));
    assert_eq!((journal.open(), journal.format(), journal.is_open()), (1, 1, false));
    assert!(journal.chip.bytes == blank(3));
}

/// A step that is refused, since the copy was altered meanwhile, ends as a
/// failure does, with the step's number.
#[test]
fn a_refused_step_drops_the_state() {
    let mut journal = Journal::new(&blank(4));
    assert_eq!(journal.format(), 0);
    let (keys, words) = lists(&valves(1, 30));
    journal.chip.meddles = true;
    assert_eq!(journal.append(&keys, &words), 16);
    assert!(!journal.is_open());
    assert_eq!(proved::open(&journal.chip.bytes, journal.state(), 5), refused(7));
    assert_eq!(journal.append(&keys, &words), NOT_OPEN);
    assert_eq!(journal.open(), 0);
    let state = reader::recover(&journal.chip.bytes).expect("recovery");
    assert_eq!(journal.state().meaning(), Some(state));
    assert_eq!(journal.append(&keys, &words), 0);
}

/// A group of 1 to 96 entries of any of 192 valves.
fn some_group(random: &mut Random) -> (Vec<u16>, Vec<u64>) {
    let count = random.from_to(1, 96);
    let valve = |random: &mut Random| random.from_to(1, 192) as u16;
    (0..count).map(|_| (valve(random), random.from_to(0, 1 << 40) as u64)).unzip()
}

/// How many changes the log has.
fn log_length(journal: &Journal) -> usize {
    let replay = reader::replay(journal.medium()).expect("recovery");
    replay.log().iter().map(Vec::len).sum()
}

/// Writes a group; where there is no room without it the log is filed, and its
/// length handed back.
fn write(journal: &mut Journal, keys: &[u16], words: &[u64]) -> Option<usize> {
    match journal.write(keys, words, false) {
        0 => None,
        13 | 15 => {
            let changes = log_length(journal);
            assert_eq!(journal.write(keys, words, true), 0);
            Some(changes)
        }
        number => panic!("refused {number}"),
    }
}

/// A box keeps itself able to write: thousands of groups go to few blocks, every
/// change is filed once, and the valves open as they were set last.
#[test]
fn a_box_keeps_itself_able_to_write() {
    for blocks in [4, 5, 16] {
        let mut random = Random::new(blocks as u64);
        let mut journal = Journal::new(&blank(blocks));
        assert_eq!(journal.format(), 0);
        let (mut settings, mut made, mut filed) = (BTreeMap::new(), 0, 0);
        for _ in 0..3000 {
            let (keys, words) = some_group(&mut random);
            filed += write(&mut journal, &keys, &words).unwrap_or(0);
            made += keys.len();
            settings.extend(keys.into_iter().zip(words));
        }
        assert_eq!(filed + log_length(&journal), made);
        for (&valve, &word) in &settings {
            assert_eq!(proved::open(journal.medium(), journal.state(), valve), Ok(word));
        }
    }
}

/// A driver that fails inside the housekeeping, or inside the append: the journal
/// is opened again, and has the group whole or not at all. Where it has not, the
/// group is written then; where no page is left for a commit, saying 'not filed'
/// gets out, unless no block can be collected.
#[test]
fn a_write_that_fails() {
    let (mut random, mut numbers, mut got_out) = (Random::new(4), [0; 256], 0);
    for fails in (0..40).cycle().take(400) {
        let mut journal = Journal::new(&blank(4));
        assert_eq!(journal.format(), 0);
        let mut last = 0;
        while journal.append(&[5, 6], &[last, last]) == 0 {
            last += 1;
        }
        let group: (&[u16], &[u64]) = (&[5, 6], &[last, last]);
        journal.chip.fails = Some((fails, cut_mask(&mut random)));
        let number = journal.write(group.0, group.1, true);
        journal.chip.fails = None;
        if number == FAILED {
            assert_eq!(journal.write(group.0, group.1, true), NOT_OPEN);
            assert_eq!(journal.open(), 0);
            let openings = [5, 6].map(|v| proved::open(journal.medium(), journal.state(), v));
            assert_eq!(openings[0], openings[1]);
            if openings[0] == Ok(last) {
                continue;
            }
            assert_eq!(openings[0], Ok(last - 1));
            let stuck = journal.write(group.0, group.1, true);
            if stuck != 0 {
                assert_eq!(stuck, 13);
                journal.write(group.0, group.1, false);
                let number = journal.write(group.0, group.1, true);
                assert!([0, 13].contains(&number));
                got_out += usize::from(number == 0);
                continue;
            }
        }
        assert_eq!(proved::open(journal.medium(), journal.state(), 6), Ok(last));
        numbers[usize::from(number)] += 1;
    }
    assert!(numbers[0] > 0 && numbers[usize::from(FAILED)] > 0 && got_out > 0);
}
