//! The calls that write: the proved library against the second implementation
//! and the plain history.
//!
//! First the document's small examples; then lists of calls and cuts from
//! formatting on, where after every event the answer, every byte of the medium
//! and the state are compared; then calls on media, states and lists that may
//! be anything.
//!
//! `JOURNAL_EVENTS=n` asks for lists of n events in all. A failure prints a
//! seed; `JOURNAL_SEED=s` begins with it.

mod common;

use common::{
    blank, circumstances, expected_read_out, happening, lists, pending_name, read_out, refused,
    touched, valves, variable, Given, Seed, EMPTY,
};
use journal_tests::calls::{Calls, Proved, Second, Tight, TightByValue};
use journal_tests::dispatcher::next_operation;
use journal_tests::grown::{some_blocks, BLOCK_COUNTS};
use journal_tests::player::{Action, Answer, Outcome, Player, Reading};
use journal_tests::proved::{self, VjCells, VjState};
use journal_tests::random::{self, Life, Random};
use journal_tests::reader::{self, Entry, Refused, WordAt, BLOCK_BYTES, PAGE_BYTES, REMOVAL};
use journal_tests::writer::{self, State, Step, Touched};
use std::collections::BTreeMap;
use std::fmt::Debug;
use std::marker::PhantomData;
use std::time::Instant;

// ---------------------------------------------------------------------------
// The small examples of the document

/// A journal that the proved library alone has written.
#[derive(Clone)]
struct Journal {
    medium: Vec<u8>,
    state: VjState,
    buffer: [u8; PAGE_BYTES],
}

impl Journal {
    fn formatted(blocks: usize) -> Journal {
        let medium = blank(blocks);
        let state = proved::format(&medium).expect("format");
        let mut journal = Journal { medium, state, buffer: EMPTY };
        journal.finish();
        journal
    }

    fn step(&mut self) -> Result<Step, Refused> {
        proved::step(&mut self.medium, &mut self.state, &mut self.buffer)
    }

    /// Steps until the pending operation is finished; what each touched.
    fn finish(&mut self) -> Vec<Touched> {
        touched(&Proved::finish(&mut self.medium, &mut self.state, &mut self.buffer))
    }

    fn begin_append(&mut self, entries: &[(u16, u64)]) -> Result<(), Refused> {
        let (keys, words) = lists(entries);
        proved::append(&self.medium, &mut self.state, &self.buffer, &keys, &words)
    }

    /// Puts a group into the buffer.
    fn gather(&mut self, entries: &[(u16, u64)]) -> Result<(), Refused> {
        let (keys, words) = lists(entries);
        proved::buffer(&self.medium, &self.state, &mut self.buffer, &keys, &words)
    }

    fn begin_flush(&mut self) -> Result<(), Refused> {
        proved::flush(&self.medium, &mut self.state, &self.buffer)
    }

    fn word_at(&self, valve: u16) -> Result<WordAt, Refused> {
        proved::word_at(&self.medium, &self.state, &self.buffer, valve)
    }

    fn append(&mut self, entries: &[(u16, u64)]) -> Vec<Touched> {
        self.begin_append(entries).expect("append");
        self.finish()
    }

    fn begin_commit(&mut self) -> Result<(), Refused> {
        proved::commit(&self.medium, &mut self.state, &self.buffer)
    }

    fn collect(&mut self, block: usize) -> Result<(), Refused> {
        proved::collect(&self.medium, &mut self.state, &self.buffer, block)
    }

    fn available(&self) -> Result<usize, Refused> {
        proved::count_available(&self.medium, &self.state)
    }

    /// The log: each change's group number, its key and its word as stored.
    fn log(&self) -> Vec<(u32, u16, u64)> {
        let most = reader::most_changes(&self.medium);
        let (answer, lists) = read_out(proved::log_into, &self.medium, [most; 3]);
        let changes = lists.groups.into_iter().zip(lists.keys).zip(lists.words);
        let changes = changes.map(|((group, key), word)| (group, key, word));
        changes.take(answer.expect("the log")).collect()
    }
}

#[test]
fn formatting_leaves_63_pages_and_47_groups_pass() {
    let mut journal = Journal::formatted(4);
    let base = [0x5C, 0, 2, 3, 0, 0, 0xFF, 0xFF, 1];
    assert_eq!(journal.medium[..9], base);
    assert_eq!(journal.available(), Ok(63));
    for word in 0..47 {
        assert_eq!(journal.append(&[(5, word)]), [Touched::Page(word as usize + 1)]);
    }
    assert_eq!(journal.available(), Ok(16));
    assert_eq!(journal.begin_append(&[(5, 47)]), refused(13));
    let expected: Vec<_> = (0..47).map(|group| (group, 5, u64::from(group))).collect();
    assert_eq!(journal.log(), expected);
}

#[test]
fn small_examples_of_refusals() {
    let formatted = Journal::formatted(4);
    let mut journal = formatted.clone();
    assert_eq!(proved::format(&journal.medium[..12288]).map(|_| ()), refused(1));
    assert_eq!(journal.collect(0), refused(15));
    assert_eq!(journal.begin_append(&valves(1, 97)), refused(10));
    assert_eq!(journal.begin_append(&[]), refused(10));
    assert_eq!(journal.begin_append(&[(32773, 1)]), refused(11));
    assert_eq!(journal.begin_append(&[(0, 20)]), refused(11));
    assert_eq!(journal.step(), refused(9));
    journal.state = proved::recover(&journal.medium).expect("recovery");
    assert_eq!(journal.step(), refused(9));

    let mut journal = formatted.clone();
    journal.begin_append(&[(5, 1)]).expect("append");
    assert_eq!(journal.begin_commit(), refused(8));
    journal.medium[256] = 0;
    assert_eq!(journal.step(), refused(16));

    let mut journal = formatted.clone();
    journal.append(&valves(1, 96));
    journal.append(&valves(97, 96));
    assert_eq!(journal.begin_append(&[(193, 1)]), refused(12));

    let mut journal = formatted.clone();
    journal.state.head.serial = u64::MAX;
    assert_eq!(journal.begin_append(&[(5, 1)]), refused(14));
    assert_eq!(journal.begin_commit(), refused(14));

    let mut journal = formatted.clone();
    journal.medium.resize(5 * BLOCK_BYTES, 0xFF);
    assert_eq!(journal.begin_append(&[(5, 1)]), refused(7));
    assert_eq!(journal.begin_commit(), refused(7));
    assert_eq!(journal.collect(0), refused(7));
    assert_eq!(journal.step(), refused(7));
    assert_eq!(journal.available(), refused(7));
}

#[test]
fn pages_of_appends_and_commits() {
    for (entries, pages) in [(24, 1), (25, 2), (96, 4)] {
        let touched = Journal::formatted(4).append(&valves(1, entries));
        assert_eq!(touched, (1..=pages).map(Touched::Page).collect::<Vec<_>>());
    }
    for (count, pages) in [(0, 1), (24, 1), (25, 2), (192, 8)] {
        let mut journal = Journal::formatted(8);
        for part in valves(1, count).chunks(96) {
            journal.append(part);
        }
        journal.begin_commit().expect("commit");
        assert_eq!(journal.finish().len(), pages);
        assert_eq!(journal.log(), []);
    }
}

#[test]
fn thirty_entries_cut_after_their_first_page() {
    let mut journal = Journal::formatted(4);
    journal.begin_append(&valves(1, 30)).expect("append");
    assert_eq!(journal.step(), Ok(Step { touched: Touched::Page(1), finished: false }));
    assert_eq!(journal.log(), []);
    journal.state = proved::recover(&journal.medium).expect("recovery");
    // Block 1 is erased before serial 3.
    assert_eq!(journal.append(&[(5, 1)]), [Touched::Block(1), Touched::Page(16)]);
    assert_eq!(journal.medium[16 * 256 + 8], 3);
    assert_eq!(journal.log(), [(0, 5, 1)]);
}

#[test]
fn single_moves_are_gathered_and_flushed() {
    let mut journal = Journal::formatted(4);
    assert_eq!(journal.begin_flush(), refused(10));
    journal.gather(&[(5, 1000), (7, 20)]).expect("a group");
    journal.gather(&[(32773, 0)]).expect("a group");
    assert_eq!(journal.buffer[2..8], [4, 3, 3, 0, 0xFE, 0xFF]);
    assert_eq!(journal.word_at(7), Ok(WordAt::Buffer(72)));
    assert_eq!(journal.word_at(5), refused(18));
    assert_eq!(journal.begin_append(&[]), refused(24));
    assert_eq!(journal.begin_commit(), refused(24));
    assert_eq!(journal.collect(99), refused(24));
    assert_eq!(journal.gather(&valves(1, 14)), refused(23));
    assert_eq!(journal.gather(&valves(1, 97)), refused(10));
    assert_eq!(journal.log(), []);
    journal.begin_flush().expect("flush");
    assert_eq!(journal.gather(&[(6, 1)]), refused(8));
    assert_eq!(journal.finish(), [Touched::Page(1)]);
    assert_eq!(journal.buffer, EMPTY);
    assert_eq!(journal.log(), [(0, 5, 1000), (0, 7, 20), (1, 32773, 0)]);
    assert_eq!(journal.word_at(7), Ok(WordAt::Medium(256 + 72)));
    journal.buffer[255] = 0;
    assert_eq!(journal.word_at(7), refused(7));
}

#[test]
fn formatting_erases_upward_and_drops_what_is_pending() {
    let mut journal = Journal::formatted(4);
    journal.begin_append(&[(5, 1)]).expect("append");
    journal.medium.fill(0);
    journal.state = proved::format(&journal.medium).expect("format");
    let mut expected: Vec<Touched> = (0..4).map(Touched::Block).collect();
    expected.push(Touched::Page(0));
    assert_eq!(journal.finish(), expected);
    assert!(journal.medium == Journal::formatted(4).medium);
    assert_eq!(journal.log(), []);
}

// ---------------------------------------------------------------------------
// Lists of calls and cuts

/// Events of the lists together, where no variable asks for another number.
const EVENTS: u64 = 100_000;
/// Events of one list.
const LIFE: u64 = 1000;

/// How often each thing happened.
type Counts = BTreeMap<String, usize>;

fn count(counts: &mut Counts, name: impl Into<String>) {
    *counts.entry(name.into()).or_insert(0) += 1;
}

/// One life led twice: by the second implementation, with the plain history,
/// and by the calls of the proved library, or of the yardstick for times, on a
/// medium and a state of its own.
struct Twins<C: Calls<State = VjState>> {
    calls: PhantomData<C>,
    life: Life,
    medium: Vec<u8>,
    buffer: [u8; PAGE_BYTES],
    state: Option<VjState>,
}

impl<C: Calls<State = VjState>> Twins<C> {
    fn of(life: Life) -> Twins<C> {
        let state = life.state.as_ref().map(VjState::from);
        Twins { calls: PhantomData, medium: life.medium.clone(), buffer: life.buffer, life, state }
    }

    /// Both get so few serials.
    fn grow_old(&mut self, serials_left: u64) {
        self.life.grow_old(serials_left);
        self.medium.clone_from(&self.life.medium);
        self.state = self.life.state.as_ref().map(VjState::from);
    }

    /// Both get a journal that holds valve 0, by the rules of before, if it can
    /// be written now.
    fn set_valve_0(&mut self, word: u64) -> bool {
        let set = self.life.set_valve_0(word);
        if set {
            self.medium.clone_from(&self.life.medium);
            self.state = self.life.state.as_ref().map(VjState::from);
        }
        set
    }

    /// Both carry out the action: they answer the same and leave the same.
    fn act(&mut self, action: &Action) -> Outcome {
        if let Action::Read(reading) = action {
            self.read(reading);
        }
        let (medium, buffer, state) = (&mut self.medium[..], &mut self.buffer, &mut self.state);
        let proved = Player::<C> { medium, buffer, state }.play(action);
        let second = self.life.act(action);
        assert_eq!(proved, second, "{}", happening(action, second));
        assert!(self.medium == self.life.medium, "every byte of the medium");
        assert!(self.buffer == self.life.buffer, "every byte of the buffer");
        assert_eq!(self.state.as_ref().map(C::meaning), self.life.state);
        second
    }

    /// A reading: both hand back the same.
    fn read(&self, reading: &Reading) {
        let (Some(proved), Some(second)) = (&self.state, &self.life.state) else { return };
        let proved = Answer::of::<C>(&self.medium, proved, &self.buffer, reading);
        let second = Answer::of::<Second>(&self.medium, second, &self.buffer, reading);
        assert_eq!(proved, second);
    }

    /// The words of some valves that are named are those of the settings with
    /// the buffered groups laid on.
    fn check_words(&self, random: &mut Random) {
        let (Some(state), Some(history)) = (&self.state, &self.life.history) else { return };
        let settings = history.with_buffered();
        let buffered = history.buffered().iter().flatten().map(|entry| entry.valve());
        let named: Vec<u16> = buffered.chain(settings.keys().copied()).collect();
        for _ in 0..named.len().min(3) {
            let valve = random.one_of(&named);
            let place = C::word_at(&self.medium, state, &self.buffer, valve);
            let word = place.map(|at| at.read(&self.medium, &self.buffer));
            assert_eq!(word, settings.get(&valve).copied().ok_or(Refused(18)));
        }
    }

    /// Recovery now gives the log and the settings of the plain history, in
    /// both; where formatting is not finished, both say the same.
    fn check_recovery(&self, random: &mut Random) {
        let recovered = C::recover(&self.medium);
        let replay = reader::replay(&self.medium);
        let Some(history) = &self.life.history else {
            let meaning = recovered.map(|state| state.meaning().expect("a meaning"));
            return assert_eq!(meaning, replay.map(|replay| replay.state));
        };
        let recovered = recovered.expect("the proved recovery is accepted");
        let replay = replay.expect("recovery is accepted");
        assert_eq!(recovered.meaning().as_ref(), Some(&replay.state));
        assert_eq!(replay.log(), history.log());
        let settings = history.settings();
        assert_eq!(replay.settings(), settings);
        self.check_log(random, history.log());
        for _ in 0..settings.len().min(3) {
            let Entry { key, word } = random.one_of(&settings);
            assert_eq!(C::open(&self.medium, &recovered, key), Ok(word));
        }
    }

    /// The proved log is this one group by group, each change with its group's
    /// number; places past the log stay.
    fn check_log(&self, random: &mut Random, log: &[Vec<Entry>]) {
        let length: usize = log.iter().map(Vec::len).sum();
        let lengths = [length; 3].map(|length| length + random.one_of(&[0, 1, 30]));
        let read = read_out(C::log_into, &self.medium, lengths);
        assert!(read == expected_read_out(log, lengths), "the log of {} groups", log.len());
    }
}

/// One list of calls and cuts on so many blocks, compared event by event.
fn live<C: Calls<State = VjState>>(
    seed: u64,
    blocks: usize,
    events: u64,
    counts: &mut Counts,
) {
    let _seed = Seed(seed);
    let mut random = Random::new(seed);
    let mut twins = Twins::<C>::of(Life::on(&mut random, blocks));
    let mut since_cut = u64::MAX;
    for _ in 0..events {
        if twins.life.just_formatted() && random.one_in(4) {
            twins.grow_old(random.one_of(&[3, 20, 100, 250]));
        }
        if random.one_in(60) && twins.set_valve_0(random.word()) {
            count(counts, "valve 0 is set by the rules of before");
        }
        let action = twins.life.next_action(&mut random);
        let given = Given::to(&twins.life);
        let outcome = twins.act(&action);
        count(counts, happening(&action, outcome));
        if let Some(name) = circumstances(&given, &action, outcome) {
            count(counts, name);
        }
        if let Some(name) = beyond_16_blocks(outcome) {
            count(counts, name);
        }
        let cut = matches!(outcome, Outcome::Cut { .. });
        if cut || random.one_in(8) {
            twins.check_recovery(&mut random);
        }
        if random.one_in(4) {
            twins.check_words(&mut random);
        }
        if cut && since_cut < 4 {
            count(counts, "cut soon after a cut");
        }
        since_cut = if cut { 0 } else { since_cut.saturating_add(1) };
    }
}

/// Which page or block a step touched, where a medium of 16 blocks has none such.
fn beyond_16_blocks(outcome: Outcome) -> Option<&'static str> {
    let (touched, cut) = match outcome {
        Outcome::Stepped(step) => (step.touched, false),
        Outcome::Cut { struck: Some(touched), .. } => (touched, true),
        _ => return None,
    };
    match touched {
        Touched::Page(256..) if cut => Some("cut inside a page from 256 on"),
        Touched::Block(16..) if cut => Some("cut inside a block from 16 on"),
        Touched::Page(256..) => Some("page from 256 on"),
        Touched::Block(16..) => Some("block from 16 on"),
        _ => None,
    }
}

/// What must happen in the lists, and how often at least.
#[rustfmt::skip]
const HAPPENINGS: [(usize, &[&str]); 2] = [
    (100, &[
        "append", "commit", "collect", "recover", "format", "read", "step page", "step block",
        "append refused 8", "append refused 12", "append refused 13", "append refused 14",
        "commit refused 8", "collect refused 8", "collect refused 15", "step refused 9",
        "append of several pages", "commit of several pages", "collection of no page",
        "collection of one page", "collection of several pages", "append finished",
        "commit finished", "collection finished", "formatting finished",
        "cut between nothing", "cut inside page", "cut inside page complete",
        "cut inside block", "cut inside append", "cut inside commit", "cut inside collection",
        "cut soon after a cut", "erase before a page", "cut inside the erase before a page",
        "erase before a page, the block being weak", "buffer", "buffer refused 8",
        "buffer refused 12", "buffer refused 13", "buffer refused 23", "flush", "flush finished",
        "flush refused 8", "append refused 24", "commit refused 24", "collect refused 24",
        "cut inside flush", "cut inside flush, complete",
        "valve 0 is set by the rules of before",
    ]),
    (5, &[
        "append refused 10", "append refused 11", "commit refused 13", "commit refused 14",
        "collect refused 13", "collect refused 14", "read refused 17", "read refused 18",
        "read refused 11", "read refused 19", "read refused 20",
        "cut inside formatting", "format while something is pending", "buffer refused 10",
        "buffer refused 11", "buffer refused 14", "flush refused 10",
    ]),
];

#[test]
fn lists_of_calls_and_cuts() {
    let events = variable("JOURNAL_EVENTS").unwrap_or(EVENTS);
    let first = variable("JOURNAL_SEED").unwrap_or(1);
    let (mut counts, start) = (Counts::new(), Instant::now());
    for life in 0..events.div_ceil(LIFE) {
        let blocks = 4 + (first + life) as usize % 13;
        live::<Proved>(first + life, blocks, LIFE.min(events - life * LIFE), &mut counts);
    }
    print_counts(&counts);
    let seconds = start.elapsed().as_secs_f64();
    println!("{events} events in {seconds:.1} s: {:.0} a second", events as f64 / seconds);
    no_step_due_is_refused(&counts);
    for (least, names) in HAPPENINGS.iter().filter(|_| events >= EVENTS) {
        check_counts(&counts, *least, names);
    }
}

/// The yardstick for times says the same: fewer lists on few blocks and on many.
#[test]
fn lists_of_calls_and_cuts_by_the_yardstick() {
    fewer_lists::<Tight>(0);
}

/// And so it does behind the library's interface.
#[test]
fn lists_of_calls_and_cuts_by_the_yardstick_by_value() {
    fewer_lists::<TightByValue>(100);
}

fn fewer_lists<C: Calls<State = VjState>>(first: u64) {
    let mut counts = Counts::new();
    for life in first..first + 40 {
        live::<C>(life, 4 + life as usize % 13, LIFE, &mut counts);
    }
    for blocks in BLOCK_COUNTS {
        (first..first + 4).for_each(|seed| live::<C>(seed, blocks, 400, &mut counts));
    }
    no_step_due_is_refused(&counts);
    check_counts(&counts, 5, MANY);
}

/// Fewer and shorter lists on each of the block counts; most of them begin with
/// a journal that was written for long.
#[test]
fn lists_on_many_blocks() {
    let events = variable("JOURNAL_EVENTS").unwrap_or(EVENTS) / 250;
    let first = variable("JOURNAL_SEED").unwrap_or(1);
    let mut all = Counts::new();
    for blocks in BLOCK_COUNTS {
        let mut counts = Counts::new();
        (first..first + 8).for_each(|seed| live::<Proved>(seed, blocks, events, &mut counts));
        no_step_due_is_refused(&counts);
        // Of 17 blocks only the last is such a block.
        let least = if blocks > 17 { 20 } else { 1 };
        if blocks > 16 && events >= 400 {
            check_counts(&counts, least, &["page from 256 on", "block from 16 on"]);
        }
        counts.into_iter().for_each(|(name, times)| *all.entry(name).or_insert(0) += times);
    }
    print_counts(&all);
    if events >= 400 {
        check_counts(&all, 5, MANY);
    }
}

/// What must happen in the lists on many blocks.
#[rustfmt::skip]
const MANY: &[&str] = &[
    "append finished", "commit finished", "collection finished", "flush finished",
    "formatting finished", "recover", "collection of no page", "collection of several pages",
    "erase before a page", "cut inside the erase before a page", "append refused 13",
    "cut inside a page from 256 on", "cut inside a block from 16 on",
];

fn print_counts(counts: &Counts) {
    for (name, times) in counts {
        println!("{times:7} {name}");
    }
}

/// Each of these happened at least so often.
fn check_counts(counts: &Counts, least: usize, names: &[&str]) {
    for &name in names {
        let times = counts.get(name).copied().unwrap_or(0);
        assert!(times >= least, "{times} times: {name}");
    }
}

/// A step that is due can be made, and what is buffered can be flushed.
fn no_step_due_is_refused(counts: &Counts) {
    for (call, numbers) in [("step", &[6, 7, 14, 16][..]), ("flush", &[7, 11, 12, 13, 14])] {
        for number in numbers {
            let name = format!("{call} refused {number}");
            assert!(!counts.contains_key(&name), "{name}");
        }
    }
}

// ---------------------------------------------------------------------------
// Any medium, any state, any lists

/// What the second implementation says of a state that the library is given,
/// and the state it leaves; one that means nothing is unfit.
fn expected<T>(
    medium: &[u8],
    given: &VjState,
    call: impl FnOnce(&mut State) -> Result<T, Refused>,
) -> (Result<T, Refused>, Option<State>) {
    let mut state = given.meaning();
    let answer = match &mut state {
        Some(state) => call(state),
        None => Err(reader::check_length(medium).err().unwrap_or(Refused(7))),
    };
    (answer, state)
}

/// The state handed back is the one given after a refusal, else the one that
/// the second implementation leaves.
fn check_handed_back(refused: bool, given: &VjState, back: &VjState, left: Option<State>) {
    if refused {
        assert!(back == given, "a refusal hands back the state given");
    } else {
        assert_eq!(back.meaning(), left);
    }
}

/// What came of the calls, by call and number.
struct Answers<C>(BTreeMap<(&'static str, u8), usize>, PhantomData<C>);

impl<C: Calls<State = VjState>> Answers<C> {
    fn note<T>(&mut self, call: &'static str, answer: &Result<T, Refused>) {
        let number = answer.as_ref().err().map_or(0, |refused| refused.0);
        *self.0.entry((call, number)).or_insert(0) += 1;
    }

    /// A call in both, each on lent things of its own: they answer the same and
    /// leave the same. What it leaves and answers if it is accepted.
    fn call<T: PartialEq + Debug>(
        &mut self,
        name: &'static str,
        lent: &Lent,
        proved: impl FnOnce(&mut [u8], &mut VjState, &mut [u8]) -> Result<T, Refused>,
        second: impl FnOnce(&mut [u8], &mut State, &mut [u8]) -> Result<T, Refused>,
    ) -> Option<(Lent, T)> {
        let (mut after, mut other) = (lent.clone(), lent.clone());
        let answer = proved(&mut after.medium, &mut after.state, &mut after.buffer);
        let (expected, left) = expected(&lent.medium, &lent.state, |state| {
            second(&mut other.medium, state, &mut other.buffer)
        });
        assert_eq!(answer, expected, "{name}");
        assert!(after.medium == other.medium, "{name}: the medium");
        assert!(after.buffer == other.buffer, "{name}: the buffer");
        check_handed_back(answer.is_err(), &lent.state, &after.state, left);
        self.note(name, &answer);
        Some((after, answer.ok()?))
    }

    /// A step, in both. What it leaves if it is accepted and not the last.
    fn step(&mut self, lent: &Lent) -> Option<Lent> {
        let (after, step) = self.call("step", lent, C::step, writer::step)?;
        Some(after).filter(|_| !step.finished)
    }

    /// Steps until one is refused or the last, at most twelve.
    fn steps(&mut self, lent: &Lent) {
        let mut next = self.step(lent);
        for _ in 1..12 {
            let Some(lent) = next else { return };
            next = self.step(&lent);
        }
    }

    /// Every call that writes, available pages, the place of a word, and the
    /// group for wanted openings.
    fn all(&mut self, random: &mut Random, lent: &Lent) {
        let formatting = C::format(&lent.medium);
        let expected_format = writer::format(&lent.medium);
        self.note("format", &formatting);
        let meaning = formatting.map(|state| state.meaning().expect("a meaning"));
        assert_eq!(meaning, expected_format);
        let valve = some_valve(random, lent);
        self.call("open", lent, |m, s, _| C::open(m, s, valve), |m, s, _| reader::open(m, s, valve));
        self.call("pick", lent, |m, s, _| C::pick(m, s), |m, s, _| reader::pick(m, s));
        self.read(random, lent);
        self.buffer(random, lent);
        let begun = self.begin(random, lent);
        self.steps(lent);
        for (lent, ()) in begun.iter().flatten().filter(|_| random.one_in(2)) {
            self.steps(lent);
        }
    }

    /// Every call that begins something and takes a state, and the one that names
    /// what to begin.
    fn begin(&mut self, random: &mut Random, lent: &Lent) -> [Option<(Lent, ())>; 4] {
        let (keys, words) = some_lists(random);
        let (lent_keys, lent_words) = (keys.clone(), words.clone());
        let block = some_block(random, &lent.medium, &lent.state);
        let begun = [
            self.call(
                "append",
                lent,
                |m, s, b| C::append(m, s, b, &lent_keys, &lent_words),
                |m, s, b| writer::append(m, s, b, &keys, &words),
            ),
            self.call(
                "commit",
                lent,
                |m, s, b| C::commit(m, s, b),
                |m, s, b| writer::commit(m, s, b),
            ),
            self.call(
                "collect",
                lent,
                |m, s, b| C::collect(m, s, b, block),
                |m, s, b| writer::collect(m, s, b, block),
            ),
            self.call(
                "flush",
                lent,
                |m, s, b| C::flush(m, s, b),
                |m, s, b| writer::flush(m, s, b),
            ),
        ];
        assert!(lent_keys == keys && lent_words == words, "the lists stay");
        self.next(lent, (&keys, &words));
        self.next(lent, (&[5], &[1000]));
        self.next(lent, (&[5; 96], &[1000; 96]));
        begun
    }

    /// What comes next for a group, the log being read or not.
    fn next(&mut self, lent: &Lent, group: (&[u16], &[u64])) {
        for read in [false, true] {
            self.call(
                "next",
                lent,
                |m, s, b| proved::next_operation(m, s, b, group, read),
                |m, s, b| next_operation(m, s, b, group, read),
            );
        }
    }

    /// Groups put into the buffer, mostly small ones, until one is refused.
    fn buffer(&mut self, random: &mut Random, lent: &Lent) {
        let mut next = Some((lent.clone(), ()));
        for _ in 0..6 {
            let Some((lent, ())) = next else { return };
            let (mut keys, mut words) = some_lists(random);
            let most = if random.one_in(2) { random.from_to(1, 6) } else { keys.len() };
            keys.truncate(most);
            words.truncate(most);
            next = self.call(
                "buffer",
                &lent,
                |m, s, b| C::buffer(m, s, b, &keys, &words),
                |m, s, b| writer::buffer(m, s, b, &keys, &words),
            );
        }
    }

    /// Available pages, the places of some words, and the group for wanted
    /// openings.
    fn read(&mut self, random: &mut Random, lent: &Lent) {
        self.call(
            "available",
            lent,
            |m, s, _| C::count_available(m, s),
            |m, s, _| reader::count_available(m, s),
        );
        for _ in 0..3 {
            let valve = some_valve(random, lent);
            self.call(
                "word",
                lent,
                |m, s, b| C::word_at(m, s, b, valve),
                |m, s, b| reader::word_at(m, s, b, valve),
            );
        }
        let state = lent.state.meaning().filter(|state| state.index.len() <= 192);
        let state = state.unwrap_or_else(|| State::at_format(4));
        let records = random::some_records(random, &lent.medium, &state);
        let lent_records = records.clone();
        let wanted = self.call(
            "wanted",
            lent,
            |m, s, _| C::wanted(m, s, &lent_records),
            |m, s, _| reader::wanted(m, s, &records),
        );
        assert!(lent_records == records, "the records stay");
        if let Some((_, None)) = wanted {
            self.note("wanted, none", &Ok(()));
        }
    }
}

/// What is lent to a call: a medium, a state and a buffer that may be anything.
#[derive(Clone)]
struct Lent {
    medium: Vec<u8>,
    state: VjState,
    buffer: Vec<u8>,
}

/// Mostly a valve that the buffer or the index names.
fn some_valve(random: &mut Random, lent: &Lent) -> u16 {
    let places = lent.state.meaning().map_or(Vec::new(), |state| state.index);
    let entries = reader::buffered(&lent.buffer).unwrap_or_default();
    match random.below(4) {
        0 | 1 if !places.is_empty() => random.one_of(&places).valve,
        0..=2 if !entries.is_empty() => random.one_of(&entries).key & !REMOVAL,
        _ => random.bits() as u16,
    }
}

/// Two lists for an append, mostly of one length, of entries mostly lawful.
fn some_lists(random: &mut Random) -> (Vec<u16>, Vec<u64>) {
    let lengths = [0, 1, 2, 23, 24, 25, 48, 72, 73, 95, 96, 97, 98, 192, 193, 4096];
    let length = if random.one_in(2) { random.from_to(1, 96) } else { random.one_of(&lengths) };
    let valves = random.one_of(&[30, 200, 32768]);
    let least = usize::from(!random.one_in(8));
    let mut keys: Vec<u16> =
        (0..length).map(|_| random.from_to(least, valves - 1) as u16).collect();
    let mut words: Vec<u64> = (0..length).map(|_| random.word()).collect();
    for (key, word) in keys.iter_mut().zip(&mut words) {
        if random.one_in(5) {
            *key += REMOVAL;
            *word = 0;
        }
    }
    match random.below(12) {
        0 => keys.push(5),
        1 => words.push(5),
        2 => words.truncate(length / 2),
        3 => keys.extend([32773; 3]),
        4 if length > 0 => keys[random.below(length)] |= REMOVAL,
        _ => {}
    }
    (keys, words)
}

/// Mostly a collectible block, if there is one, with many live nodes; or any
/// number.
fn some_block(random: &mut Random, medium: &[u8], given: &VjState) -> usize {
    let state = given.meaning().filter(|state| reader::check_state(medium, state).is_ok());
    let most_live = state.and_then(|state| {
        let collectible = |block: &usize| reader::collectible(medium, &state, *block);
        (0..state.blocks).filter(collectible).max_by_key(|&block| reader::live_count(&state, block))
    });
    match most_live {
        Some(block) if !random.one_in(3) => block,
        _ if random.one_in(8) => random.one_of(&[16, 255, 256, 1 << 32, usize::MAX]),
        _ => random.below(medium.len() / BLOCK_BYTES + 1),
    }
}

/// Brings a life to a commit, and half of the time on to a collection.
fn towards_a_collection(random: &mut Random, life: &mut Life) {
    if life.state.is_none() {
        life.act(&Action::Recover);
    }
    steps_of(life, 20);
    life.act(&Action::Commit);
    steps_of(life, 20);
    let picked = life.state.as_ref().and_then(|state| reader::pick(&life.medium, state).ok()?);
    if let Some(block) = picked.filter(|_| random.one_in(2)) {
        life.act(&Action::Collect { block });
        steps_of(life, random.below(3));
    }
}

/// So many steps, or until nothing is pending.
fn steps_of(life: &mut Life, most: usize) {
    for _ in 0..most {
        if pending_name(life.state.as_ref()) == "nothing" {
            return;
        }
        life.act(&Action::Step);
    }
}

/// A medium and a state of its own that may have been changed in many ways, and
/// a buffer: that of the life or any.
fn some_variant(random: &mut Random, life: &Life) -> Lent {
    let mut medium = life.medium.clone();
    let blocks = medium.len() / BLOCK_BYTES;
    let mut state = match (&life.state, reader::recover(&medium)) {
        (Some(state), _) if !random.one_in(4) => state.clone(),
        (_, Ok(state)) => state,
        _ => State::at_format(blocks),
    };
    for _ in 0..random.below(4) {
        match random.below(6) {
            0 => crowd(random, &mut medium, &mut state),
            1 => spoil_a_node(random, &mut medium, &state),
            4 if !state.index.is_empty() => {
                // Two valves of one address: at most one has its node there.
                let at = random.below(state.index.len());
                state.index[at].address = random.one_of(&state.index).address;
            }
            2 => state.next_serial = u64::MAX - random.below(5) as u64,
            3 => random::damage_state(random, &mut state),
            _ if medium.len() >= PAGE_BYTES => random::damage(random, &mut medium),
            _ => {}
        }
    }
    let mut state = VjState::from(&state);
    if random.one_in(2) {
        fill_idle_places(random, &mut state);
    }
    if random.one_in(4) {
        damage_fields(random, &mut state);
    }
    let kept = random.one_in(2);
    let buffer = if kept { life.buffer.to_vec() } else { random::some_buffer(random) };
    Lent { medium, state, buffer }
}

/// Makes most clean blocks unclean, so that few pages are available, and
/// mostly leaves few in the head.
fn crowd(random: &mut Random, medium: &mut [u8], state: &mut State) {
    for block in medium.chunks_exact_mut(BLOCK_BYTES) {
        if block.iter().all(|&byte| byte == 0xFF) && !random.one_in(8) {
            block[random.below(BLOCK_BYTES)] = random.bits() as u8;
        }
    }
    if !random.one_in(4) {
        state.next_page = random.from_to(14, 16);
    }
}

/// Turns a bit in a page that holds a live node.
fn spoil_a_node(random: &mut Random, medium: &mut [u8], state: &State) {
    if state.index.is_empty() {
        return;
    }
    let page = random.one_of(&state.index).address as usize / 24;
    let at = page * PAGE_BYTES + random.below(PAGE_BYTES);
    if let Some(byte) = medium.get_mut(at) {
        *byte ^= 1 << random.below(8);
    }
}

/// A number near an end of what a field may hold, or any.
fn some_number(random: &mut Random) -> u64 {
    match random.below(3) {
        0 => random.below(20) as u64,
        1 => random.one_of(&[23, 96, 97, 192, 193, 256, 1 << 16, 1 << 32, 1 << 60, u64::MAX]),
        _ => random.bits(),
    }
}

/// Fills the places from one on by chance.
fn fill_cells(random: &mut Random, cells: &mut VjCells, from: usize) {
    for i in from..192 {
        (cells.keys[i], cells.vals[i]) = (random.bits() as u16, random.bits());
    }
}

/// Fills the places that mean nothing: the state means what it did.
fn fill_idle_places(random: &mut Random, state: &mut VjState) {
    let meaning = state.meaning();
    let used = state.index.count.min(192);
    fill_cells(random, &mut state.index, used);
    if state.operation == proved::APPEND {
        let used = state.group.count.min(192);
        fill_cells(random, &mut state.group, used);
        let written = (state.progress as usize).min(4);
        state.pages[written..].fill(random.bits() as u16);
    } else {
        fill_cells(random, &mut state.group, 0);
        state.group.count = some_number(random) as usize;
        state.pages = std::array::from_fn(|_| random.bits() as u16);
    }
    if matches!(state.operation, proved::IDLE | proved::FLUSH) {
        state.progress = some_number(random);
    }
    for number in state.erased.iter_mut().filter(|number| **number != 1) {
        *number = random.one_of(&[0, 2, 128, 255]);
    }
    assert_eq!(state.meaning(), meaning);
}

/// Changes fields of a state as the library has it, one or all.
fn damage_fields(random: &mut Random, state: &mut VjState) {
    match random.below(9) {
        0 => state.operation = random.from_to(6, 255) as u8,
        1 => state.operation = random.below(6) as u8,
        2 => state.index.count = random.one_of(&[193, 194, 1 << 32, usize::MAX]),
        3 => state.group.count = some_number(random) as usize,
        4 | 5 => state.progress = some_number(random),
        6 => state.pages = std::array::from_fn(|_| random.bits() as u16),
        7 => random.fill(&mut state.erased),
        _ => {
            let blocks = state.head.blocks;
            *state = any_state(random);
            if random.one_in(2) {
                state.head.blocks = blocks;
            }
        }
    }
}

/// A state with every field by chance.
fn any_state(random: &mut Random) -> VjState {
    let mut state = VjState::from(&State::at_format(some_blocks(random)));
    state.head.blocks = some_number(random) as usize;
    state.head.block = some_number(random) as usize;
    state.head.next = some_number(random) as usize;
    state.head.serial = some_number(random);
    state.head.base = some_number(random);
    fill_cells(random, &mut state.index, 0);
    fill_cells(random, &mut state.group, 0);
    state.index.count = some_number(random) as usize;
    state.group.count = some_number(random) as usize;
    state.pages = std::array::from_fn(|_| random.bits() as u16);
    state.operation = random.below(8) as u8;
    state.progress = some_number(random);
    random.fill(&mut state.erased);
    state
}

/// Bytes of any length, mostly an allowed one, all of one value or by chance.
fn any_bytes(random: &mut Random) -> Vec<u8> {
    let length = match random.below(4) {
        0 => random.below(70_000),
        1 => random.one_of(&[0, 1, 256, 4096, 12288, 16383, 16385, 65537, 1048577, 1052672]),
        _ => some_blocks(random) * BLOCK_BYTES,
    };
    let mut bytes = vec![random.one_of(&[0, 0xFF]); length];
    if random.one_in(2) {
        random.fill(&mut bytes);
    }
    bytes
}

/// The numbers that each call may answer, 0 being no refusal.
const NUMBERS: [(&str, &[u8]); 14] = [
    ("format", &[0, 1]),
    ("append", &[0, 1, 7, 8, 24, 10, 11, 12, 13, 14]),
    ("commit", &[0, 1, 7, 8, 24, 13, 14]),
    ("collect", &[0, 1, 7, 8, 24, 15, 6, 13, 14]),
    ("next", &[0, 1, 7, 8, 24, 10, 11, 12, 13, 14, 15, 6]),
    ("buffer", &[0, 1, 7, 8, 10, 11, 12, 23, 13, 14]),
    ("flush", &[0, 1, 7, 8, 10, 11, 12, 13, 14]),
    ("step", &[0, 1, 7, 9, 6, 14, 16]),
    ("word", &[0, 1, 7, 18, 6]),
    ("available", &[0, 1, 7]),
    ("open", &[0, 1, 7, 18, 6]),
    ("pick", &[0, 1, 7]),
    ("wanted", &[0, 1, 7, 19, 20, 6, 11]),
    ("wanted, none", &[0]),
];

#[test]
fn any_medium_any_state_and_any_lists() {
    any_of_all::<Proved>();
}

/// The yardstick for times says the same of them.
#[test]
fn any_medium_any_state_and_any_lists_by_the_yardstick() {
    any_of_all::<Tight>();
}

/// And so it does behind the library's interface.
#[test]
fn any_medium_any_state_and_any_lists_by_the_yardstick_by_value() {
    any_of_all::<TightByValue>();
}

fn any_of_all<C: Calls<State = VjState>>() {
    let first = variable("JOURNAL_SEED").unwrap_or(1);
    let mut answers = Answers::<C>(BTreeMap::new(), PhantomData);
    for seed in first..first + 400 {
        let _seed = Seed(seed);
        let mut random = Random::new(!seed);
        let events = random.below(400);
        let mut life = random::lived(&mut random, events);
        if random.one_in(2) {
            towards_a_collection(&mut random, &mut life);
        }
        let many = life.medium.len() > 16 * BLOCK_BYTES;
        for _ in 0..if many { 8 } else { 30 } {
            let lent = some_variant(&mut random, &life);
            answers.all(&mut random, &lent);
        }
        let medium = any_bytes(&mut random);
        for state in [any_state(&mut random), VjState::from(&State::at_format(4))] {
            let buffer = random::some_buffer(&mut random);
            answers.all(&mut random, &Lent { medium: medium.clone(), state, buffer });
        }
    }
    println!("{:?}", answers.0);
    for ((call, number), times) in &answers.0 {
        let numbers = NUMBERS.iter().find(|(name, _)| name == call).expect("a call").1;
        assert!(numbers.contains(number), "{call} answers {number}, {times} times");
    }
    for (call, numbers) in NUMBERS {
        for &number in numbers {
            let times = answers.0.get(&(call, number)).copied().unwrap_or(0);
            assert!(times >= 20, "{call} answers {number} only {times} times");
        }
    }
}
