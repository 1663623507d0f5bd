//! The time of the proved library over that of the second implementation, and for
//! the calls of every day over that of the tight one, on media of 16 and of 256
//! blocks; the tight one behind the library's interface, the state by value, and
//! changing the state in place. All make the same calls in turn in one process,
//! each call with all its checks; the least of many times counts.
//!
//!     cargo bench --offline --manifest-path tests/Cargo.toml
//!     cargo bench --offline --manifest-path tests/Cargo.toml --bench journal -- everyday

use journal_tests::calls::{Calls, Proved, Second, Tight, TightByValue, EMPTY};
use journal_tests::dispatcher::{next_operation, Operation};
use journal_tests::effects::{self, Effect};
use journal_tests::grown::shuffle_blocks;
use journal_tests::logs;
use journal_tests::mattered::mattered_into;
use journal_tests::proved;
use journal_tests::random::{Life, Random};
use journal_tests::reader::{self, Place, Record, Refused, BLOCK_BYTES, BLOCK_PAGES};
use journal_tests::valve_journal;
use journal_tests::writer::{self, State};
use std::hint::black_box;
use std::time::{Duration, Instant};

/// What a run is given: a medium, a state, lists that its log fits in, and wanted
/// records, of which every second differs from what is set.
struct Lent<C: Calls> {
    medium: Vec<u8>,
    state: C::State,
    records: Vec<Record>,
    keys: Vec<u16>,
    words: Vec<u64>,
    groups: Vec<u32>,
}

/// Keys and words of a group.
type Lists<'a> = (&'a [u16], &'a [u64]);

// ---------------------------------------------------------------------------
// What is timed

/// Recovery alone.
fn recovery<C: Calls>(lent: &mut Lent<C>) {
    assert!(black_box(C::recover(black_box(&lent.medium))).is_ok());
}

/// The log into three lists.
fn log<C: Calls>(lent: &mut Lent<C>) {
    let Lent { medium, keys, words, groups, .. } = lent;
    black_box(C::log_into(medium, keys, words, groups).expect("the log"));
}

/// The log change by change, with no list: the proved library's reader.
fn change_by_change(lent: &mut Lent<Proved>) {
    let changes = valve_journal::changes(&lent.medium).expect("the log");
    assert!(changes.map(black_box).count() > 0);
}

/// The effect of a span of the log, by the call of one of both.
fn effect<C: Calls>(
    call: impl Fn(&[u8], usize, usize) -> Result<Effect, Refused>,
    (first, second): (usize, usize),
) -> impl Fn(&mut Lent<C>) {
    move |lent| drop(black_box(call(&lent.medium, first, second).expect("an effect")))
}

/// The groups that mattered, by the call of one of both.
fn mattered<C: Calls>(
    call: impl Fn(&[u8], &mut [u32]) -> Result<usize, Refused>,
) -> impl Fn(&mut Lent<C>) {
    move |lent| assert!(black_box(call(&lent.medium, &mut lent.groups)).is_ok())
}

/// What comes next, by the call of one of both, where a group of 24 is offered and
/// the log has been read.
fn next<C: Calls>(
    call: impl Fn(&[u8], &C::State, &[u8], Lists, bool) -> Result<Operation, Refused>,
) -> impl Fn(&mut Lent<C>) {
    move |lent| {
        let (keys, words) = some_group::<24>(0);
        let named = call(&lent.medium, &lent.state, &EMPTY, (&keys, &words), true);
        assert!(black_box(named).is_ok());
    }
}

/// A morning: recovery, the log into three lists, a commit to its end.
fn morning<C: Calls>(lent: &mut Lent<C>) {
    lent.state = C::recover(&lent.medium).expect("recovery");
    log(lent);
    commit(lent);
}

/// A commit to its end.
fn commit<C: Calls>(lent: &mut Lent<C>) {
    C::commit(&lent.medium, &mut lent.state, &EMPTY).expect("commit");
    C::finish_unbuffered(&mut lent.medium, &mut lent.state);
}

/// One group of so many entries to its end.
fn append<C: Calls, const ENTRIES: usize>(lent: &mut Lent<C>) {
    let (keys, words) = some_group::<ENTRIES>(0);
    C::append(&lent.medium, &mut lent.state, &EMPTY, &keys, &words).expect("append");
    C::finish_unbuffered(&mut lent.medium, &mut lent.state);
}

/// Groups of so many entries, until one is refused.
fn appends<C: Calls, const ENTRIES: usize>(lent: &mut Lent<C>) {
    let (medium, state) = (&mut lent.medium, &mut lent.state);
    for group in 0.. {
        let (keys, words) = some_group::<ENTRIES>(group);
        if let Err(refused) = C::append(medium, state, &EMPTY, &keys, &words) {
            let pages = (medium.len() / 256 - 17) / ENTRIES.div_ceil(24);
            assert_eq!((refused, group), (Refused(13), pages));
            return;
        }
        C::finish_unbuffered(medium, state);
    }
}

/// Single moves put into the buffer, which is flushed where it is full, until
/// one is refused by 13.
fn gathered<C: Calls>(lent: &mut Lent<C>) {
    let (medium, state, mut buffer) = (&mut lent.medium, &mut lent.state, EMPTY);
    for group in 0.. {
        let (keys, words) = some_group::<1>(group);
        let mut result = C::buffer(medium, state, &mut buffer, &keys, &words);
        if result == Err(Refused(23)) {
            C::flush(medium, state, &buffer).expect("flush");
            C::finish(medium, state, &mut buffer);
            result = C::buffer(medium, state, &mut buffer, &keys, &words);
        }
        if let Err(refused) = result {
            assert_eq!((refused, group), (Refused(13), (medium.len() / 256 - 17) * 16));
            return;
        }
    }
}

/// A collection of the picker's block to its end.
fn collection<C: Calls>(lent: &mut Lent<C>) {
    let block = C::pick(&lent.medium, &lent.state).expect("a fit state").expect("a block");
    C::collect(&lent.medium, &mut lent.state, &EMPTY, block).expect("collect");
    C::finish_unbuffered(&mut lent.medium, &mut lent.state);
}

/// The openings of 24 valves: those of the first group.
fn openings<C: Calls>(lent: &mut Lent<C>) {
    for key in some_group::<24>(0).0 {
        black_box(C::open(&lent.medium, &lent.state, key)).expect("an opening");
    }
}

/// A hundred commits that are refused at once, by the length of the medium: what is
/// left of their time is the state handed over and back.
fn refusals<C: Calls>(lent: &mut Lent<C>) {
    for _ in 0..100 {
        let refused = C::commit(black_box(&[]), &mut lent.state, &EMPTY);
        assert_eq!(black_box(refused), Err(Refused(1)));
    }
}

/// The group for wanted openings, half of which differ.
fn wanted<C: Calls>(lent: &mut Lent<C>) {
    let group = C::wanted(&lent.medium, &lent.state, &lent.records).expect("an accepted call");
    assert_eq!(black_box(group).map(|group| group.len()), Some(lent.records.len() / 2));
}

/// The keys and words of the n-th group.
fn some_group<const ENTRIES: usize>(group: usize) -> ([u16; ENTRIES], [u64; ENTRIES]) {
    let key = |entry: usize| (1 + (7 * group + 5 * entry) % 180) as u16;
    let word = |entry: usize| (1000 * group + entry) as u64;
    (std::array::from_fn(key), std::array::from_fn(word))
}

// ---------------------------------------------------------------------------
// Media, written by the second implementation

/// A medium and its state.
type Journal = (Vec<u8>, State);

fn formatted(blocks: usize) -> Journal {
    let mut medium = vec![0xFF; blocks * BLOCK_BYTES];
    let mut state = writer::format(&medium).expect("format");
    Second::finish_unbuffered(&mut medium, &mut state);
    (medium, state)
}

/// So many groups of 24 entries after formatting, or as many as pass.
fn grown(blocks: usize, groups: usize) -> Journal {
    let (mut medium, mut state) = formatted(blocks);
    for group in 0..groups {
        let (keys, words) = some_group::<24>(group);
        if Second::append(&medium, &mut state, &EMPTY, &keys, &words).is_err() {
            break;
        }
        Second::finish_unbuffered(&mut medium, &mut state);
    }
    (medium, state)
}

/// Groups of 24 until 13.
fn full(blocks: usize) -> Journal {
    grown(blocks, usize::MAX)
}

/// The same but for the last group: one more passes.
fn almost_full(blocks: usize) -> Journal {
    grown(blocks, 16 * blocks - 18)
}

/// 192 valves set in two groups, and pages behind them.
fn all_valves(blocks: usize) -> Journal {
    let (mut medium, mut state) = formatted(blocks);
    for first in [1, 97] {
        let (keys, words): (Vec<u16>, Vec<u64>) =
            (first..first + 96).map(|valve: u16| (valve, 1000 + u64::from(valve))).unzip();
        Second::append(&medium, &mut state, &EMPTY, &keys, &words).expect("append");
        Second::finish_unbuffered(&mut medium, &mut state);
    }
    assert_eq!(state.index.len(), 192);
    (medium, state)
}

/// The same journal with its blocks in any order.
fn shuffled((medium, state): Journal) -> Journal {
    let mut random = Random::new(7);
    let mut life = Life::blank(&mut random, state.blocks);
    (life.medium, life.state) = (medium, Some(state));
    shuffle_blocks(&mut random, &mut life);
    (life.medium, life.state.expect("a state"))
}

/// Single moves gathered and flushed after formatting, as many as pass.
fn gathered_full(blocks: usize) -> Journal {
    let mut lent = lend::<Second>(&formatted(blocks));
    gathered(&mut lent);
    recovered(lent.medium)
}

/// The head closed and a commit behind it, then collections till the picker's
/// block has nodes to move.
fn collectible((medium, state): Journal) -> Journal {
    let closed = State { next_page: BLOCK_PAGES, ..state };
    let mut lent = lend::<Second>(&(medium, closed));
    commit(&mut lent);
    loop {
        let picked = reader::pick(&lent.medium, &lent.state).expect("a fit state");
        if reader::live_count(&lent.state, picked.expect("a block")) > 0 {
            return (lent.medium, lent.state);
        }
        collection(&mut lent);
    }
}

/// A medium with the state that recovery gives.
fn recovered(medium: Vec<u8>) -> Journal {
    let state = reader::recover(&medium).expect("recovery");
    (medium, state)
}

// ---------------------------------------------------------------------------
// Times

/// A copy of the journal, and lists as long as its log can be.
fn lend<C: Calls>(journal: &Journal) -> Lent<C> {
    let ((medium, state), records) = (journal, half_differ(journal));
    let (medium, state, most) = (medium.clone(), C::of(state), reader::most_changes(medium));
    let (keys, words, groups) = (vec![1; most], vec![1; most], vec![1; most]);
    Lent { medium, state, records, keys, words, groups }
}

/// The settings as records, every second with another word.
fn half_differ((medium, state): &Journal) -> Vec<Record> {
    let places = state.index.iter().enumerate();
    let record = |(nth, &place): (usize, &Place)| {
        let word = reader::node(medium, place).expect("a node") + (nth % 2) as u64;
        Record { valve: place.valve, word }
    };
    places.map(record).collect()
}

/// The time of one run on a fresh medium and state, after a run on another copy: a
/// copy of a large medium fills the caches, and that is not to be timed.
fn time<C: Calls>(journal: &Journal, run: impl Fn(&mut Lent<C>)) -> Duration {
    let (mut before, mut lent) = (lend(journal), lend(journal));
    run(&mut before);
    let start = Instant::now();
    run(&mut lent);
    start.elapsed()
}

/// The least time of each, run in turn for some seconds, at least 5 times.
fn least<const N: usize>(runs: [&dyn Fn() -> Duration; N]) -> [f64; N] {
    let (mut least, start, mut turns) = ([Duration::MAX; N], Instant::now(), 0);
    while turns < 5 || start.elapsed() < Duration::from_secs(2) {
        for (least, run) in least.iter_mut().zip(runs) {
            *least = run().min(*least);
        }
        turns += 1;
    }
    least.map(micros)
}

/// Prints the least time of the proved library and of the second implementation,
/// and their ratio.
fn compare(
    name: &str,
    journal: &Journal,
    proved: impl Fn(&mut Lent<Proved>),
    second: impl Fn(&mut Lent<Second>),
) {
    let (proved, second) = (|| time(journal, &proved), || time(journal, &second));
    let [proved, second] = least([&proved, &second]);
    let ratio = proved / second;
    println!("{name}: proved {proved:.1} µs, second {second:.1} µs, ratio {ratio:.2}");
}

/// Prints the least time of the proved library and of the tight one, by value and in
/// place, and the ratio to each.
fn compare_tight(
    name: &str,
    journal: &Journal,
    proved: impl Fn(&mut Lent<Proved>),
    by_value: impl Fn(&mut Lent<TightByValue>),
    in_place: impl Fn(&mut Lent<Tight>),
) {
    let (proved, by_value) = (|| time(journal, &proved), || time(journal, &by_value));
    let in_place = || time(journal, &in_place);
    let [proved, by_value, in_place] = least([&proved, &by_value, &in_place]);
    println!(
        "everyday, {name}: proved {proved:.1} µs, tight by value {by_value:.1} µs (ratio {:.2}), \
         tight in place {in_place:.1} µs (ratio {:.2})",
        proved / by_value,
        proved / in_place
    );
}

fn micros(time: Duration) -> f64 {
    time.as_secs_f64() * 1e6
}

/// The same calls of both.
macro_rules! compare {
    ($name:expr, $journal:expr, $run:ident $(, $entries:expr)?) => {
        compare($name, $journal, $run::<Proved $(, $entries)?>, $run::<Second $(, $entries)?>)
    };
}

/// The same calls of the proved library and of the tight one.
macro_rules! compare_tight {
    ($name:expr, $journal:expr, $run:ident $(, $entries:expr)?) => {
        let by_value = $run::<TightByValue $(, $entries)?>;
        let in_place = $run::<Tight $(, $entries)?>;
        compare_tight($name, $journal, $run::<Proved $(, $entries)?>, by_value, in_place)
    };
}

/// The log change by change beside the second implementation's lists.
fn compare_log(name: &str, journal: &Journal) {
    let name = format!("{name}, the log, change by change");
    compare(&name, journal, change_by_change, log::<Second>);
}

fn main() {
    everyday();
    if std::env::args().any(|argument| argument == "everyday") {
        return;
    }
    sixteen_blocks();
    for (name, journal) in [
        ("full", full(256)),
        ("full, blocks in any order", shuffled(full(256))),
        ("mostly clean", grown(256, 8)),
    ] {
        compare!(&format!("256 blocks, recovery, {name}"), &journal, recovery);
        compare!(&format!("256 blocks, the log, {name}"), &journal, log);
        compare_log(&format!("256 blocks, {name}"), &journal);
        compare!(&format!("256 blocks, 24 openings, {name}"), &journal, openings);
        compare!(&format!("256 blocks, a commit, {name}"), &journal, commit);
    }
    let name = "256 blocks, wanted, 192 valves of which 96 differ";
    compare!(name, &all_valves(256), wanted);
    let journal = gathered_full(256);
    compare!("256 blocks, the log, full of single moves gathered", &journal, log);
    compare_log("256 blocks, full of single moves gathered", &journal);
    for (name, journal) in [
        ("almost full", almost_full(256)),
        ("almost full, blocks in any order", shuffled(almost_full(256))),
        ("mostly clean", grown(256, 24)),
    ] {
        compare!(&format!("256 blocks, a group of 24, {name}"), &journal, append, 24);
        let journal = collectible(journal);
        compare!(&format!("256 blocks, pick and collect, {name}"), &journal, collection);
    }
    compare!("256 blocks, groups of 24 until 13", &formatted(256), appends, 24);
    for (name, journal) in [("almost full", almost_full(256)), ("full", full(256))] {
        let (proved, second) = (next(proved::next_operation), next::<Second>(next_operation));
        let name = format!("256 blocks, what comes next, {name}");
        compare(&name, &journal, proved, second);
    }
    largest_logs();
}

/// The readings of the largest logs, beside recovery of the same medium.
fn largest_logs() {
    for made in logs::large() {
        let (n, name) = (made.log.len(), format!("256 blocks, {}", made.name));
        let journal = recovered(made.medium);
        compare!(&format!("{name}, recovery"), &journal, recovery);
        compare_log(&name, &journal);
        for (what, span) in [("all groups", (0, n)), ("the second half", (n / 2, n))] {
            let proved = effect(proved::effect, span);
            let second = effect::<Second>(effects::effect, span);
            compare(&format!("{name}, the effect of {what}"), &journal, proved, second);
        }
        let proved = mattered(proved::mattered_into);
        let second = mattered::<Second>(mattered_into);
        compare(&format!("{name}, which groups mattered"), &journal, proved, second);
    }
}

/// The calls of every day against the tight writer.
fn everyday() {
    let blank = formatted(16);
    compare_tight!("groups of 2 until 13", &blank, appends, 2);
    compare_tight!("groups of 24 until 13", &blank, appends, 24);
    compare_tight!("groups of 96 until 13", &blank, appends, 96);
    let name = "3824 single moves on 239 pages, gathered and flushed until 13";
    compare_tight!(name, &blank, gathered);
    let journal = full(16);
    compare_tight!("100 commits refused by 1", &journal, refusals);
    compare_tight!("24 openings, full", &journal, openings);
    compare_tight!("a commit, full", &journal, commit);
    compare_tight!("pick and collect", &collectible(grown(16, 15)), collection);
    let blank = formatted(256);
    compare_tight!("256 blocks, groups of 2 until 13", &blank, appends, 2);
    compare_tight!("256 blocks, groups of 24 until 13", &blank, appends, 24);
    for (name, journal) in [("almost full", almost_full(256)), ("mostly clean", grown(256, 24))] {
        let name = format!("256 blocks, {name}");
        compare_tight!(&format!("{name}, a group of 2"), &journal, append, 2);
        compare_tight!(&format!("{name}, a group of 24"), &journal, append, 24);
        compare_tight!(&format!("{name}, 24 openings"), &journal, openings);
        compare_tight!(&format!("{name}, a commit"), &journal, commit);
        compare_tight!(&format!("{name}, pick and collect"), &collectible(journal), collection);
    }
    compare_tight!("a morning", &grown(16, 100), morning);
    for blocks in [16, 256] {
        let name = format!("{blocks} blocks, the log");
        compare_tight!(&format!("{name}, full of groups of 24"), &full(blocks), log);
        let journal = gathered_full(blocks);
        compare_tight!(&format!("{name}, full of single moves gathered"), &journal, log);
        compare_tight!(&format!("{name}, mostly clean"), &grown(blocks, 8), log);
    }
}

fn sixteen_blocks() {
    let journal = full(16);
    compare!("recovery, full", &journal, recovery);
    compare!("recovery, mostly clean", &grown(16, 8), recovery);
    compare!("the log, full", &journal, log);
    compare_log("full", &journal);
    compare!("the log, full of single moves gathered", &gathered_full(16), log);
    compare!("a morning", &grown(16, 100), morning);
    let formatted = formatted(16);
    compare!("groups of 24 until 13", &formatted, appends, 24);
    compare!("groups of 2 until 13", &formatted, appends, 2);
    compare!("239 single moves on 239 pages, appended until 13", &formatted, appends, 1);
    let name = "3824 single moves on 239 pages, gathered and flushed until 13";
    compare!(name, &formatted, gathered);
    compare!("a collection", &collectible(grown(16, 15)), collection);
    compare!("wanted, 192 valves of which 96 differ", &all_valves(16), wanted);
}
