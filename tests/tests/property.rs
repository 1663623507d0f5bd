//! Point 3: after every event recovery is accepted, and its log with the
//! groups' numbers and its settings are those of the plain history.

mod common;

use common::*;
use journal_tests::grown::BLOCK_COUNTS;
use journal_tests::history::History;
use journal_tests::random::{self, Life, Random};
use journal_tests::reader::*;
use journal_tests::writer::State;
use std::collections::BTreeMap;

/// What must hold after every event, once formatting is finished.
fn check(life: &Life) {
    let Some(history) = &life.history else { return };
    let replay = replay(&life.medium).expect("recovery is accepted");
    assert_eq!(replay.log(), history.log());
    assert!(replay.changes().eq(numbered(history.log())), "the groups' numbers");
    assert_eq!(replay.settings(), history.settings());
    if let Some(state) = &life.state {
        check_state_kept(&life.medium, state, &replay.state);
        check_buffer(life, state, history);
    }
}

/// The buffer holds the history's buffered groups, and each valve that the
/// index or the buffer names has the word of the settings with these laid on.
fn check_buffer(life: &Life, state: &State, history: &History) {
    let (medium, buffer) = (&life.medium, &life.buffer);
    let entries = check_lent(medium, state, buffer).expect("a fit state and buffer");
    assert_eq!(entries, history.buffered().concat());
    if !entries.is_empty() {
        let page = Page::from_bytes(buffer).expect("a page");
        assert_eq!(page.groups(), history.buffered());
    }
    let settings = history.with_buffered();
    let named = entries.iter().map(|entry| entry.valve());
    for valve in named.chain(state.index.iter().map(|place| place.valve)).take(40) {
        let word = word_at(medium, state, buffer, valve).map(|at| at.read(medium, buffer));
        assert_eq!(word, settings.get(&valve).copied().ok_or(Refused(18)));
    }
}

/// The state at hand is the one recovery gives, but for the next page, what is
/// pending and the records of erased blocks; and it is fit.
fn check_state_kept(medium: &[u8], state: &State, recovered: &State) {
    assert!(fit(medium, state));
    let mut closed = state.clone();
    closed.next_page = BLOCK_PAGES;
    closed.pending = None;
    closed.erased = recovered.erased;
    assert_eq!(&closed, recovered);
}

/// Runs lives on so many blocks, each with so many events; how often each thing
/// happened.
fn run(seed: u64, lives: impl Iterator<Item = (usize, usize)>) -> BTreeMap<String, usize> {
    let mut random = Random::new(seed);
    let mut happened = BTreeMap::new();
    for (blocks, events) in lives {
        let mut life = Life::on(&mut random, blocks);
        for _ in 0..events {
            if random.one_in(60) && life.set_valve_0(random.word()) {
                *happened.entry("valve 0 is set".to_string()).or_insert(0) += 1;
            }
            let action = life.next_action(&mut random);
            let given = Given::to(&life);
            let outcome = life.act(&action);
            check(&life);
            let more = circumstances(&given, &action, outcome);
            for name in more.into_iter().chain([happening(&action, outcome)]) {
                *happened.entry(name).or_insert(0) += 1;
            }
        }
    }
    happened
}

/// What must happen often: erases before a first page, made and cut; flushes,
/// made and cut both ways; refusals for what the buffer holds; and valve 0 set by
/// the rules of before.
#[rustfmt::skip]
const OFTEN: [&str; 13] = [
    "erase before a page", "erase before a page, the block being weak",
    "cut inside the erase before a page", "buffer", "flush", "flush finished",
    "cut inside flush", "cut inside flush, complete", "buffer refused 23",
    "append refused 24", "commit refused 24", "collect refused 24", "valve 0 is set",
];

#[test]
fn log_and_settings_are_the_history() {
    let few = (4..=16).cycle().take(150).map(|blocks| (blocks, 1000));
    let many = BLOCK_COUNTS.into_iter().cycle().take(28).map(|blocks| (blocks, 250));
    let happened = run(3, few.chain(many));
    for (name, times) in &happened {
        println!("{times:7} {name}");
    }
    let all = [
        "append", "commit", "collect", "recover", "format", "read",
        "step page", "step block", "cut between nothing",
        "cut inside page", "cut inside page complete", "cut inside block",
        "append refused 8", "append refused 10", "append refused 11",
        "append refused 12", "append refused 13", "commit refused 8",
        "commit refused 13", "collect refused 8", "collect refused 13",
        "collect refused 15", "step refused 9", "read refused 17", "read refused 18",
        "buffer refused 8", "buffer refused 10", "buffer refused 11", "buffer refused 12",
        "buffer refused 13", "flush refused 8", "flush refused 10",
    ];
    for name in all {
        assert!(happened.contains_key(name), "never: {name}");
    }
    for name in OFTEN {
        assert!(happened.get(name).is_some_and(|&times| times >= 100), "rare: {name}");
    }
    // A step that is due can be made, and what is buffered can be flushed.
    for name in happened.keys() {
        let refused = name.contains("step refused") || name.contains("flush refused");
        let allowed = ["step refused 9", "flush refused 8", "flush refused 10"];
        assert!(!refused || allowed.contains(&name.as_str()), "{name}");
    }
}

/// A reader by document 01 answers 2 to a whole page of kind 4, and reads
/// every other medium as before.
#[test]
fn older_readers_meet_kind_4() {
    let mut random = Random::new(31);
    let mut met = [0, 0];
    for events in 0..600 {
        let medium = random::lived(&mut random, events).medium;
        let gathered = |p: Page| p.class() == Class::Whole && p.kind() == GATHERED;
        let holds = medium.chunks(PAGE_BYTES).filter_map(Page::from_bytes).any(gathered);
        let (old, new) = (replay_by_old_rules(&medium), replay(&medium));
        let read = |replay: Replay| (replay.log(), replay.state);
        let expected = if holds { Err(Refused(2)) } else { new.map(read) };
        assert_eq!(old.map(read), expected);
        met[usize::from(holds)] += 1;
    }
    assert!(met[0] >= 100 && met[1] >= 100, "without and with kind 4: {met:?}");
}

/// Every cut of one bit, and every bit alone, in a program and in an erase.
#[test]
fn one_bit_decides_whether_a_page_counts() {
    let (mut medium, mut state) = formatted(4);
    begin_append(&medium, &mut state, &[(5, 1000)]).expect("append");
    finish(&mut medium, &mut state);
    let final_page = page(&medium, 1).to_vec();
    for bit in 0..2048 {
        let (byte, mask) = (bit / 8, 1 << (bit % 8));
        let mut torn = medium.clone();
        torn[256 + byte] |= mask;
        let complete = final_page[byte] & mask != 0;
        let replay = replay(&torn).expect("recovery");
        assert_eq!(replay.log().len(), usize::from(complete));
    }
}
