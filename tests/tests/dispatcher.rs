//! Housekeeping: what the dispatcher names, and the bound: under its premises at
//! most one commit and one collection let the group in.

mod common;

use common::*;
use journal_tests::dispatcher::{newer_than_base, next_operation, Operation};
use journal_tests::player::{Action, Outcome};
use journal_tests::random::{Life, Random};
use journal_tests::reader::*;
use journal_tests::writer::{self, lay_page, put_page, State};
use std::collections::BTreeMap;

/// Keys and words of a group.
type Group = (Vec<u16>, Vec<u64>);

/// What the dispatcher names in a life, the log being read.
fn named(life: &Life, group: &Group) -> Result<Operation, Refused> {
    let state = life.state.as_ref().expect("a state");
    next_operation(&life.medium, state, &life.buffer, (&group.0, &group.1), true)
}

/// The named operation as an action.
fn action(operation: Operation, group: &Group) -> Action {
    match operation {
        Operation::Append => Action::Append { keys: group.0.clone(), words: group.1.clone() },
        Operation::Commit => Action::Commit,
        Operation::Collect(block) => Action::Collect { block },
    }
}

/// An accepted operation made to its end.
fn make(life: &mut Life, operation: Operation, group: &Group) {
    assert_eq!(life.act(&action(operation, group)), Outcome::Accepted, "{operation:?}");
    while life.state.as_ref().expect("a state").pending.is_some() {
        assert!(matches!(life.act(&Action::Step), Outcome::Stepped(_)));
    }
}

/// The premises of the bound, but for the medium being reached: an append of the
/// group meets 13 with at least 16 pages available, nothing is pending, the
/// buffer is empty, and 16 serials are left.
fn premises(life: &Life, group: &Group) -> bool {
    let Some(state) = &life.state else { return false };
    let meets = writer::append(&life.medium, &mut state.clone(), &life.buffer, &group.0, &group.1);
    meets == refused(13)
        && available(&life.medium, state) >= 16
        && state.pending.is_none()
        && life.buffer == EMPTY
        && state.next_serial <= u64::MAX - 16
}

/// What a group was let in by.
#[derive(Clone, Copy, PartialEq, Eq, PartialOrd, Ord, Debug)]
struct Way {
    commits: usize,
    collections: usize,
    /// Pages that they took.
    pages: usize,
}

/// Follows the dispatcher until the group is in: what it named. The log and the
/// settings are then the history's, the group being the log's last.
fn let_in(life: &mut Life, group: &Group) -> Way {
    let serial = |life: &Life| life.state.as_ref().expect("a state").next_serial;
    let (mut way, start) = (Way { commits: 0, collections: 0, pages: 0 }, serial(life));
    loop {
        let operation = named(life, group).expect("an operation");
        if operation == Operation::Append {
            way.pages = (serial(life) - start) as usize;
        }
        make(life, operation, group);
        match operation {
            Operation::Append => break,
            Operation::Commit => way.commits += 1,
            Operation::Collect(_) => way.collections += 1,
        }
        assert!(way.commits + way.collections <= 3, "it never ends");
    }
    let replay = replay(&life.medium).expect("recovery");
    let history = life.history.as_ref().expect("a history");
    assert!(replay.log() == history.log() && replay.settings() == history.settings());
    assert_eq!(history.log().last(), Some(&entries_of(&group.0, &group.1)));
    way
}

/// Lets a group in: where the premises hold, by the bound. Tells the way.
fn housekeep(life: &mut Life, group: &Group, ways: &mut BTreeMap<Way, usize>) {
    if !premises(life, group) {
        return make(life, named(life, group).expect("the group"), group);
    }
    let newer = newer_than_base(&life.medium);
    let way = let_in(life, group);
    assert_eq!((way.commits, way.collections), (usize::from(newer), 1), "{way:?}");
    assert!(way.pages <= 12, "{way:?}");
    *ways.entry(way).or_insert(0) += 1;
}

/// A life that is formatted, in which no cut comes.
fn formatted_life(blocks: usize) -> Life {
    let mut life = Life::blank(&mut Random::new(blocks as u64), blocks);
    assert_eq!(life.act(&Action::Format), Outcome::Accepted);
    while life.state.as_ref().is_some_and(|state| state.pending.is_some()) {
        life.act(&Action::Step);
    }
    assert!(life.just_formatted());
    life
}

/// The n-th group of a long run.
type Work = fn(&mut Random, usize, usize) -> Group;

/// 192 valves in turn, spread over all pages of the medium, so that each block has
/// its part of the live nodes; between them one of these valves again and again.
fn spread(_: &mut Random, blocks: usize, n: usize) -> Group {
    let pages = blocks * BLOCK_PAGES;
    let (first, end) = (n * 192 / pages, (n + 1) * 192 / pages);
    let turn = |valve: usize| ((valve % 192) as u16 + 1, n as u64);
    (first..end.max(first + 1)).map(turn).unzip()
}

/// The largest groups, on 192 valves.
fn largest(_: &mut Random, _: usize, n: usize) -> Group {
    (0..96).map(|i| (((96 * n + 5 * i) % 192) as u16 + 1, n as u64)).unzip()
}

/// Groups of any size, of 192 valves by chance.
fn by_chance(random: &mut Random, _: usize, n: usize) -> Group {
    let length = random.one_of(&[1, 2, 24, 25, 49, 73, 96]);
    (0..length).map(|_| (random.from_to(1, 192) as u16, n as u64)).unzip()
}

/// Long runs on 4, 5, 16, 17 and 256 blocks with 192 valves set: several times as
/// many pages as the medium has, and never more than a commit and a collection.
#[test]
fn long_runs_keep_the_bound() {
    for blocks in [4, 5, 16, 17, 256] {
        let mut ways = BTreeMap::new();
        for work in [spread as Work, largest, by_chance] {
            let (mut random, mut life) = (Random::new(111), formatted_life(blocks));
            for first in [1, 97] {
                make(&mut life, Operation::Append, &lists(&valves(first, 96)));
            }
            let pages = (blocks * BLOCK_PAGES) as u64;
            let end = if blocks > 17 { 2 * pages } else { 100 * pages };
            for n in 0.. {
                if life.state.as_ref().expect("a state").next_serial > end {
                    break;
                }
                housekeep(&mut life, &work(&mut random, blocks, n), &mut ways);
            }
            assert_eq!(life.state.as_ref().expect("a state").index.len(), 192);
        }
        let times: usize = ways.values().sum();
        println!("{blocks} blocks, let in {times} times: {ways:?}");
        assert!(times > if blocks > 17 { 20 } else { 500 }, "{blocks} blocks: {times}");
        assert!(ways.keys().any(|way| way.commits == 1), "{blocks} blocks: no commit");
        // The picker's block has nodes to move, but on 256 blocks, where most have none.
        let most = ways.keys().map(|way| way.pages).max();
        assert_eq!(most > Some(8), blocks <= 17, "{blocks} blocks: {most:?} pages at most");
    }
}

/// Lives with cuts, flushes, commits and collections of any block: wherever the
/// premises hold, the bound does, for groups of one to four pages.
#[test]
fn the_bound_holds_in_any_life() {
    let (mut random, mut ways) = (Random::new(112), BTreeMap::new());
    for blocks in (4..=16).chain([4, 4, 5, 5, 17]).cycle().take(220) {
        let mut life = Life::on(&mut random, blocks);
        for _ in 0..400 {
            let action = life.next_action(&mut random);
            life.act(&action);
            if life.history.is_none() {
                continue;
            }
            let entries = random.one_of(&[1, 24, 25, 73, 96]);
            let group = lists(&valves(1, entries));
            if premises(&life, &group) && random.one_in(3) {
                housekeep(&mut life.clone(), &group, &mut ways);
            }
        }
    }
    println!("{ways:?}");
    let times = |commits| -> usize {
        ways.iter().filter(|(way, _)| way.commits == commits).map(|(_, times)| times).sum()
    };
    // With a commit, and without one where nothing is newer than the base.
    assert!(times(1) > 200 && times(0) > 50, "{} and {}", times(1), times(0));
}

/// A journal of 192 valves and groups until 13, with so many serials left then.
fn full_with_serials(blocks: usize, left: u64) -> (Life, Group) {
    let group = lists(&valves(1, 96));
    let fill = |life: &mut Life| {
        make(life, Operation::Append, &lists(&valves(97, 96)));
        while named(life, &group) == Ok(Operation::Append) {
            make(life, Operation::Append, &group);
        }
    };
    let mut life = formatted_life(blocks);
    let mut used = life.clone();
    fill(&mut used);
    life.grow_old(used.state.expect("a state").next_serial - 2 + left);
    // The plain history holds on: the state and the base alone are older.
    fill(&mut life);
    let serials = u64::MAX - life.state.as_ref().expect("a state").next_serial;
    assert_eq!(serials, left);
    (life, group)
}

/// With 16 serials left the group is let in; with as many as the way takes too,
/// and with one fewer 14 is answered and nothing else.
#[test]
fn serials_suffice() {
    for blocks in [4, 5, 16, 17] {
        let (mut life, group) = full_with_serials(blocks, 16);
        assert!(premises(&life, &group));
        let way = let_in(&mut life, &group);
        assert_eq!((way.commits, way.collections), (1, 1));
        let taken = (way.pages + 4) as u64;
        assert!(taken <= 16, "{taken}");
        let (mut life, group) = full_with_serials(blocks, taken);
        assert_eq!(let_in(&mut life, &group), way);
        for left in 0..taken {
            let (mut life, group) = full_with_serials(blocks, left);
            let answer = loop {
                match named(&life, &group) {
                    Ok(operation) => make(&mut life, operation, &group),
                    Err(refused) => break refused,
                }
            };
            assert_eq!(answer, Refused(14), "{blocks} blocks, {left} serials");
        }
    }
}

// ---------------------------------------------------------------------------
// What it names and refuses

/// Groups of one entry until 13.
fn full(blocks: usize) -> (Vec<u8>, State) {
    let (mut medium, mut state) = formatted(blocks);
    while begin_append(&medium, &mut state, &[(5, 1)]).is_ok() {
        finish(&mut medium, &mut state);
    }
    (medium, state)
}

/// What the dispatcher names for one entry, with this buffer.
fn ask(medium: &[u8], state: &State, buffer: &[u8], read: bool) -> Result<Operation, Refused> {
    next_operation(medium, state, buffer, (&[5], &[1]), read)
}

#[test]
fn what_it_names() {
    let (medium, state) = formatted(4);
    assert_eq!(ask(&medium, &state, &EMPTY, false), Ok(Operation::Append));
    // Full and not read: the picker has no block, since all are the log's.
    let (mut medium, mut state) = full(4);
    assert_eq!(ask(&medium, &state, &EMPTY, false), refused(15));
    assert_eq!(ask(&medium, &state, &EMPTY, true), Ok(Operation::Commit));
    commit(&mut medium, &mut state);
    // Nothing is newer than the base: the picker's block, read or not.
    let block = pick(&medium, &state).expect("a fit state").expect("a block");
    for read in [false, true] {
        assert_eq!(ask(&medium, &state, &EMPTY, read), Ok(Operation::Collect(block)));
    }
    begin_collect(&medium, &mut state, block).expect("collect");
    finish(&mut medium, &mut state);
    assert_eq!(ask(&medium, &state, &EMPTY, true), Ok(Operation::Append));
}

/// A group that is refused otherwise than by 13 is named, and its number is the
/// answer, whatever is available.
#[test]
fn the_append_is_asked_first() {
    let holds = holding(&[&[(9, 1)]]);
    for (medium, state) in [formatted(4), full(4)] {
        let with = |group: (&[u16], &[u64])| next_operation(&medium, &state, &EMPTY, group, true);
        assert_eq!(with((&[5], &[])), refused(10));
        assert_eq!(with((&[], &[])), refused(10));
        assert_eq!(with((&[32773], &[1])), refused(11));
        assert_eq!(with((&[0], &[1])), refused(11));
        let all: Vec<u16> = (1..=97).collect();
        assert_eq!(with((&all, &[0; 97])), refused(10));
        assert_eq!(ask(&medium, &state, &holds, true), refused(24));
        assert_eq!(ask(&medium, &state, &EMPTY[1..], true), refused(7));
        assert_eq!(ask(&medium, &State { blocks: 5, ..state.clone() }, &EMPTY, true), refused(7));
        assert_eq!(ask(&medium[1..], &state, &EMPTY, true), refused(1));
        let mut pending = state.clone();
        begin_commit(&medium, &mut pending).expect("commit");
        assert_eq!(ask(&medium, &pending, &EMPTY, true), refused(8));
    }
}

/// After a cut between a collection's last page and its erase, nothing being
/// available: the commit that is named answers 13 for ever; with the log not read
/// the block is collected without a page.
#[test]
fn the_way_out_is_to_say_not_read() {
    let (mut medium, mut state) = formatted(4);
    for first in [1, 97] {
        append(&mut medium, &mut state, &valves(first, 96));
    }
    while begin_append(&medium, &mut state, &valves(1, 24)).is_ok() {
        finish(&mut medium, &mut state);
    }
    commit(&mut medium, &mut state);
    let collectible = (0..4).filter(|&block| collectible(&medium, &state, block));
    let block = collectible.max_by_key(|&block| live_count(&state, block)).expect("a block");
    assert!(live_count(&state, block) > 96);
    begin_collect(&medium, &mut state, block).expect("collect");
    while live_count(&state, block) > 0 {
        one_step(&mut medium, &mut state).expect("a step");
    }
    let mut state = recover(&medium).expect("recovery");
    assert_eq!(available(&medium, &state), 0);
    assert_eq!(ask(&medium, &state, &EMPTY, true), refused(13));
    let picked = pick(&medium, &state).expect("a fit state").expect("a block");
    assert_eq!(live_count(&state, picked), 0);
    assert_eq!(ask(&medium, &state, &EMPTY, false), Ok(Operation::Collect(picked)));
    begin_collect(&medium, &mut state, picked).expect("collect");
    finish(&mut medium, &mut state);
    assert_eq!(available(&medium, &state), 16);
}

/// Media made by hand: no whole page at all, and two of the greatest serial.
#[test]
fn newer_than_the_base_by_the_words_in_brackets() {
    let mut medium = blank(4);
    assert!(newer_than_base(&medium), "no whole page");
    put_page(&mut medium, 0, &lay_page(BASE, 3, 1, &[]));
    assert!(!newer_than_base(&medium));
    put_page(&mut medium, 1, &lay_page(NODES, 3, 2, &[set_entry(5, 1)]));
    assert!(newer_than_base(&medium));
    // A base of the same serial, whole or spoilt; ended or not.
    for (flags, newer) in [(0, true), (1, true), (2, false), (3, false), (4, false), (255, false)] {
        let mut page = lay_page(BASE, flags, 2, &[]);
        for place in [0, 2, 63] {
            let mut medium = medium.clone();
            put_page(&mut medium, place, &page);
            assert_eq!(newer_than_base(&medium), newer, "flags {flags}");
        }
        page[255] = 0;
        let mut medium = medium.clone();
        put_page(&mut medium, 2, &page);
        assert!(newer_than_base(&medium));
    }
    // The greatest serial of all pages is that of moved nodes, or kind 4.
    for kind in [MOVED, GATHERED] {
        let mut medium = medium.clone();
        put_page(&mut medium, 5, &lay_page(BASE, 3, 7, &[]));
        put_page(&mut medium, 4, &lay_page(kind, 3, u64::MAX, &[set_entry(5, 1)]));
        assert!(newer_than_base(&medium));
    }
}

/// Four blocks of which each has a spoilt page: none is available. A state by hand
/// gets the collection of block 0 where the log is not read.
#[test]
fn no_whole_page_at_all() {
    let mut medium = blank(4);
    (0..4).for_each(|block| medium[block * BLOCK_BYTES] = 0);
    let state = State { next_serial: 9, pending: None, ..State::at_format(4) };
    assert_eq!(ask(&medium, &state, &EMPTY, true), refused(13));
    assert_eq!(ask(&medium, &state, &EMPTY, false), Ok(Operation::Collect(0)));
    // A live node in each block that is not there: 6 of the picker's collection.
    let places = (1..).zip([0, 384, 768, 1152]).map(|(valve, address)| Place { valve, address });
    let state = State { index: places.collect(), ..state };
    assert_eq!(ask(&medium, &state, &EMPTY, false), refused(6));
}
