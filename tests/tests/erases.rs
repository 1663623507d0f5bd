//! Blocks that merely read clean: the record of an erase in the state, and the
//! erase before the first page of a block without it.

mod common;

use common::*;
use journal_tests::random::{cut_step, Random};
use journal_tests::reader::*;
use journal_tests::writer::{self, Pending, State, Step, Touched};

/// The blocks that the state records as erased.
fn recorded(state: &State) -> Vec<usize> {
    (0..RECORDS).filter(|&block| state.erased[block]).collect()
}

/// A journal of 4 blocks with one group, recovered: no record, the head closed.
fn recovered() -> (Vec<u8>, State) {
    let (mut medium, mut state) = formatted(4);
    append(&mut medium, &mut state, &[(5, 1000)]);
    let state = recover(&medium).expect("recovery");
    (medium, state)
}

/// A recovered journal whose block 0 is collectible and holds one live node.
fn collectible_block_0() -> (Vec<u8>, State) {
    let (mut medium, mut state) = formatted(4);
    for word in 0..15 {
        append(&mut medium, &mut state, &[(5, word)]);
    }
    commit(&mut medium, &mut state);
    let state = recover(&medium).expect("recovery");
    assert_eq!(live_count(&state, 0), 1);
    (medium, state)
}

fn step_block(block: usize) -> Result<Step, Refused> {
    Ok(Step { touched: Touched::Block(block), finished: false })
}

#[test]
fn records_are_set_by_erases_and_unset_by_recovery_and_format() {
    let (medium, state) = formatted(5);
    assert_eq!(recorded(&state), [0, 1, 2, 3, 4]);
    assert_eq!(recorded(&recover(&medium).expect("recovery")), []);
    let mut state = writer::format(&medium).expect("format");
    assert_eq!(recorded(&state), []);
    one_step(&mut medium.clone(), &mut state).expect("erase");
    assert_eq!(recorded(&state), [0]);

    let (mut medium, mut state) = collectible_block_0();
    begin_collect(&medium, &mut state, 0).expect("collect");
    let steps = finish(&mut medium, &mut state);
    let expected = [Touched::Block(2), Touched::Page(32), Touched::Block(0)];
    assert_eq!(touched(&steps), expected);
    assert_eq!(recorded(&state), [0, 2]);
}

#[test]
fn the_erase_sets_its_record_and_nothing_else() {
    let (mut medium, mut state) = recovered();
    begin_append(&medium, &mut state, &valves(1, 30)).expect("append");
    assert_eq!(available(&medium, &state), 48);
    let (lent, mut given) = (medium.clone(), state.clone());
    assert_eq!(one_step(&mut medium, &mut state), step_block(1));
    given.erased[1] = true;
    assert_eq!((&medium, &state), (&lent, &given));
    let rest = finish(&mut medium, &mut state);
    assert_eq!(touched(&rest), [Touched::Page(16), Touched::Page(17)]);
}

#[test]
fn neither_6_nor_14_nor_16_is_tested_at_the_erase() {
    let (mut medium, mut state) = collectible_block_0();
    begin_collect(&medium, &mut state, 0).expect("collect");
    // The node to move is spoilt, and no serial is left.
    medium[15 * PAGE_BYTES + 64] ^= 1;
    state.next_serial = u64::MAX;
    assert_eq!(one_step(&mut medium.clone(), &mut state.clone()), step_block(2));
    // With no wholly clean block the step would program.
    let mut full = medium.clone();
    full[2 * BLOCK_BYTES] = 0;
    full[3 * BLOCK_BYTES] = 0;
    assert_eq!(one_step(&mut full, &mut state.clone()), refused(6));
    full[15 * PAGE_BYTES + 64] ^= 1;
    assert_eq!(one_step(&mut full, &mut state.clone()), refused(14));
    state.next_serial = 99;
    assert_eq!(one_step(&mut full, &mut state.clone()), refused(16));
    // The first wholly clean block is the one erased.
    medium[2 * BLOCK_BYTES] = 0;
    assert_eq!(one_step(&mut medium, &mut state), step_block(3));
    assert_eq!(one_step(&mut medium, &mut state), refused(6));
}

#[test]
fn only_a_first_page_asks_for_the_record() {
    let (mut medium, mut state) = formatted(4);
    state.erased = [false; RECORDS];
    let steps = append(&mut medium, &mut state, &[(5, 1)]);
    assert_eq!(touched(&steps), [Touched::Page(1)]);
    state.next_page = BLOCK_PAGES;
    state.erased[1] = true;
    let steps = append(&mut medium, &mut state, &[(5, 2)]);
    assert_eq!(touched(&steps), [Touched::Page(16)]);
    state.next_page = BLOCK_PAGES;
    let steps = commit(&mut medium, &mut state);
    assert_eq!(touched(&steps), [Touched::Block(2), Touched::Page(32)]);
}

#[test]
fn formatting_takes_any_records_and_adds_no_erase() {
    for erased in [[false; RECORDS], [true; RECORDS]] {
        let mut medium = blank(4);
        let pending = Some(Pending::Format { erased: 4 });
        let mut state = State { pending, erased, ..State::at_format(4) };
        let last = Step { touched: Touched::Page(0), finished: true };
        assert_eq!(one_step(&mut medium, &mut state), Ok(last));
        assert_eq!(state.erased, erased);
    }
}

#[test]
fn a_collection_without_live_nodes_is_one_erase() {
    let (mut medium, mut state) = recovered();
    medium[3 * BLOCK_BYTES] = 0;
    begin_collect(&medium, &mut state, 3).expect("collect");
    let steps = finish(&mut medium, &mut state);
    assert_eq!(touched(&steps), [Touched::Block(3)]);
    assert_eq!(recorded(&state), [3]);
}

/// A cut in the erase leaves every bit as it was, and the log is found.
#[test]
fn a_cut_in_the_erase_alters_nothing() {
    let (mut medium, mut state) = recovered();
    let mut random = Random::new(61);
    for _ in 0..20 {
        begin_append(&medium, &mut state, &[(6, 1)]).expect("append");
        let (before, mut after) = (medium.clone(), medium.clone());
        let step = one_step(&mut after, &mut state).expect("a step");
        let mut mask = [0; BLOCK_BYTES];
        random.fill(&mut mask);
        assert!(!cut_step(&mut medium, &after, &step.touched, &mask));
        assert!(medium == before);
        let replay = replay(&medium).expect("recovery");
        assert_eq!(replay.log(), [[set_entry(5, 1000)]]);
        state = replay.state;
    }
    let steps = append(&mut medium, &mut state, &[(6, 1)]);
    assert_eq!(touched(&steps), [Touched::Block(1), Touched::Page(16)]);
}
