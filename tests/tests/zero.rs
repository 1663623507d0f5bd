//! Valve 0 is no valve: no entry may set it, and media that hold it are read and
//! written as before until it is removed. Every test is made of both
//! implementations.

mod common;

use common::{formatted, holding, lists, recovery_number, refused, set_entry, touched, valves};
use journal_tests::before;
use journal_tests::calls::{Calls, EMPTY};
use journal_tests::reader::{
    self, Entry, Page, Place, Record, Refused, WordAt, BASE, BLOCK_BYTES, BLOCK_PAGES, MOVED,
    REMOVAL,
};
use journal_tests::writer::{lay_gathered, lay_page, put_page, Pending, State, Touched};

journal_tests::both! {
    no_append_sets_it,
    no_buffered_group_sets_it,
    a_buffer_that_sets_it,
    a_pending_append_that_sets_it,
    eleven_has_its_place_in_the_order,
    removing_it_stays_allowed,
    media_that_hold_it_are_read_as_before,
    media_that_hold_it_commit_and_move_it,
    pages_of_kind_4_that_hold_it,
    bases_that_hold_it,
    wanted_lists,
    order_of_wanted,
}

/// The number of a refusal, 0 if there is none.
fn number<T>(result: Result<T, Refused>) -> u8 {
    result.err().map_or(0, |refused| refused.0)
}

/// What an append and a buffering of this group answer.
fn begun<C: Calls>(medium: &[u8], state: &State, group: &[(u16, u64)]) -> [u8; 2] {
    let (keys, words) = lists(group);
    let (state, mut buffer) = (C::of(state), EMPTY);
    let answers = [
        number(C::append(medium, &mut state.clone(), &EMPTY, &keys, &words)),
        number(C::buffer(medium, &state, &mut buffer, &keys, &words)),
    ];
    assert_eq!(buffer == EMPTY, answers[1] != 0, "a refusal leaves the buffer");
    answers
}

/// A journal that holds valve 0 with word 20, beside valve 5.
fn holding_0() -> (Vec<u8>, State) {
    let (mut medium, mut state) = formatted(4);
    before::append(&mut medium, &mut state, &[set_entry(0, 20), set_entry(5, 1000)]);
    (medium, state)
}

fn no_append_sets_it<C: Calls>() {
    for (medium, state) in [formatted(4), holding_0()] {
        for word in [0, 1, 20, u64::MAX] {
            assert_eq!(begun::<C>(&medium, &state, &[(0, word)]), [11, 11]);
        }
        // Wherever it stands in the group, and though it is removed there too.
        for at in [0, 1, 23, 24, 25, 95] {
            let mut group = valves(1, 96);
            group[at].0 = 0;
            assert_eq!(begun::<C>(&medium, &state, &group), [11, 11]);
            group[at].0 = 1;
            assert_eq!(begun::<C>(&medium, &state, &group), [0, 23]);
        }
        assert_eq!(begun::<C>(&medium, &state, &[(0, 1), (REMOVAL, 0)]), [11, 11]);
        assert_eq!(begun::<C>(&medium, &state, &[(REMOVAL, 0), (0, 1)]), [11, 11]);
        for valve in [1, 256, 32767] {
            assert_eq!(begun::<C>(&medium, &state, &[(valve, 0)]), [0, 0]);
        }
    }
}

fn no_buffered_group_sets_it<C: Calls>() {
    let (medium, state) = formatted(4);
    let (state, mut buffer) = (C::of(&state), holding(&[&[(5, 1)], &[(6, 2)]]));
    let before = buffer;
    assert_eq!(C::buffer(&medium, &state, &mut buffer, &[7, 0], &[1, 1]), refused(11));
    assert_eq!(buffer, before);
    assert_eq!(C::buffer(&medium, &state, &mut buffer, &[7, REMOVAL], &[1, 0]), Ok(()));
}

/// Made by hand: it is a page in the making. Its word is shown, another group may
/// be buffered, a flush answers 11, and a pending flush is unfit.
fn a_buffer_that_sets_it<C: Calls>() {
    let (medium, state) = formatted(4);
    let lent = C::of(&state);
    for groups in [&[&[(0, 20)][..]][..], &[&[(5, 1)], &[(6, 2), (0, 20)]]] {
        let buffer = holding(groups);
        let place = C::word_at(&medium, &lent, &buffer, 0).expect("its place");
        assert_eq!(place.read(&medium, &buffer), 20);
        assert!(matches!(place, WordAt::Buffer(_)));
        let mut other = buffer;
        assert_eq!(C::buffer(&medium, &lent, &mut other, &[7], &[1]), Ok(()));
        assert_eq!(other, holding(&[groups, &[&[(7, 1)]]].concat()));
        assert_eq!(C::flush(&medium, &mut lent.clone(), &buffer), refused(11));
        assert_eq!(C::append(&medium, &mut lent.clone(), &buffer, &[7], &[1]), refused(24));

        let pending = C::of(&State { pending: Some(Pending::Flush), ..state.clone() });
        let (mut lent_medium, mut lent_buffer) = (medium.clone(), buffer);
        let step = C::step(&mut lent_medium, &mut pending.clone(), &mut lent_buffer);
        assert_eq!(step, refused(7));
        assert_eq!((&lent_medium, lent_buffer), (&medium, buffer));
        assert_eq!(C::word_at(&medium, &pending, &buffer, 0), refused(7));
        assert_eq!(C::commit(&medium, &mut pending.clone(), &buffer), refused(7));
        // Where the buffer is not lent there is no group to judge.
        assert_eq!(C::open(&medium, &pending, 0), refused(18));
    }
    // A removal of it may be flushed.
    let buffer = holding(&[&[(REMOVAL, 0)]]);
    assert_eq!(C::flush(&medium, &mut lent.clone(), &buffer), Ok(()));
}

fn a_pending_append_that_sets_it<C: Calls>() {
    let (medium, state) = holding_0();
    let pending = |entries: Vec<Entry>| {
        let pending = Some(Pending::Append { entries, written: vec![] });
        C::of(&State { pending, ..state.clone() })
    };
    let unfit = pending(vec![set_entry(5, 1), set_entry(0, 20)]);
    assert_eq!(C::open(&medium, &unfit, 5), refused(7));
    assert_eq!(C::pick(&medium, &unfit), refused(7));
    assert_eq!(C::survey(&medium, &unfit), refused(7));
    assert_eq!(C::count_available(&medium, &unfit), refused(7));
    assert_eq!(C::wanted(&medium, &unfit, &[]), refused(7));
    assert_eq!(C::word_at(&medium, &unfit, &EMPTY, 5), refused(7));
    assert_eq!(C::commit(&medium, &mut unfit.clone(), &EMPTY), refused(7));
    let mut lent = medium.clone();
    assert_eq!(C::step(&mut lent, &mut unfit.clone(), &mut { EMPTY }), refused(7));
    assert_eq!(lent, medium);
    let mut fit = pending(vec![set_entry(5, 1), set_entry(REMOVAL, 0)]);
    assert!(C::step(&mut lent, &mut fit, &mut { EMPTY }).is_ok());
}

/// After 10, beside a removal with a word, before 12, 23, 13 and 14.
fn eleven_has_its_place_in_the_order<C: Calls>() {
    let (mut medium, mut state) = formatted(4);
    state.index = (1..193).map(|valve| Place { valve, address: 0 }).collect();
    medium[BLOCK_BYTES..].fill(0);
    (state.next_page, state.next_serial) = (16, u64::MAX);
    let mut group = valves(300, 97);
    group[96].0 = 0;
    assert_eq!(begun::<C>(&medium, &state, &group), [10, 10]);
    assert_eq!(begun::<C>(&medium, &state, &group[1..]), [11, 11]);
    assert_eq!(begun::<C>(&medium, &state, &group[..96]), [12, 12]);
    let lent = C::of(&state);
    assert_eq!(C::append(&medium, &mut lent.clone(), &EMPTY, &[0, 0], &[1]), refused(10));
    assert_eq!(C::append(&medium, &mut lent.clone(), &EMPTY, &[0], &[1]), refused(11));
    assert_eq!(C::append(&medium, &mut lent.clone(), &EMPTY, &[1], &[1]), refused(13));
    // A flush: 11 before 12.
    let buffer = holding(&[&[(300, 1)], &[(0, 1)]]);
    assert_eq!(C::flush(&medium, &mut lent.clone(), &buffer), refused(11));
    let buffer = holding(&[&[(300, 1)]]);
    assert_eq!(C::flush(&medium, &mut lent.clone(), &buffer), refused(12));
}

/// Whether it is set or not; the removal is listed either way.
fn removing_it_stays_allowed<C: Calls>() {
    for (mut medium, state) in [formatted(4), holding_0()] {
        let log = reader::replay(&medium).expect("recovery").log();
        let mut state = C::of(&state);
        C::append(&medium, &mut state, &EMPTY, &[REMOVAL], &[0]).expect("append");
        C::finish_unbuffered(&mut medium, &mut state);
        let mut buffer = holding(&[&[(REMOVAL, 0)]]);
        C::flush(&medium, &mut state, &buffer).expect("flush");
        C::finish(&mut medium, &mut state, &mut buffer);
        let removal = || vec![set_entry(REMOVAL, 0)];
        let expected = [log, vec![removal(), removal()]].concat();
        assert_eq!(reader::replay(&medium).expect("recovery").log(), expected);
        assert_eq!(C::open(&medium, &state, 0), refused(18));
        let recovered = C::recover(&medium).expect("recovery");
        assert_eq!(C::meaning(&recovered).index, C::meaning(&state).index);
        // And then it cannot be set again.
        assert_eq!(C::append(&medium, &mut state, &EMPTY, &[0], &[20]), refused(11));
        assert_eq!(C::append(&medium, &mut state, &EMPTY, &[REMOVAL], &[1]), refused(11));
    }
}

fn media_that_hold_it_are_read_as_before<C: Calls>() {
    let (medium, state) = holding_0();
    let recovered = C::recover(&medium).expect("recovery");
    assert_eq!(C::meaning(&recovered).index, state.index);
    assert_eq!((state.index[0].valve, state.index[0].address), (0, 24));
    let (mut keys, mut words, mut groups) = ([9; 2], [9; 2], [9; 2]);
    assert_eq!(C::log_into(&medium, &mut keys, &mut words, &mut groups), Ok(2));
    assert_eq!((keys, words, groups), ([0, 5], [20, 1000], [0, 0]));
    for state in [&recovered, &C::of(&state)] {
        assert_eq!(C::open(&medium, state, 0), Ok(20));
        let place = C::word_at(&medium, state, &EMPTY, 0);
        assert_eq!(place, Ok(WordAt::Medium(256 + 64)));
        let removed = holding(&[&[(REMOVAL, 0)]]);
        assert_eq!(C::word_at(&medium, state, &removed, 0), refused(18));
    }
    assert_eq!(reader::morning(&medium), "log 2\n0 0 20\n0 5 1000\nset 2\n0 20\n5 1000\n");
}

/// The base stores it, a collection moves it, and it counts among the 192.
fn media_that_hold_it_commit_and_move_it<C: Calls>() {
    let (mut medium, state) = holding_0();
    let mut state = C::of(&state);
    let (keys, words) = lists(&valves(1, 20));
    for _ in 0..14 {
        C::append(&medium, &mut state, &EMPTY, &keys, &words).expect("append");
        C::finish_unbuffered(&mut medium, &mut state);
    }
    C::commit(&medium, &mut state, &EMPTY).expect("commit");
    let steps = C::finish_unbuffered(&mut medium, &mut state);
    assert_eq!(touched(&steps), [Touched::Page(16)]);
    let base = Page::of(&medium, 16).expect("page 16");
    assert_eq!((base.kind(), base.entry(0)), (BASE, set_entry(0, 24)));
    assert_eq!(C::open(&medium, &C::recover(&medium).expect("recovery"), 0), Ok(20));

    C::collect(&medium, &mut state, &EMPTY, 0).expect("collect");
    let steps = C::finish_unbuffered(&mut medium, &mut state);
    assert_eq!(touched(&steps), [Touched::Page(17), Touched::Block(0)]);
    let moved = Page::of(&medium, 17).expect("page 17");
    assert_eq!((moved.kind(), moved.entry(0)), (MOVED, set_entry(0, 20)));
    assert_eq!(C::open(&medium, &state, 0), Ok(20));
    let recovered = C::meaning(&C::recover(&medium).expect("recovery"));
    assert_eq!(recovered.index, C::meaning(&state).index);
    assert_eq!(recovered.index.len(), 21);

    // With 171 more there are 192, valve 0 among them.
    for first in [100, 190] {
        let (keys, words) = lists(&valves(first, if first == 100 { 90 } else { 81 }));
        C::append(&medium, &mut state, &EMPTY, &keys, &words).expect("append");
        C::finish_unbuffered(&mut medium, &mut state);
    }
    assert_eq!(C::append(&medium, &mut state, &EMPTY, &[500], &[1]), refused(12));
    assert_eq!(C::append(&medium, &mut state, &EMPTY, &[REMOVAL, 500], &[0, 1]), Ok(()));
    C::finish_unbuffered(&mut medium, &mut state);
    assert_eq!(C::open(&medium, &state, 0), refused(18));
}

fn pages_of_kind_4_that_hold_it<C: Calls>() {
    let (mut medium, mut state) = formatted(4);
    let groups: [&[Entry]; 2] = [&[set_entry(7, 70)], &[set_entry(0, 1), set_entry(0, 2)]];
    before::flush(&mut medium, &mut state, &groups);
    let recovered = C::recover(&medium).expect("recovery");
    assert_eq!(C::meaning(&recovered).index, state.index);
    assert_eq!(C::open(&medium, &recovered, 0), Ok(2));
    let (mut keys, mut words, mut numbers) = ([9; 3], [9; 3], [9; 3]);
    assert_eq!(C::log_into(&medium, &mut keys, &mut words, &mut numbers), Ok(3));
    assert_eq!((keys, words, numbers), ([7, 0, 0], [70, 1, 2], [0, 1, 1]));
    let mut state = C::of(&state);
    C::commit(&medium, &mut state, &EMPTY).expect("commit");
    C::finish_unbuffered(&mut medium, &mut state);
    assert_eq!(C::open(&medium, &C::recover(&medium).expect("recovery"), 0), Ok(2));
}

/// Condition 2 did not move: pages of any kind may name it.
fn bases_that_hold_it<C: Calls>() {
    let mut medium = vec![0xFF; 5 * BLOCK_BYTES];
    let last = 5 * BLOCK_PAGES - 1;
    put_page(&mut medium, last, &lay_page(MOVED, 3, 1, &[set_entry(0, 20)]));
    let address = reader::address(last, 0);
    put_page(&mut medium, 3, &lay_page(BASE, 3, 2, &[set_entry(0, address)]));
    assert_eq!(C::open(&medium, &C::recover(&medium).expect("recovery"), 0), Ok(20));
    put_page(&mut medium, 4, &lay_gathered(3, &[&[set_entry(0, 21)], &[set_entry(REMOVAL, 0)]]));
    let state = C::meaning(&C::recover(&medium).expect("recovery"));
    assert!(state.index.is_empty());
    // A removal of it with a word breaks the page rules, as before.
    put_page(&mut medium, 5, &lay_page(1, 3, 4, &[set_entry(REMOVAL, 1)]));
    assert_eq!(number(C::recover(&medium)), 2);
    assert_eq!(recovery_number(&medium), 2);
}

fn record(valve: u16, word: u64) -> Record {
    Record { valve, word }
}

fn wanted_lists<C: Calls>() {
    let (medium, state) = formatted(4);
    let asked = |list: &[Record]| C::wanted(&medium, &C::of(&state), list);
    for word in [0, 20] {
        assert_eq!(asked(&[record(0, word)]), refused(11));
        assert_eq!(asked(&[record(0, word), record(7, 1)]), refused(11));
    }
    assert_eq!(asked(&[record(1, 1)]), Ok(Some(vec![set_entry(1, 1)])));

    let (medium, state) = holding_0();
    let asked = |list: &[Record]| C::wanted(&medium, &C::of(&state), list);
    // It stands with its word: no entry. With another: 11. Not wanted: removed.
    assert_eq!(asked(&[record(0, 20), record(5, 1000)]), Ok(Some(vec![])));
    let other = Ok(Some(vec![set_entry(5 + REMOVAL, 0), set_entry(6, 1)]));
    assert_eq!(asked(&[record(0, 20), record(6, 1)]), other);
    for word in [0, 19, 21] {
        assert_eq!(asked(&[record(0, word), record(5, 1000)]), refused(11));
    }
    assert_eq!(asked(&[record(5, 1000)]), Ok(Some(vec![set_entry(REMOVAL, 0)])));
    let both = vec![set_entry(REMOVAL, 0), set_entry(5 + REMOVAL, 0)];
    assert_eq!(asked(&[]), Ok(Some(both)));
}

/// 1, 7, 19, 20, 6, 11, then none.
fn order_of_wanted<C: Calls>() {
    let (mut medium, mut state) = holding_0();
    let list: Vec<Record> = (0..193).map(|valve| record(valve, 7)).collect();
    let asked = |medium: &[u8], state: &State, list: &[Record]| {
        C::wanted(medium, &C::of(state), list).map(|group| group.map(|group| group.len()))
    };
    medium[256 + 72] ^= 1;
    state.blocks = 5;
    assert_eq!(asked(&medium[1..], &state, &list), refused(1));
    assert_eq!(asked(&medium, &state, &list), refused(7));
    state.blocks = 4;
    assert_eq!(asked(&medium, &state, &[record(0, 1), record(0, 2)]), refused(19));
    assert_eq!(asked(&medium, &state, &list), refused(20));
    assert_eq!(asked(&medium, &state, &list[..192]), refused(6));
    medium[256 + 72] ^= 1;
    // 192 valves differ, valve 0 too: 11 and not none.
    assert_eq!(asked(&medium, &state, &list[..192]), refused(11));
    assert_eq!(asked(&medium, &state, &list[1..]), Ok(None));
    let mut stands = list[..192].to_vec();
    stands[0].word = 20;
    assert_eq!(asked(&medium, &state, &stands), Ok(None));
    // 96 settings and the removal of valve 0.
    assert_eq!(asked(&medium, &state, &list[1..=96]), Ok(None));
    assert_eq!(asked(&medium, &state, &list[1..=95]), Ok(Some(96)));
}
