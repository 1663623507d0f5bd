//! The small example of each refusal, and the order of refusals in each call.

mod common;

use common::*;
use journal_tests::random::{refused_medium, ways, Random};
use journal_tests::reader::*;
use journal_tests::writer::{self, lay_page, put_page, stamped, Pending, State, Touched};

/// A medium with these pages from page 0 on: kind, flags, serial, entries.
fn pages(list: &[(u8, u8, u64, &[Entry])]) -> Vec<u8> {
    let mut medium = blank(4);
    for (at, &(kind, flags, serial, entries)) in list.iter().enumerate() {
        put_page(&mut medium, at, &lay_page(kind, flags, serial, entries));
    }
    medium
}

const FIVE: Entry = Entry { key: 5, word: 1000 };

// ---------------------------------------------------------------------------
// Recovery: 1 to 6, and 17

#[test]
fn small_examples_of_recovery() {
    assert_eq!(recovery_number(&vec![0xFF; 12288]), 1);
    assert_eq!(recovery_number(&pages(&[(BASE, 3, 1, &[]), (9, 3, 2, &[FIVE])])), 2);
    let (mut medium, _) = formatted(4);
    medium.copy_within(0..256, 256);
    assert_eq!(recovery_number(&medium), 3);
    assert_eq!(recovery_number(&blank(4)), 4);
    let gap = pages(&[(BASE, 3, 1, &[]), (NODES, 3, 2, &[FIVE]), (NODES, 3, 4, &[FIVE])]);
    assert_eq!(recovery_number(&gap), 5);
    let stray = pages(&[(BASE, 3, 1, &[Entry { key: 5, word: 0 }])]);
    assert_eq!(recovery_number(&stray), 6);
}

#[test]
fn every_way_to_be_refused() {
    let mut random = Random::new(1);
    for number in 1..=6 {
        for way in 0..ways(number) {
            for _ in 0..20 {
                let medium = refused_medium(&mut random, number, way);
                assert_eq!(recovery_number(&medium), number, "refusal {number}, way {way}");
            }
        }
    }
}

#[test]
fn the_lowest_number_wins_in_recovery() {
    // Six things wrong: a gap, a stray address, a serial twice, an unlawful
    // page, no complete base. Mended one by one.
    let stray = [Entry { key: 5, word: 0 }];
    let mut medium = pages(&[
        (BASE, 2, 1, &stray),
        (NODES, 2, 3, &[FIVE]),
        (NODES, 3, 3, &[FIVE]),
        (9, 3, 7, &[FIVE]),
    ]);
    assert_eq!(recovery_number(&medium[..medium.len() - 1]), 1);
    assert_eq!(recovery_number(&medium), 2);
    put_page(&mut medium, 3, &[0xFF; 256]);
    assert_eq!(recovery_number(&medium), 3);
    put_page(&mut medium, 2, &[0; 256]);
    assert_eq!(recovery_number(&medium), 4);
    put_page(&mut medium, 0, &lay_page(BASE, 3, 1, &stray));
    assert_eq!(recovery_number(&medium), 5);
    put_page(&mut medium, 1, &lay_page(NODES, 3, 2, &[Entry { key: 6, word: 1 }]));
    assert_eq!(recovery_number(&medium), 6);
    put_page(&mut medium, 1, &lay_page(NODES, 3, 2, &[FIVE]));
    assert_eq!(recovery_number(&medium), 0);
}

#[test]
fn two_and_three_are_judged_before_the_base_too() {
    let old = pages(&[(BASE, 3, 9, &[]), (NODES, 2, 2, &[FIVE]), (NODES, 2, 2, &[FIVE])]);
    assert_eq!(recovery_number(&old), 3);
    let mut old = pages(&[(BASE, 3, 9, &[]), (NODES, 2, 2, &[FIVE])]);
    assert_eq!(recovery_number(&old), 0);
    put_page(&mut old, 5, &lay_page(MOVED, 1, 3, &[FIVE; 24]));
    assert_eq!(recovery_number(&old), 2);
}

#[test]
fn unfinished_groups_are_dropped() {
    let full = [FIVE; 24];
    let other = [Entry { key: 6, word: 1 }; 24];
    let medium = pages(&[
        (BASE, 3, 1, &[]),
        (NODES, 1, 2, &full),
        (NODES, 1, 3, &other),
        (NODES, 2, 4, &other[..1]),
        (BASE, 1, 5, &full),
        (NODES, 3, 6, &full[..2]),
        (BASE, 1, 7, &full),
        (BASE, 0, 8, &full),
        (MOVED, 3, 9, &full[..1]),
        (NODES, 1, 10, &full),
    ]);
    let replay = replay(&medium).expect("recovery");
    let lengths: Vec<usize> = replay.log().iter().map(Vec::len).collect();
    assert_eq!(lengths, [25, 2]);
    let state = &replay.state;
    assert_eq!((state.next_serial, state.first_base_serial, state.head), (11, 1, 0));
    let index = [(5, 8 * 24), (6, 3 * 24)];
    let found: Vec<(u16, u64)> = state.index.iter().map(|p| (p.valve, p.address)).collect();
    assert_eq!(found, index);
}

#[test]
fn the_head_is_where_the_greatest_serial_is() {
    let mut medium = blank(4);
    put_page(&mut medium, 50, &lay_page(BASE, 3, u64::MAX - 2, &[]));
    put_page(&mut medium, 17, &lay_page(NODES, 3, u64::MAX - 1, &[FIVE]));
    let state = recover(&medium).expect("recovery");
    assert_eq!((state.head, state.next_page), (1, 16));
    assert_eq!((state.next_serial, state.first_base_serial), (u64::MAX, u64::MAX - 2));
}

#[test]
fn base_addresses_that_the_log_replaces_are_not_judged() {
    let base = [Entry { key: 5, word: u64::MAX }, Entry { key: 6, word: 0 }];
    let removed = Entry { key: 6 + REMOVAL, word: 0 };
    let medium = pages(&[(BASE, 3, 1, &base), (NODES, 3, 2, &[FIVE, removed])]);
    assert_eq!(recovery_number(&medium), 0);
}

#[test]
fn log_into_lists() {
    let (mut medium, mut state) = formatted(4);
    append(&mut medium, &mut state, &[(5, 1000), (7, 20)]);
    append(&mut medium, &mut state, &[(5 + REMOVAL, 0)]);
    let (mut keys, mut words, mut groups) = ([9; 5], [9; 4], [9; 6]);
    assert_eq!(log_into(&medium, &mut keys[..2], &mut words, &mut groups), refused(17));
    assert_eq!(log_into(&medium, &mut keys, &mut words[..2], &mut groups), refused(17));
    assert_eq!(log_into(&medium, &mut keys, &mut words, &mut groups[..2]), refused(17));
    assert_eq!((keys, words, groups), ([9; 5], [9; 4], [9; 6]));
    assert_eq!(log_into(&medium, &mut keys, &mut words, &mut groups), Ok(3));
    assert_eq!(keys, [5, 7, 5 + REMOVAL, 9, 9]);
    assert_eq!(words, [1000, 20, 0, 9]);
    assert_eq!(groups, [0, 0, 1, 9, 9, 9]);
    assert_eq!(log_into(&blank(4), &mut [], &mut [], &mut []), refused(4));
}

// ---------------------------------------------------------------------------
// 7

/// A state that is fit for the medium of `formatted(4)`, and unfit after the
/// change.
fn unfit(change: impl Fn(&mut State)) {
    let (medium, mut state) = formatted(4);
    append(&mut medium.clone(), &mut state.clone(), &[(5, 1)]);
    assert!(fit(&medium, &state));
    change(&mut state);
    assert!(!fit(&medium, &state), "{state:?}");
    let (mut lent, mut given) = (medium.clone(), state.clone());
    assert_eq!(begin_append(&lent, &mut given, &[]), refused(7));
    assert_eq!(begin_commit(&lent, &mut given), refused(7));
    assert_eq!(begin_collect(&lent, &mut given, 99), refused(7));
    assert_eq!(one_step(&mut lent, &mut given), refused(7));
    assert_eq!(open(&lent, &given, 5), refused(7));
    assert_eq!(pick(&lent, &given), refused(7));
    assert_eq!(survey(&lent, &given), refused(7));
    assert_eq!(wanted(&lent, &given, &[]), refused(7));
    assert_eq!((lent, given), (medium, state));
}

fn index_of(count: u16) -> Vec<Place> {
    (0..count).map(|valve| Place { valve, address: 0 }).collect()
}

fn pending_append(entries: Vec<Entry>, done: u32) -> Option<Pending> {
    Some(Pending::Append { entries, written: (0..done).collect() })
}

#[test]
fn unfit_states() {
    unfit(|state| state.blocks = 5);
    unfit(|state| state.head = 4);
    unfit(|state| state.next_page = 0);
    unfit(|state| state.next_page = 17);
    unfit(|state| state.index = index_of(193));
    unfit(|state| state.index = vec![Place { valve: 5, address: 0 }; 2]);
    unfit(|state| {
        state.index = index_of(2);
        state.index.swap(0, 1);
    });
    unfit(|state| state.index = vec![Place { valve: 32768, address: 0 }]);
    unfit(|state| state.index = vec![Place { valve: 5, address: 1536 }]);
    unfit(|state| state.next_serial = 0);
    unfit(|state| state.first_base_serial = 2);
    unfit(|state| {
        state.next_serial = 0;
        state.first_base_serial = 0;
    });
}

#[test]
fn unfit_pending_operations() {
    let removal = Entry { key: 32773, word: 1 };
    unfit(|state| state.pending = pending_append(vec![], 0));
    unfit(|state| state.pending = pending_append(vec![FIVE; 97], 0));
    unfit(|state| state.pending = pending_append(vec![removal], 0));
    unfit(|state| {
        state.index = index_of(192);
        state.pending = pending_append(vec![Entry { key: 200, word: 1 }], 0);
    });
    // Pages done: as many as the list takes, or not below the next serial 2.
    unfit(|state| state.pending = pending_append(vec![FIVE; 24], 1));
    unfit(|state| state.pending = pending_append(vec![FIVE; 96], 2));
    unfit(|state| state.pending = Some(Pending::Commit { done: 1 }));
    unfit(|state| {
        state.index = index_of(192);
        state.pending = Some(Pending::Commit { done: 2 });
    });
    unfit(|state| state.pending = Some(Pending::Collect { block: 0 }));
    unfit(|state| state.pending = Some(Pending::Collect { block: 1 }));
    unfit(|state| state.pending = Some(Pending::Collect { block: 4 }));
}

#[test]
fn unfit_formatting() {
    unfit(|state| state.pending = Some(Pending::Format { erased: 0 }));
    let at_start = |change: &dyn Fn(&mut State)| {
        unfit(|state| {
            *state = State::at_format(4);
            change(state);
        });
    };
    at_start(&|state| state.pending = Some(Pending::Format { erased: 5 }));
    at_start(&|state| state.head = 0);
    at_start(&|state| state.next_page = 15);
    at_start(&|state| state.next_serial = 2);
    at_start(&|state| {
        state.next_serial = 2;
        state.first_base_serial = 1;
    });
    at_start(&|state| state.index = index_of(1));
    let mut all_erased = State::at_format(4);
    all_erased.pending = Some(Pending::Format { erased: 4 });
    assert!(fit(&blank(4), &all_erased));
}

#[test]
fn odd_states_that_are_fit() {
    let (medium, state) = formatted(4);
    let odd = |change: &dyn Fn(&mut State)| {
        let mut state = state.clone();
        change(&mut state);
        assert!(fit(&medium, &state), "{state:?}");
    };
    odd(&|state| state.head = 3);
    odd(&|state| state.index = index_of(192));
    odd(&|state| state.index = vec![Place { valve: 32767, address: 1535 }]);
    odd(&|state| state.next_serial = u64::MAX);
    odd(&|state| state.first_base_serial = 0);
    odd(&|state| {
        state.index = index_of(192);
        state.pending = Some(Pending::Commit { done: 1 });
    });
    // Pages written may be any.
    odd(&|state| {
        let entries = vec![FIVE; 25];
        state.pending = Some(Pending::Append { entries, written: vec![u32::MAX] });
    });
}

#[test]
fn state_of_4_blocks_medium_of_5() {
    let (_, state) = formatted(4);
    let (medium, _) = formatted(5);
    assert_eq!(survey(&medium, &state), refused(7));
}

// ---------------------------------------------------------------------------
// 8 to 18

#[test]
fn small_examples_of_calls() {
    let (mut medium, mut state) = formatted(4);
    assert_eq!(open(&medium, &state, 5), refused(18));
    assert_eq!(open(&medium, &state, 40000), refused(18));
    assert_eq!(begin_collect(&medium, &mut state, 0), refused(15));
    assert_eq!(begin_collect(&medium, &mut state, 1), refused(15));
    assert_eq!(begin_collect(&medium, &mut state, 4), refused(15));
    assert_eq!(begin_collect(&medium, &mut state, usize::MAX), refused(15));
    assert_eq!(begin_append(&medium, &mut state, &[(32773, 1)]), refused(11));
    assert_eq!(begin_append(&medium, &mut state, &[(0, 20)]), refused(11));
    assert_eq!(begin_lists(&medium, &mut state, &[5, 6], &[1]), refused(10));
    let mut recovered = recover(&medium).expect("recovery");
    assert_eq!(one_step(&mut medium, &mut recovered), refused(9));
    begin_append(&medium, &mut state, &[(5, 1)]).expect("append");
    assert_eq!(begin_commit(&medium, &mut state), refused(8));
    assert_eq!(begin_append(&medium, &mut state, &[]), refused(8));
    assert_eq!(begin_collect(&medium, &mut state, 99), refused(8));
    medium[256] = 0;
    let (lent, given) = (medium.clone(), state.clone());
    assert_eq!(one_step(&mut medium, &mut state), refused(16));
    assert_eq!((medium, state), (lent, given));
}

#[test]
fn a_193rd_valve() {
    let (mut medium, mut state) = formatted(8);
    append(&mut medium, &mut state, &valves(1, 96));
    append(&mut medium, &mut state, &valves(97, 96));
    assert_eq!(begin_append(&medium, &mut state, &[(193, 1)]), refused(12));
    // Taken back by a later entry: refused all the same.
    assert_eq!(begin_append(&medium, &mut state, &[(193, 1), (32769, 0)]), refused(12));
    assert_eq!(begin_append(&medium, &mut state, &[(192, 1), (32769, 0), (193, 1)]), Ok(()));
}

#[test]
fn serials_run_out() {
    let (medium, mut state) = formatted(4);
    state.next_serial = u64::MAX;
    assert_eq!(begin_append(&medium, &mut state, &[(5, 1)]), refused(14));
    assert_eq!(begin_commit(&medium, &mut state), refused(14));
    state.next_serial = u64::MAX - 1;
    assert_eq!(begin_append(&medium, &mut state, &valves(1, 25)), refused(14));
    assert_eq!(begin_append(&medium, &mut state, &valves(1, 24)), Ok(()));
    // A step asks for one page only.
    let mut medium = medium;
    state.pending = pending_append(vec![FIVE; 96], 0);
    assert!(one_step(&mut medium, &mut state).is_ok());
    assert_eq!(state.next_serial, u64::MAX);
    medium[512] = 0;
    assert_eq!(one_step(&mut medium, &mut state), refused(14));
    state.next_serial = 9;
    assert_eq!(one_step(&mut medium, &mut state), refused(16));
}

#[test]
fn order_of_append() {
    let (mut medium, mut state) = formatted(4);
    append(&mut medium, &mut state, &valves(1, 96));
    append(&mut medium, &mut state, &valves(97, 96));
    for word in 0..39 {
        append(&mut medium, &mut state, &[(5, word)]);
    }
    state.next_serial = u64::MAX;
    let mut words = vec![1; 96];
    let mut keys: Vec<u16> = (200..296).collect();
    keys[95] = 32773;
    assert_eq!(begin_lists(&medium, &mut state, &keys, &words[1..]), refused(10));
    assert_eq!(begin_lists(&medium, &mut state, &keys, &words), refused(11));
    words[95] = 0;
    assert_eq!(begin_lists(&medium, &mut state, &keys, &words), refused(12));
    assert_eq!(begin_lists(&medium, &mut state, &[5], &[0]), refused(13));
}

/// A journal whose block 0 is collectible and holds 48 live nodes: two pages.
fn collectible_block_0(blocks: usize) -> (Vec<u8>, State) {
    let (mut medium, mut state) = formatted(blocks);
    append(&mut medium, &mut state, &valves(1, 48));
    for word in 0..13 {
        append(&mut medium, &mut state, &[(99, word)]);
    }
    append(&mut medium, &mut state, &[(99 + REMOVAL, 0)]);
    commit(&mut medium, &mut state);
    assert!(collectible(&medium, &state, 0));
    assert_eq!(live_nodes(&state, 0).len(), 48);
    (medium, state)
}

#[test]
fn order_of_collect() {
    let (mut medium, mut state) = collectible_block_0(4);
    // No clean block, one page left in the head, and no serial left.
    for block in [2, 3] {
        medium[block * BLOCK_BYTES] = 0;
    }
    state.next_page = 15;
    state.next_serial = u64::MAX;
    assert_eq!(available(&medium, &state), 1);
    assert_eq!(begin_collect(&medium, &mut state, 1), refused(15));
    // The 48th node's page is spoilt.
    let byte = medium[2 * 256 + 64];
    medium[2 * 256 + 64] ^= 1;
    assert_eq!(begin_collect(&medium, &mut state, 0), refused(6));
    medium[2 * 256 + 64] = byte;
    assert_eq!(begin_collect(&medium, &mut state, 0), refused(13));
    state.next_page = 14;
    assert_eq!(begin_collect(&medium, &mut state, 0), refused(14));
    state.next_serial = u64::MAX - 2;
    assert_eq!(begin_collect(&medium, &mut state, 0), Ok(()));
    // A block that holds no live node needs neither page nor serial.
    state.pending = None;
    state.next_serial = u64::MAX;
    state.next_page = 16;
    assert_eq!(begin_collect(&medium, &mut state, 2), Ok(()));
    let step = one_step(&mut medium, &mut state).expect("erase");
    assert_eq!((step.touched, step.finished), (Touched::Block(2), true));
}

#[test]
fn order_of_step() {
    let (mut medium, mut state) = collectible_block_0(4);
    begin_collect(&medium, &mut state, 0).expect("collect");
    // Nodes of the second page due do not matter to the first step.
    let byte = medium[2 * 256 + 64];
    medium[2 * 256 + 64] ^= 1;
    one_step(&mut medium, &mut state).expect("first page");
    // Now they do; 6 comes before 14, and 14 before 16.
    let serial = state.next_serial;
    state.next_serial = u64::MAX;
    let due = page_due(&medium, &state).expect("page due");
    medium[due * 256] = 0;
    assert_eq!(one_step(&mut medium, &mut state), refused(6));
    medium[2 * 256 + 64] = byte;
    assert_eq!(one_step(&mut medium, &mut state), refused(14));
    state.next_serial = serial;
    assert_eq!(one_step(&mut medium, &mut state), refused(16));
    medium[due * 256] = 0xFF;
    one_step(&mut medium, &mut state).expect("second page");
    let last = one_step(&mut medium, &mut state).expect("erase");
    assert_eq!((last.touched, last.finished), (Touched::Block(0), true));
}

#[test]
fn the_page_due_may_be_absent() {
    let (mut medium, mut state) = formatted(4);
    state.next_page = 16;
    begin_append(&medium, &mut state, &[(5, 1)]).expect("append");
    for block in 1..4 {
        medium[block * BLOCK_BYTES + 4095] = 0x7F;
    }
    assert_eq!(page_due(&medium, &state), None);
    assert_eq!(one_step(&mut medium, &mut state), refused(16));
    medium[2 * BLOCK_BYTES + 4095] = 0xFF;
    assert_eq!(page_due(&medium, &state), Some(32));
}

#[test]
fn the_new_head_wraps_round() {
    let (medium, mut state) = formatted(4);
    state.head = 2;
    state.next_page = 16;
    assert_eq!(page_due(&medium, &state), Some(48));
    state.head = 3;
    // Block 0 holds the base: the first clean one after it is block 1.
    assert_eq!(page_due(&medium, &state), Some(16));
    assert_eq!(available(&medium, &state), 32);
}

#[test]
fn order_of_opening() {
    let (mut medium, mut state) = formatted(4);
    append(&mut medium, &mut state, &[(5, 1000)]);
    assert_eq!(open(&medium, &state, 5), Ok(1000));
    medium[256 + 64] ^= 1;
    assert_eq!(open(&medium, &state, 6), refused(18));
    assert_eq!(open(&medium, &state, 5), refused(6));
    state.index[0].address = 0;
    assert_eq!(open(&medium, &state, 5), refused(6));
    medium[256 + 64] ^= 1;
    state.index[0].address = 25;
    assert_eq!(open(&medium, &state, 5), refused(6));
    state.index[0] = Place { valve: 6, address: 24 };
    assert_eq!(open(&medium, &state, 6), refused(6));
}

#[test]
fn one_is_first_everywhere() {
    let (_, mut state) = formatted(4);
    state.blocks = 99;
    let mut short = vec![0xFF; 12288];
    assert_eq!(writer::format(&short), refused(1));
    assert_eq!(begin_append(&short, &mut state, &[]), refused(1));
    assert_eq!(begin_commit(&short, &mut state), refused(1));
    assert_eq!(begin_collect(&short, &mut state, 99), refused(1));
    assert_eq!(one_step(&mut short, &mut state), refused(1));
    assert_eq!(open(&short, &state, 5), refused(1));
    assert_eq!(pick(&short, &state), refused(1));
    assert_eq!(survey(&short, &state), refused(1));
    assert_eq!(wanted(&short, &state, &[]), refused(1));
    assert_eq!(log_into(&short, &mut [], &mut [], &mut []), refused(1));
}

#[test]
fn collectible_blocks() {
    let (mut medium, mut state) = formatted(4);
    // Spoilt pages only: collectible. The head with pages left is not, with
    // none left it is, unless a whole page reaches the base's first serial.
    medium[3 * BLOCK_BYTES] = 0;
    assert!(collectible(&medium, &state, 3));
    state.head = 3;
    state.next_page = 15;
    assert!(!collectible(&medium, &state, 3));
    state.next_page = 16;
    assert!(collectible(&medium, &state, 3));
    assert!(!collectible(&medium, &state, 0));
    assert!(!collectible(&medium, &state, 1));
    // A tie goes to the lower number; fewer live nodes win.
    medium[2 * BLOCK_BYTES] = 0;
    assert_eq!(pick(&medium, &state), Ok(Some(2)));
    state.index = vec![Place { valve: 5, address: 2 * 384 }];
    assert_eq!(pick(&medium, &state), Ok(Some(3)));
    state.index.push(Place { valve: 6, address: 4 * 384 - 1 });
    assert_eq!(pick(&medium, &state), Ok(Some(2)));
    // A whole page counts by its serial, lawful or not.
    put_page(&mut medium, 33, &lay_page(9, 9, 1, &[]));
    assert!(!collectible(&medium, &state, 2));
    put_page(&mut medium, 33, &lay_page(9, 9, 0, &[]));
    assert!(collectible(&medium, &state, 2));
}

#[test]
fn a_node_is_an_entry_below_n_of_any_whole_page() {
    let (mut medium, mut state) = formatted(4);
    append(&mut medium, &mut state, &[(5, 1000)]);
    // An unlawful page, kind 1 and whole, with a key and a word past n.
    let mut bytes = lay_page(NODES, 9, 0, &[FIVE, Entry { key: 6, word: 7 }]);
    bytes[4] = 1;
    writer::seal(&mut bytes);
    put_page(&mut medium, 40, &bytes);
    state.index[0] = Place { valve: 5, address: 40 * 24 };
    assert_eq!(open(&medium, &state, 5), Ok(1000));
    state.index[0] = Place { valve: 6, address: 40 * 24 + 1 };
    assert_eq!(open(&medium, &state, 6), refused(6));
}

// ---------------------------------------------------------------------------
// The buffer: 7, 23, 24, and its place in the orders

/// Buffers that are no page in the making: each is another by one change.
fn unfit_buffers() -> Vec<Vec<u8>> {
    let two = holding(&[&[(5, 1000)], &[(6, 7)]]);
    let mut list: Vec<Vec<u8>> = [0, 1, 255].iter().map(|&length| two[..length].to_vec()).collect();
    list.push([two.to_vec(), vec![0xFF]].concat());
    list.push(vec![0xFF; 255]);
    list.push(vec![0xFF; 512]);
    list.push(stamped(&two, 2).to_vec());
    list.push(holding(&[&[(5, 1000)][..]; 17]).to_vec());
    list.push(holding(&[&[(5, 1000)][..]; 24]).to_vec());
    // The check, the kind, the flags, n, where groups end, the serial, an
    // unused key and word, and a removal with a word.
    let changes = [
        (0, 0), (1, 0xFE), (2, 1), (2, 3), (2, 5), (2, 0xFF), (3, 1), (3, 0xFF), (4, 0), (4, 1),
        (4, 3), (4, 17), (5, 1), (6, 0xFD), (6, 0xFB), (7, 0x7F), (8, 0), (15, 0x7F), (20, 0xFE),
        (63, 0), (80, 0), (255, 0x7F), (17, 0x80),
    ];
    for (at, byte) in changes {
        let mut buffer = two.to_vec();
        assert_ne!(buffer[at], byte);
        buffer[at] = byte;
        list.push(buffer);
    }
    // Kind 4 and flags 3 without an entry, and a single byte that is not FFh.
    list.push([vec![0xFF; 2], vec![4, 3, 0, 0], vec![0xFF; 250]].concat());
    list.push([vec![0xFF; 16], vec![0xFE], vec![0xFF; 239]].concat());
    list
}

/// The numbers that all calls that are lent the buffer answer.
fn numbers(medium: &[u8], state: &State, buffer: &[u8], block: usize) -> [u8; 7] {
    let (mut lent, mut given, mut lent_buffer) = (medium.to_vec(), state.clone(), buffer.to_vec());
    let step = writer::step(&mut lent, &mut given, &mut lent_buffer).map(drop);
    let begun = |result: Result<(), Refused>| result.err().map_or(0, |refused| refused.0);
    [
        begun(writer::append(medium, &mut state.clone(), buffer, &[], &[])),
        begun(writer::commit(medium, &mut state.clone(), buffer)),
        begun(writer::collect(medium, &mut state.clone(), buffer, block)),
        begun(writer::buffer(medium, state, &mut buffer.to_vec(), &[], &[])),
        begun(writer::flush(medium, &mut state.clone(), buffer)),
        begun(step),
        begun(word_at(medium, state, buffer, 5).map(drop)),
    ]
}

#[test]
fn unfit_buffers_are_7_after_1() {
    let (medium, mut state) = formatted(4);
    for pending in [None, Some(Pending::Commit { done: 0 }), Some(Pending::Flush)] {
        state.pending = pending;
        for buffer in unfit_buffers() {
            assert_eq!(buffered(&buffer), None, "{buffer:?}");
            assert_eq!(numbers(&medium, &state, &buffer, 99), [7; 7], "{buffer:?}");
            assert_eq!(numbers(&medium[1..], &state, &buffer, 99), [1; 7]);
        }
    }
}

#[test]
fn a_pending_flush_asks_for_its_group_in_the_buffer() {
    let (medium, mut state) = formatted(4);
    state.pending = Some(Pending::Flush);
    let one = holding(&[&[(200, 1)]]);
    assert_eq!(numbers(&medium, &state, &one, 99), [8, 8, 8, 8, 8, 0, 18]);
    assert_eq!(numbers(&medium, &state, &EMPTY, 99), [7; 7]);
    // 192 valves are set, and the buffer sets another.
    state.index = index_of(192);
    assert_eq!(numbers(&medium, &state, &one, 99), [7; 7]);
    let twice = holding(&[&[(200, 1)], &[(200 + REMOVAL, 0)]]);
    assert_eq!(numbers(&medium, &state, &twice, 99), [7; 7]);
    // Where the buffer is not lent there is no group to judge.
    assert_eq!(pick(&medium, &state), Ok(None));
    assert!(survey(&medium, &state).is_ok());
    assert_eq!(open(&medium, &state, 200), refused(18));
    assert_eq!(count_available(&medium, &state), Ok(63));
}

#[test]
fn twenty_four_comes_right_after_8() {
    let (mut medium, mut state) = formatted(4);
    let one = holding(&[&[(200, 1)]]);
    // No list, no such block, no page and no serial.
    medium[BLOCK_BYTES..].fill(0);
    (state.next_page, state.next_serial) = (16, u64::MAX);
    assert_eq!(numbers(&medium, &state, &one, 99), [24, 24, 24, 10, 13, 9, 18]);
    assert_eq!(numbers(&medium, &state, &EMPTY, 99), [10, 13, 15, 10, 10, 9, 18]);
    state.pending = Some(Pending::Commit { done: 0 });
    assert_eq!(numbers(&medium, &state, &one, 99), [8, 8, 8, 8, 8, 14, 18]);
}

#[test]
fn order_of_buffering() {
    let (mut medium, mut state) = formatted(4);
    state.index = index_of(191);
    medium[BLOCK_BYTES..].fill(0);
    (state.next_page, state.next_serial) = (16, u64::MAX);
    let mut buffer = holding(&[&[(5, 1)], &[(6, 1), (7, 1)]]);
    let before = buffer;
    let mut answer = |state: &State, keys: &[u16], words: &[u64]| {
        let result = writer::buffer(&medium, state, &mut buffer, keys, words);
        assert_eq!(buffer, before);
        result.expect_err("a refusal").0
    };
    let mut keys = vec![300; 97];
    let mut words = vec![1; 97];
    keys[14] = 32773;
    keys[15] = 400;
    assert_eq!(answer(&state, &keys, &words), 10);
    assert_eq!(answer(&state, &keys[..2], &words[..1]), 10);
    assert_eq!(answer(&state, &keys[..96], &words[..96]), 11);
    words[14] = 0;
    // Valves 300 and 400 beside 191; valve 5 is removed between.
    keys[13] = 500;
    assert_eq!(answer(&state, &keys[..96], &words[..96]), 12);
    keys[13] = 300;
    assert_eq!(answer(&state, &keys[..96], &words[..96]), 23);
    assert_eq!(answer(&state, &keys[..14], &words[..14]), 23);
    assert_eq!(answer(&state, &keys[..13], &words[..13]), 13);
    state.next_page = 15;
    assert_eq!(answer(&state, &keys[..13], &words[..13]), 13);
    // 17 pages are available: one for the flush, and 16 are left.
    medium[3 * BLOCK_BYTES..].fill(0xFF);
    let result = writer::buffer(&medium, &state, &mut buffer, &keys[..13], &words[..13]);
    assert_eq!(result, refused(14));
    state.next_serial -= 1;
    let result = writer::buffer(&medium, &state, &mut buffer, &keys[..13], &words[..13]);
    assert_eq!(result, Ok(()));
    assert_eq!(gather(&medium, &state, &mut buffer, &[(5, 1)]), refused(23));
}

/// 12 counts after each entry over the index: the buffer's, then the group's.
#[test]
fn twelve_counts_buffered_groups_too() {
    let (medium, mut state) = formatted(4);
    state.index = index_of(191);
    let full = holding(&[&[(200, 1)]]);
    let answer = |state: &State, buffer: &[u8; 256], group: &[(u16, u64)]| {
        gather(&medium, state, &mut buffer.clone(), group)
    };
    assert_eq!(answer(&state, &full, &[(201, 1)]), refused(12));
    assert_eq!(answer(&state, &full, &[(201, 1), (REMOVAL, 0)]), refused(12));
    assert_eq!(answer(&state, &full, &[(REMOVAL, 0), (201, 1)]), Ok(()));
    assert_eq!(answer(&state, &full, &[(200, 2)]), Ok(()));
    let swapped = holding(&[&[(200, 1)], &[(200 + REMOVAL, 0)]]);
    assert_eq!(answer(&state, &swapped, &[(201, 1)]), Ok(()));
    assert_eq!(writer::flush(&medium, &mut state, &full), Ok(()));
    // By hand: the buffer's own entries are too many, whatever the group.
    state.pending = None;
    state.index = index_of(192);
    assert_eq!(answer(&state, &full, &[(200 + REMOVAL, 0)]), refused(12));
    assert_eq!(writer::flush(&medium, &mut state, &full), refused(12));
}

#[test]
fn order_of_flush() {
    let (mut medium, mut state) = formatted(4);
    state.index = index_of(192);
    medium[BLOCK_BYTES..].fill(0);
    (state.next_page, state.next_serial) = (16, u64::MAX);
    let (other, same) = (holding(&[&[(200, 1)]]), holding(&[&[(5, 1)]]));
    assert_eq!(writer::flush(&medium, &mut state, &EMPTY), refused(10));
    assert_eq!(writer::flush(&medium, &mut state, &other), refused(12));
    assert_eq!(writer::flush(&medium, &mut state, &same), refused(13));
    medium[3 * BLOCK_BYTES..].fill(0xFF);
    assert_eq!(writer::flush(&medium, &mut state, &same), refused(13));
    state.next_page = 15;
    assert_eq!(writer::flush(&medium, &mut state, &same), refused(14));
    state.next_serial -= 1;
    assert_eq!(writer::flush(&medium, &mut state, &same), Ok(()));
    // The page due is not clean; 14 comes before 16.
    medium[15 * PAGE_BYTES] = 0;
    let mut buffer = same;
    assert_eq!(writer::step(&mut medium, &mut state, &mut buffer), refused(16));
    state.next_serial += 1;
    assert_eq!(writer::step(&mut medium, &mut state, &mut buffer), refused(14));
    assert_eq!(buffer, same);
}

#[test]
fn order_of_the_words_place() {
    let (mut medium, mut state) = formatted(4);
    append(&mut medium, &mut state, &[(5, 1000), (7, 20)]);
    let buffer = holding(&[&[(5, 1), (5, 2)], &[(6, 3), (6 + REMOVAL, 0)]]);
    let at = |medium: &[u8], valve| word_at(medium, &state, &buffer, valve);
    assert_eq!(at(&medium, 5), Ok(WordAt::Buffer(72)));
    assert_eq!(at(&medium, 7), Ok(WordAt::Medium(256 + 72)));
    for valve in [6, 8, 32768, 32773, 32774, 65535] {
        assert_eq!(at(&medium, valve), refused(18));
    }
    // Its node is spoilt: 6 for valve 7, whose word is sought in the medium.
    medium[256 + 64] ^= 1;
    assert_eq!(at(&medium, 5), Ok(WordAt::Buffer(72)));
    assert_eq!(at(&medium, 6), refused(18));
    assert_eq!(at(&medium, 7), refused(6));
    assert_eq!(word_at(&medium, &state, &EMPTY, 5), refused(6));
}
