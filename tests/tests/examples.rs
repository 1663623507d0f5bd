//! The test pages and test media of the document.

mod common;

use common::*;
use journal_tests::reader::*;
use journal_tests::writer::{self, lay_page, Touched};

fn check_of(bytes: &[u8]) -> u16 {
    Page::from_bytes(bytes).expect("a page").check()
}

#[test]
fn empty_base() {
    let bytes = lay_page(BASE, 3, 1, &[]);
    assert_eq!(bytes[..9], [0x5C, 0, 2, 3, 0, 0, 0xFF, 0xFF, 1]);
    assert_eq!(check_of(&bytes), 92);
    assert_eq!(classify(&bytes), Class::Whole);
    assert!(Page::from_bytes(&bytes).expect("a page").lawful());
    let (medium, _) = formatted(4);
    assert_eq!(page(&medium, 0), bytes);
    assert!(medium[256..].iter().all(|&byte| byte == 0xFF));
}

#[test]
fn one_node_whole_and_torn() {
    let mut bytes = lay_page(NODES, 3, 2, &[set_entry(5, 1000)]);
    assert_eq!(check_of(&bytes), 163);
    assert_eq!(bytes[..2], [0xA3, 0]);
    assert_eq!(classify(&bytes), Class::Whole);
    bytes[16] = 0xFF;
    let zeros: u32 = bytes[2..].iter().map(|byte| byte.count_zeros()).sum();
    assert_eq!(zeros, 157);
    assert_eq!(classify(&bytes), Class::Spoilt);
}

#[test]
fn clean_is_not_whole() {
    assert_eq!(classify(&[0xFF; 256]), Class::Clean);
    assert_eq!(classify(&[0; 256]), Class::Spoilt);
}

#[test]
fn parts_of_the_medium() {
    let medium: Vec<u8> = (0..1000).map(|i| (i / 256) as u8).collect();
    assert_eq!(page(&medium, 2), [2; 256]);
    assert!(std::ptr::eq(&page(&medium, 2)[0], &medium[512]));
    for p in [3, 4, usize::MAX / 256, usize::MAX] {
        assert_eq!(page(&medium, p), []);
    }
}

#[test]
fn pages_of_an_append() {
    for (entries, pages) in [(24, 1), (25, 2), (96, 4)] {
        let (mut medium, mut state) = formatted(4);
        let steps = append(&mut medium, &mut state, &valves(1, entries));
        assert_eq!(steps.len(), pages);
        let expected: Vec<Touched> = (1..=pages).map(Touched::Page).collect();
        assert_eq!(touched(&steps), expected);
    }
    let (medium, mut state) = formatted(4);
    assert_eq!(begin_append(&medium, &mut state, &valves(1, 97)), refused(10));
    assert_eq!(begin_append(&medium, &mut state, &[]), refused(10));
}

#[test]
fn pages_of_a_commit() {
    for (count, pages) in [(0, 1), (24, 1), (25, 2), (192, 8)] {
        let (mut medium, mut state) = formatted(8);
        for part in valves(1, count).chunks(96) {
            append(&mut medium, &mut state, part);
        }
        let serial = state.next_serial;
        let steps = commit(&mut medium, &mut state);
        assert_eq!(steps.len(), pages);
        assert_eq!(state.first_base_serial, serial);
        let replay = replay(&medium).expect("recovery");
        assert!(replay.log().is_empty());
        assert_eq!(replay.state.first_base_serial, serial);
        assert_eq!(replay.state.index, state.index);
        assert_eq!(replay.settings().len(), usize::from(count));
    }
}

#[test]
fn removing_an_unset_valve() {
    let (mut medium, mut state) = formatted(4);
    append(&mut medium, &mut state, &[(5, 1000)]);
    append(&mut medium, &mut state, &[(7 + REMOVAL, 0)]);
    let replay = replay(&medium).expect("recovery");
    let log = vec![vec![set_entry(5, 1000)], vec![set_entry(7 + REMOVAL, 0)]];
    assert_eq!(replay.log(), log);
    assert_eq!(replay.settings(), [set_entry(5, 1000)]);
}

#[test]
fn a_valve_twice_in_a_group() {
    let (mut medium, mut state) = formatted(4);
    append(&mut medium, &mut state, &[(5, 1), (5, 2)]);
    assert_eq!(open(&medium, &state, 5), Ok(2));
    assert_eq!(replay(&medium).expect("recovery").settings(), [set_entry(5, 2)]);
    append(&mut medium, &mut state, &[(5 + REMOVAL, 0), (5, 3)]);
    assert_eq!(open(&medium, &state, 5), Ok(3));
    append(&mut medium, &mut state, &[(5, 4), (5 + REMOVAL, 0)]);
    assert_eq!(open(&medium, &state, 5), refused(18));
}

#[test]
fn lengths() {
    for (length, blocks) in [(16384, 4), (65536, 16), (69632, 17), (1048576, 256)] {
        assert_eq!(check_length(&vec![0; length]), Ok(blocks));
    }
    for length in [1052672, 1048577, 1048575, 65537, 12288, 16383, 16385, 0] {
        assert_eq!(check_length(&vec![0; length]), refused(1));
    }
}

#[test]
fn cut_after_the_first_page_of_thirty_entries() {
    let (mut medium, mut state) = formatted(4);
    begin_append(&medium, &mut state, &valves(1, 30)).expect("append");
    one_step(&mut medium, &mut state).expect("first page");
    let replay = replay(&medium).expect("recovery");
    assert!(replay.log().is_empty());
    let mut state = replay.state;
    assert_eq!((state.head, state.next_page, state.next_serial), (0, 16, 3));
    // Block 1 is erased before serial 3.
    let steps = append(&mut medium, &mut state, &[(5, 1)]);
    assert_eq!(touched(&steps), [Touched::Block(1), Touched::Page(16)]);
    assert_eq!(Page::of(&medium, 16).expect("page 16").serial(), 3);
    assert_eq!(recover(&medium).expect("recovery").index, state.index);
}

#[test]
fn forty_seven_groups_pass() {
    let (mut medium, mut state) = formatted(4);
    assert_eq!(available(&medium, &state), 63);
    for word in 0..47 {
        append(&mut medium, &mut state, &[(5, word)]);
    }
    assert_eq!(available(&medium, &state), 16);
    assert_eq!(begin_append(&medium, &mut state, &[(5, 47)]), refused(13));
}

#[test]
fn morning_prints() {
    let (mut medium, mut state) = formatted(4);
    append(&mut medium, &mut state, &[(5, 1000), (7, 20)]);
    append(&mut medium, &mut state, &[(5 + REMOVAL, 0)]);
    assert_eq!(morning(&medium), "log 3\n0 5 1000\n0 7 20\n1 5 -\nset 1\n7 20\n");
    assert_eq!(morning(&blank(4)), "refused 4\n");
    assert_eq!(morning(&medium[..12288]), "refused 1\n");
    // More blocks than the program takes: the library reads them.
    medium.resize(16 * BLOCK_BYTES, 0xFF);
    assert_eq!(morning(&medium), "log 3\n0 5 1000\n0 7 20\n1 5 -\nset 1\n7 20\n");
    medium.resize(17 * BLOCK_BYTES, 0xFF);
    assert_eq!(morning(&medium), "refused 1\n");
    assert_eq!(recovery_number(&medium), 0);
}

#[test]
fn format_erases_upward_and_ends_with_the_base() {
    let mut medium = vec![0; 5 * BLOCK_BYTES];
    let mut state = writer::format(&medium).expect("format");
    assert_eq!((state.head, state.next_page), (4, 16));
    assert_eq!((state.next_serial, state.first_base_serial), (1, 0));
    let steps = finish(&mut medium, &mut state);
    let mut expected: Vec<Touched> = (0..5).map(Touched::Block).collect();
    expected.push(Touched::Page(0));
    assert_eq!(touched(&steps), expected);
    assert_eq!((state.head, state.next_page), (0, 1));
    assert_eq!((state.next_serial, state.first_base_serial), (2, 1));
    assert_eq!(state.pending, None);
}

#[test]
fn format_needs_only_page_0_clean() {
    let mut medium = blank(4);
    let mut state = writer::format(&medium).expect("format");
    for _ in 0..4 {
        one_step(&mut medium, &mut state).expect("erase");
    }
    medium[300] = 0;
    let mut other = medium.clone();
    let mut other_state = state.clone();
    assert!(one_step(&mut medium, &mut state).expect("base").finished);
    other[255] = 0;
    assert_eq!(one_step(&mut other, &mut other_state), refused(16));
}

#[test]
fn collection_moves_in_address_order_and_erases() {
    let (mut medium, mut state) = formatted(4);
    // Block 0: base, then 15 pages; valve 99 first, so that addresses and
    // valves are in different order.
    append(&mut medium, &mut state, &[(99, 9), (3, 30), (2, 20)]);
    append(&mut medium, &mut state, &[(3 + REMOVAL, 0)]);
    for word in 0..13 {
        append(&mut medium, &mut state, &[(50, word)]);
    }
    assert_eq!(pick(&medium, &state), Ok(None));
    commit(&mut medium, &mut state);
    assert_eq!(pick(&medium, &state), Ok(Some(0)));
    begin_collect(&medium, &mut state, 0).expect("collect");
    let steps = finish(&mut medium, &mut state);
    assert_eq!(touched(&steps), [Touched::Page(17), Touched::Block(0)]);
    let moved = Page::of(&medium, 17).expect("page 17");
    assert_eq!((moved.kind(), moved.flags()), (MOVED, 3));
    let entries: Vec<Entry> = moved.entries().collect();
    assert_eq!(entries, [set_entry(99, 9), set_entry(2, 20), set_entry(50, 12)]);
    let replay = replay(&medium).expect("recovery");
    assert_eq!(replay.state.index, state.index);
    assert!(replay.log().is_empty());
    let rows = survey(&medium, &state).expect("survey");
    assert_eq!(rows[0], [0, 16, 0]);
    assert_eq!(rows[1], [2, 14, 0]);
    assert_eq!(rows[4], [0, 0, 0]);
}
