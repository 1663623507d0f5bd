//! Small groups on one page: the page of kind 4, the write buffer and its flush.

mod common;

use common::*;
use journal_tests::reader::*;
use journal_tests::writer::{self, lay_gathered, Pending, State, Step, Touched};

/// A removal.
fn removal(valve: u16) -> (u16, u64) {
    (valve + REMOVAL, 0)
}

/// Begins a flush and steps to its end; what each step told.
fn flush(medium: &mut [u8], state: &mut State, buffer: &mut [u8]) -> Vec<Step> {
    writer::flush(medium, state, buffer).expect("flush");
    let mut steps = Vec::new();
    while state.pending.is_some() {
        let before = buffer.to_vec();
        let step = writer::step(medium, state, buffer).expect("a step");
        assert!(step.finished || buffer == before);
        steps.push(step);
    }
    assert_eq!(buffer, EMPTY);
    steps
}

/// Groups as the log has them.
fn entries(groups: &[&[(u16, u64)]]) -> Vec<Vec<Entry>> {
    let entry = |&(key, word): &(u16, u64)| Entry { key, word };
    groups.iter().map(|group| group.iter().map(entry).collect()).collect()
}

#[test]
fn the_bytes_of_a_page() {
    let (medium, state) = formatted(4);
    let mut buffer = EMPTY;
    gather(&medium, &state, &mut buffer, &[(5, 1000), (7, 20)]).expect("a group");
    gather(&medium, &state, &mut buffer, &[removal(5)]).expect("a group");
    let mut expected = [0xFF; 256];
    expected[2..8].copy_from_slice(&[4, 3, 3, 0, 0xFE, 0xFF]);
    expected[16..22].copy_from_slice(&[5, 0, 7, 0, 5, 0x80]);
    expected[64..88].fill(0);
    expected[64..66].copy_from_slice(&[0xE8, 3]);
    expected[72] = 20;
    assert_eq!(buffer, expected);
    // Programmed with serial 2.
    let page = writer::stamped(&buffer, 2);
    expected[8..16].copy_from_slice(&[2, 0, 0, 0, 0, 0, 0, 0]);
    assert_eq!(page[2..], expected[2..]);
    let page = Page::from_bytes(&page).expect("a page");
    assert_eq!((page.class(), page.lawful()), (Class::Whole, true));
    // 7 + 6 + 14 + 1 zero bits in bytes 2–7, 63 in the serial, 14 + 13 + 13 in
    // the keys, 58 + 62 + 64 in the words.
    assert_eq!(page.check(), 7 + 6 + 14 + 1 + 63 + 14 + 13 + 13 + 58 + 62 + 64);
    assert_eq!(page.groups(), entries(&[&[(5, 1000), (7, 20)], &[removal(5)]]));
}

#[test]
fn any_number_of_groups_to_sixteen_entries() {
    for lengths in [&[1][..], &[16], &[1; 16], &[15, 1], &[1, 15], &[3, 5, 8], &[8, 7]] {
        let (medium, state) = formatted(4);
        let (mut buffer, mut groups, mut first) = (EMPTY, Vec::new(), 1);
        for &length in lengths {
            let group = valves(first, length);
            gather(&medium, &state, &mut buffer, &group).expect("a group");
            groups.push(group);
            first += length;
        }
        let groups: Vec<&[(u16, u64)]> = groups.iter().map(Vec::as_slice).collect();
        assert_eq!(Page::from_bytes(&buffer).expect("a page").groups(), entries(&groups));
        assert_eq!(buffer, holding(&groups));
        let left = 17 - first;
        assert_eq!(gather(&medium, &state, &mut buffer, &valves(1, left + 1)), refused(23));
    }
}

#[test]
fn a_flush_is_one_page_with_all_groups() {
    let (mut medium, mut state) = formatted(4);
    append(&mut medium, &mut state, &[(9, 9)]);
    let groups: [&[(u16, u64)]; 3] = [&[(5, 1), (6, 2)], &[(5, 3)], &[removal(6), removal(9)]];
    let mut buffer = EMPTY;
    for group in groups {
        gather(&medium, &state, &mut buffer, group).expect("a group");
        // Not yet in the log nor in the index.
        assert_eq!(replay(&medium).expect("recovery").log().len(), 1);
        assert_eq!(open(&medium, &state, 5), refused(18));
    }
    let steps = flush(&mut medium, &mut state, &mut buffer);
    assert_eq!(touched(&steps), [Touched::Page(2)]);
    let replay = replay(&medium).expect("recovery");
    assert_eq!(replay.log()[1..], entries(&groups));
    assert_eq!(replay.settings(), [set_entry(5, 3)]);
    assert_eq!(replay.state.index, state.index);
    assert_eq!(open(&medium, &state, 5), Ok(3));
    let (mut keys, mut words, mut groups) = ([0; 7], [0; 7], [7; 7]);
    assert_eq!(log_into(&medium, &mut keys, &mut words, &mut groups), Ok(6));
    assert_eq!(keys, [9, 5, 6, 5, 6 + REMOVAL, 9 + REMOVAL, 0]);
    assert_eq!(groups, [0, 1, 1, 2, 3, 3, 7]);
}

/// As many pages as by appends, and sixteen times the moves.
#[test]
fn forty_seven_flushes_pass() {
    let (mut medium, mut state) = formatted(4);
    let mut buffer = EMPTY;
    for word in 0..47 * 16 {
        gather(&medium, &state, &mut buffer, &[(5, word)]).expect("a group");
        if word % 16 == 15 {
            assert_eq!(gather(&medium, &state, &mut buffer, &[(5, word)]), refused(23));
            flush(&mut medium, &mut state, &mut buffer);
        }
    }
    assert_eq!(available(&medium, &state), 16);
    assert_eq!(gather(&medium, &state, &mut buffer, &[(5, 0)]), refused(13));
    assert_eq!(replay(&medium).expect("recovery").log().len(), 47 * 16);
}

/// Every bit of the page alone: all groups count, or all vanish.
#[test]
fn a_cut_flush_counts_whole_or_not_at_all() {
    let (mut medium, mut state) = formatted(4);
    let mut buffer = holding(&[&[(5, 1)], &[(6, 2)], &[(5, 3), removal(6)]]);
    flush(&mut medium, &mut state, &mut buffer);
    let last = page(&medium, 1).to_vec();
    for bit in 0..2048 {
        let (byte, mask) = (bit / 8, 1 << (bit % 8));
        let mut torn = medium.clone();
        torn[256 + byte] |= mask;
        let complete = last[byte] & mask != 0;
        let replay = replay(&torn).expect("recovery");
        assert_eq!(replay.log().len(), if complete { 3 } else { 0 });
        assert_eq!(replay.settings().len(), usize::from(complete));
    }
}

#[test]
fn the_step_programs_the_buffer_as_then_lent() {
    let (mut medium, mut state) = formatted(4);
    writer::flush(&medium, &mut state, &holding(&[&[(5, 1)]])).expect("flush");
    let mut other = holding(&[&[(6, 2)], &[(7, 3)]]);
    writer::step(&mut medium, &mut state, &mut other).expect("a step");
    assert_eq!(other, EMPTY);
    let groups = entries(&[&[(6, 2)], &[(7, 3)]]);
    assert_eq!(replay(&medium).expect("recovery").log(), groups);
    let groups: Vec<&[Entry]> = groups.iter().map(Vec::as_slice).collect();
    assert_eq!(page(&medium, 1), lay_gathered(2, &groups));
}

/// After a recovery the block is erased first, and the buffer stays till then.
#[test]
fn the_erase_before_a_flush() {
    let (mut medium, _) = formatted(4);
    let mut state = recover(&medium).expect("recovery");
    let mut buffer = holding(&[&[(5, 1)]]);
    let steps = flush(&mut medium, &mut state, &mut buffer);
    assert_eq!(touched(&steps), [Touched::Block(1), Touched::Page(16)]);
}

/// Made by hand: the buffer holds a group while something else is pending.
#[test]
fn steps_of_other_operations_leave_the_buffer() {
    let (medium, state) = formatted(4);
    let held = holding(&[&[(5, 1)]]);
    let append = Pending::Append { entries: vec![set_entry(5, 2)], written: vec![] };
    for pending in [append, Pending::Commit { done: 0 }] {
        let (mut lent, mut buffer) = (medium.clone(), held);
        let mut given = State { pending: Some(pending), ..state.clone() };
        writer::step(&mut lent, &mut given, &mut buffer).expect("a step");
        assert_eq!(buffer, held);
    }
    let (mut lent, mut buffer) = (medium.clone(), held);
    let mut given = writer::format(&medium).expect("format");
    while given.pending.is_some() {
        writer::step(&mut lent, &mut given, &mut buffer).expect("a step");
        assert_eq!(buffer, held);
    }
}

/// Nodes on a page of kind 4 are opened, committed and moved.
#[test]
fn nodes_of_kind_4_live_on() {
    let (mut medium, mut state) = formatted(4);
    let mut buffer = holding(&[&[(7, 70), (5, 1)], &[(5, 50)], &[removal(6)]]);
    flush(&mut medium, &mut state, &mut buffer);
    assert_eq!((open(&medium, &state, 5), open(&medium, &state, 7)), (Ok(50), Ok(70)));
    for word in 0..14 {
        append(&mut medium, &mut state, &[(9, word)]);
    }
    commit(&mut medium, &mut state);
    begin_collect(&medium, &mut state, 0).expect("collect");
    finish(&mut medium, &mut state);
    let moved = Page::of(&medium, 17).expect("page 17");
    let expected = [set_entry(7, 70), set_entry(5, 50), set_entry(9, 13)];
    assert_eq!((moved.kind(), moved.entries().collect::<Vec<_>>()), (MOVED, expected.to_vec()));
    assert_eq!(replay(&medium).expect("recovery").settings().len(), 3);
}

/// It drops an open group of kind 1, and is no page of one.
#[test]
fn kind_4_is_a_group_by_itself() {
    let mut medium = blank(4);
    let full = [set_entry(5, 1); 24];
    writer::put_page(&mut medium, 0, &writer::lay_page(BASE, 3, 1, &[]));
    for serial in 2..6 {
        let flags = u8::from(serial == 2);
        writer::put_page(&mut medium, serial, &writer::lay_page(NODES, flags, serial as u64, &full));
    }
    let (one, two) = ([set_entry(6, 1)], [set_entry(7, 2)]);
    writer::put_page(&mut medium, 6, &lay_gathered(6, &[&one, &two]));
    assert_eq!(replay(&medium).expect("recovery").log(), [one, two]);
    writer::put_page(&mut medium, 7, &writer::lay_page(NODES, 2, 7, &full));
    assert_eq!(recovery_number(&medium), 5);
}
