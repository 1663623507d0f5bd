//! States that are unfit or only odd: what 7 is said of.

use super::refused::{REMOVED_WITH_WORD, SET};
use super::Random;
use crate::grown::some_blocks;
use crate::reader::{self, Entry, Place, BLOCK_PAGES, MAX_BLOCKS, RECORDS};
use crate::writer::{Pending, State};

/// Changes one thing about a state, so that it is unfit or only odd.
pub fn damage_state(random: &mut Random, state: &mut State) {
    let blocks = state.blocks;
    match random.below(14) {
        0 => state.blocks = some_blocks(random),
        1 => state.head = random.below(blocks + 2),
        2 => state.next_page = random.below(BLOCK_PAGES + 2),
        3 => state.next_serial = random.one_of(&[0, 1, 2, u64::MAX - 4, u64::MAX - 1, u64::MAX]),
        4 => state.first_base_serial = state.next_serial.wrapping_sub(random.below(3) as u64),
        5 => state.first_base_serial = random.one_of(&[0, 1, u64::MAX]),
        6 => damage_index(random, state),
        7 => state.index = long_index(random.one_of(&[24, 191, 192, 193])),
        8 => state.pending = Some(Pending::Commit { done: random.below(10) as u64 }),
        9 => state.pending = Some(Pending::Collect { block: random.below(blocks + 1) }),
        10 => state.pending = Some(Pending::Format { erased: random.below(blocks + 2) }),
        11 => state.erased = some_erased(random),
        12 => state.pending = Some(Pending::Flush),
        _ => state.pending = Some(some_pending_append(random)),
    }
}

/// Records of erased blocks: none, all, or any.
fn some_erased(random: &mut Random) -> [bool; RECORDS] {
    match random.below(4) {
        0 => [false; RECORDS],
        1 => [true; RECORDS],
        _ => std::array::from_fn(|_| random.one_in(2)),
    }
}

fn damage_index(random: &mut Random, state: &mut State) {
    let end = reader::BLOCK_ADDRESSES * state.blocks as u64;
    if state.index.is_empty() {
        state.index.push(Place { valve: 5, address: 0 });
    }
    let at = random.below(state.index.len());
    match random.below(3) {
        0 => state.index[at].valve = random.bits() as u16,
        1 => state.index[at].address = random.one_of(&[0, end - 1, end, u64::MAX]),
        _ => state.index[at].address = random.bits() % end,
    }
}

fn long_index(valves: u16) -> Vec<Place> {
    (0..valves).map(|valve| Place { valve, address: u64::from(valve) }).collect()
}

fn some_pending_append(random: &mut Random) -> Pending {
    let length = random.one_of(&[0, 1, 24, 25, 96, 97]);
    let mut entries = vec![SET; length];
    for entry in &mut entries {
        entry.key = random.bits() as u16;
        entry.word = if entry.removes() { 0 } else { random.word() };
    }
    if length > 0 && random.one_in(4) {
        entries[length / 2] = random.one_of(&[REMOVED_WITH_WORD, Entry { key: 0, word: 0 }]);
    }
    let pages = MAX_BLOCKS * BLOCK_PAGES;
    let written = (0..random.below(5)).map(|_| random.below(pages) as u32).collect();
    Pending::Append { entries, written }
}
