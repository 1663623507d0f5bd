//! Writing by the rules of before, when valve 0 could be set: pages are laid by
//! hand, as an append or a flush of one page would have written them then.

use crate::reader::{self, Entry, BLOCK_PAGES, NODES, PAGE_BYTES};
use crate::writer::{lay_gathered, lay_page, put_page, State};

/// A group of at most 24 entries, appended.
pub fn append(medium: &mut [u8], state: &mut State, entries: &[Entry]) {
    let bytes = lay_page(NODES, 3, state.next_serial, entries);
    program(medium, state, &bytes, entries);
}

/// Groups of at most 16 entries in all, flushed.
pub fn flush(medium: &mut [u8], state: &mut State, groups: &[&[Entry]]) {
    let bytes = lay_gathered(state.next_serial, groups);
    program(medium, state, &bytes, &groups.concat());
}

/// The page due is programmed, its block erased first where that is due; the
/// entries enter the index.
fn program(medium: &mut [u8], state: &mut State, bytes: &[u8; PAGE_BYTES], entries: &[Entry]) {
    assert_eq!(state.pending, None);
    let page = reader::page_due(medium, state).expect("a page");
    assert_eq!(reader::page(medium, page), [0xFF; PAGE_BYTES]);
    put_page(medium, page, bytes);
    let (block, nth) = (page / BLOCK_PAGES, page % BLOCK_PAGES);
    state.erased[block] |= nth == 0;
    (state.head, state.next_page) = (block, nth + 1);
    state.next_serial += 1;
    for (place, &entry) in entries.iter().enumerate() {
        reader::enter(&mut state.index, entry, reader::address(page, place));
    }
}
