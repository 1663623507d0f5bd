//! Housekeeping: the operation that comes next, so that a journal stays able to
//! write.

use crate::reader::{self, Class, Page, Refused, State, BASE, ENDS, PAGE_BYTES};
use crate::writer;

/// An operation that the dispatcher names.
#[derive(Clone, Copy, PartialEq, Eq, Debug)]
pub enum Operation {
    /// The group offered is appended.
    Append,
    Commit,
    /// The block is collected.
    Collect(usize),
}

/// Names the next operation, and begins nothing: the group offered, unless its
/// append would answer 13; else a commit, where a whole page is newer than the
/// base and the log has been read; else a collection of the picker's block.
/// Refuses as the operation that it names, and 15 where the picker has none.
pub fn next_operation(
    medium: &[u8],
    state: &State,
    buffer: &[u8],
    (keys, words): (&[u16], &[u64]),
    log_is_read: bool,
) -> Result<Operation, Refused> {
    let mut begun = state.clone();
    match writer::append(medium, &mut begun, buffer, keys, words) {
        Err(Refused(13)) => {}
        answer => return answer.map(|()| Operation::Append),
    }
    if log_is_read && newer_than_base(medium) {
        return writer::commit(medium, &mut begun, buffer).map(|()| Operation::Commit);
    }
    let block = reader::pick(medium, state)?.ok_or(Refused(15))?;
    writer::collect(medium, &mut begun, buffer, block).map(|()| Operation::Collect(block))
}

/// Whether a whole page is newer than the base: no whole page of the greatest
/// serial is of kind 2 with the end flag. Any flags from 2 on have it, also of a
/// page that breaks the page rules.
pub fn newer_than_base(medium: &[u8]) -> bool {
    let pages = medium.chunks_exact(PAGE_BYTES).filter_map(Page::from_bytes);
    let whole: Vec<Page> = pages.filter(|page| page.class() == Class::Whole).collect();
    let greatest = whole.iter().map(|page| page.serial()).max();
    let ends_a_base = |page: &&Page| page.kind() == BASE && page.flags() >= ENDS;
    !whole.iter().filter(ends_a_base).any(|page| Some(page.serial()) == greatest)
}
