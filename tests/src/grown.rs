//! Journals that were written for long before a test begins with them, for
//! media of many blocks: formatting alone takes a step for each block there. And
//! journals whose blocks are put in any order.

use crate::player::{Action, Outcome};
use crate::random::{Life, Random};
use crate::reader::{
    self, Class, Page, BASE, BLOCK_ADDRESSES, BLOCK_BYTES, BLOCK_PAGES, MAX_BLOCKS, MIN_BLOCKS,
    PAGE_BYTES,
};
use crate::writer::{put_entry, seal};
use std::collections::BTreeMap;
use std::sync::Mutex;

/// Block counts at the ends of what is allowed and of what was, and between.
pub const BLOCK_COUNTS: [usize; 7] = [MIN_BLOCKS, 5, 16, 17, 64, 255, MAX_BLOCKS];

/// More blocks than these are many: a test does less on them.
pub const FEW_BLOCKS: usize = 16;

/// A block count: any of 4 to 16, or, once in eight, one of the above.
pub fn some_blocks(random: &mut Random) -> usize {
    if random.one_in(8) {
        random.one_of(&BLOCK_COUNTS)
    } else {
        random.from_to(MIN_BLOCKS, FEW_BLOCKS)
    }
}

/// How a journal was written.
#[derive(Clone, Copy, PartialEq, Eq, PartialOrd, Ord, Debug)]
pub enum How {
    /// By groups alone, until one met 13: no log is longer.
    Full,
    /// Up to the last blocks; a commit and what is newer stand there.
    High,
    /// Half as many pages again as the medium has, with commits and with
    /// collections of any blocks in between.
    Round,
}

/// The journal that was so written on so many blocks, always the same one.
pub fn grown(blocks: usize, how: How) -> Life {
    static GROWN: Mutex<BTreeMap<(usize, How), Life>> = Mutex::new(BTreeMap::new());
    // A test that failed while it held the lock has left the map as it was.
    let mut lives = GROWN.lock().unwrap_or_else(|poisoned| poisoned.into_inner());
    lives.entry((blocks, how)).or_insert_with(|| grow(blocks, how)).clone()
}

/// One of these journals, half of the time with its blocks in any order.
pub fn some_grown(random: &mut Random, blocks: usize) -> Life {
    let mut life = grown(blocks, random.one_of(&[How::Full, How::High, How::Round]));
    life.change_habits(random);
    if random.one_in(2) {
        shuffle_blocks(random, &mut life);
    }
    life
}

fn grow(blocks: usize, how: How) -> Life {
    let mut random = Random::new((blocks as u64) << 2 | how as u64);
    let mut life = Life::blank(&mut random, blocks);
    finished(&mut life, &Action::Format);
    assert!(life.set_valve_0(1000), "by the rules of before");
    let pages = (blocks * BLOCK_PAGES) as u64;
    match how {
        How::Full => while write_group(&mut random, &mut life) {},
        How::High => {
            while state(&life).head + 4 < blocks && write_group(&mut random, &mut life) {}
            finished(&mut life, &Action::Commit);
            for _ in 0..3 {
                assert!(write_group(&mut random, &mut life));
            }
        }
        How::Round => {
            while state(&life).next_serial < pages + pages / 2 {
                if !write_group(&mut random, &mut life) {
                    make_room(&mut random, &mut life);
                }
            }
        }
    }
    life
}

fn state(life: &Life) -> &reader::State {
    life.state.as_ref().expect("a state")
}

/// An operation begun and stepped to its end, or refused: whether it was made.
fn finished(life: &mut Life, action: &Action) -> bool {
    life.act(action) == Outcome::Accepted && life.finish(None)
}

/// A group, appended or flushed: whether it passed. Valves below 180 are used.
fn write_group(random: &mut Random, life: &mut Life) -> bool {
    let length = random.one_of(&[1, 24, 25, 96]);
    let valve = |random: &mut Random| random.from_to(1, 179) as u16;
    let keys: Vec<u16> = (0..length).map(|_| valve(random)).collect();
    let words: Vec<u64> = keys.iter().map(|_| random.word()).collect();
    if length == 1 && random.one_in(2) {
        let buffered = life.act(&Action::Buffer { keys, words }) == Outcome::Accepted;
        return buffered && finished(life, &Action::Flush);
    }
    finished(life, &Action::Append { keys, words })
}

/// A commit, then collections: of blocks tried by chance, so that those left
/// stand in no order, and of the picker's, until a quarter is available.
fn make_room(random: &mut Random, life: &mut Life) {
    assert!(finished(life, &Action::Commit), "a commit has its pages");
    let blocks = state(life).blocks;
    for _ in 0..blocks {
        if reader::available(&life.medium, state(life)) >= 4 * blocks {
            return;
        }
        finished(life, &Action::Collect { block: random.below(blocks) });
    }
    let picked = reader::pick(&life.medium, state(life)).expect("a fit state");
    finished(life, &Action::Collect { block: picked.expect("a collectible block") });
}

/// Puts the blocks of a journal with nothing pending in any order.
pub fn shuffle_blocks(random: &mut Random, life: &mut Life) {
    let mut to: Vec<usize> = (0..state(life).blocks).collect();
    random.shuffle(&mut to);
    move_blocks(life, &to);
}

/// Turns the blocks of a journal with nothing pending by so many: its serials go
/// on at block 0, as those of one that has come round.
pub fn turn_blocks(life: &mut Life, by: usize) {
    let mut to: Vec<usize> = (0..state(life).blocks).collect();
    to.rotate_left(by);
    move_blocks(life, &to);
}

/// Puts each block where it is told. Base pages and the state then name the places
/// where the nodes have come to stand.
fn move_blocks(life: &mut Life, to: &[usize]) {
    let state = life.state.as_mut().expect("a state");
    assert_eq!(state.pending, None);
    let (medium, weak, erased) = (life.medium.clone(), life.weak.clone(), state.erased);
    for (block, bytes) in medium.chunks_exact(BLOCK_BYTES).enumerate() {
        life.medium[to[block] * BLOCK_BYTES..][..BLOCK_BYTES].copy_from_slice(bytes);
        life.weak[to[block]] = weak[block];
        state.erased[to[block]] = erased[block];
    }
    state.head = to[state.head];
    state.index.iter_mut().for_each(|place| place.address = moved(to, place.address));
    life.medium.chunks_exact_mut(PAGE_BYTES).for_each(|page| move_addresses(page, to));
}

/// The address after each block has gone to its new number.
fn moved(to: &[usize], address: u64) -> u64 {
    let block = to[(address / BLOCK_ADDRESSES) as usize] as u64;
    block * BLOCK_ADDRESSES + address % BLOCK_ADDRESSES
}

/// A whole base page gets the new addresses.
fn move_addresses(page: &mut [u8], to: &[usize]) {
    let mut bytes = [0; PAGE_BYTES];
    bytes.copy_from_slice(page);
    let Some(base) = Page::from_bytes(page).filter(|page| page.kind() == BASE) else { return };
    if base.class() != Class::Whole {
        return;
    }
    for (place, mut entry) in base.entries().enumerate() {
        entry.word = moved(to, entry.word);
        put_entry(&mut bytes, place, entry);
    }
    seal(&mut bytes);
    page.copy_from_slice(&bytes);
}
