//! Media for each refusal of recovery, 1 to 6, and each of its ways.

use super::damage::some_page;
use super::sketches::{full_page, setting};
use super::{medium, Random, Sketch};
use crate::reader::{
    self, Class, Entry, Page, BASE, BUFFER_ENTRIES, GATHERED, GROUP_ENTRIES, MAX_VALVES, MOVED,
    NODES, PAGE_BYTES, PAGE_ENTRIES, REMOVAL,
};
use crate::writer::{lay_page, put_page, seal};

/// How many ways there are to be refused with this number, 1 to 6.
pub fn ways(number: u8) -> usize {
    match number {
        1 => LENGTHS.len(),
        2 => BREAKS.len() + 2,
        3 => 3,
        4 => 8,
        5 => 11,
        6 => 20,
        _ => 0,
    }
}

/// A medium that recovery refuses with this number, 1 to 6, in one of its ways.
pub fn refused_medium(random: &mut Random, number: u8, way: usize) -> Vec<u8> {
    match number {
        1 => refused_1(random, way),
        2 => refused_2(random, way),
        3 => refused_3(random, way),
        4 => refused_4(random, way),
        5 => refused_5(random, way),
        _ => refused_6(random, way),
    }
}

/// Lengths that are not allowed.
const LENGTHS: [usize; 11] =
    [0, 1, 256, 4096, 12288, 16383, 16385, 65537, 1048575, 1048577, 1052672];

fn refused_1(random: &mut Random, way: usize) -> Vec<u8> {
    let mut bytes = medium(random);
    bytes.resize(LENGTHS[way], 0xFF);
    bytes
}

/// A page that breaks one page rule: kind, flags, n stored, entries, then one
/// more byte to put.
type Break = (u8, u8, u8, &'static [Entry], Option<(usize, u8)>);

pub(super) const SET: Entry = Entry { key: 5, word: 1000 };
const REMOVED: Entry = Entry { key: 5 + REMOVAL, word: 0 };
pub(super) const REMOVED_WITH_WORD: Entry = Entry { key: 5 + REMOVAL, word: 1 };
const FULL: [Entry; PAGE_ENTRIES] = [SET; PAGE_ENTRIES];
const ALMOST: [Entry; PAGE_ENTRIES - 1] = [SET; PAGE_ENTRIES - 1];
const SIXTEEN: [Entry; BUFFER_ENTRIES] = [SET; BUFFER_ENTRIES];
const SEVENTEEN: [Entry; BUFFER_ENTRIES + 1] = [SET; BUFFER_ENTRIES + 1];

const BREAKS: [Break; 52] = [
    // The kind.
    (0, 3, 1, &[SET], None),
    (5, 3, 1, &[SET], None),
    (9, 3, 1, &[SET], None),
    (255, 3, 1, &[SET], None),
    // The flags, and those that moved nodes may not carry.
    (NODES, 4, 24, &FULL, None),
    (NODES, 7, 1, &[SET], None),
    (BASE, 255, 24, &FULL, None),
    (MOVED, 0, 24, &FULL, None),
    (MOVED, 1, 24, &FULL, None),
    (MOVED, 2, 24, &FULL, None),
    // n.
    (NODES, 3, 25, &FULL, None),
    (BASE, 3, 255, &FULL, None),
    (NODES, 3, 1, &[SET], Some((5, 1))),
    (NODES, 3, 0, &[], None),
    (NODES, 2, 0, &[], None),
    (MOVED, 3, 0, &[], None),
    (BASE, 2, 0, &[], None),
    (BASE, 1, 0, &[], None),
    (NODES, 0, 23, &ALMOST, None),
    (NODES, 1, 23, &ALMOST, None),
    (BASE, 0, 23, &ALMOST, None),
    (BASE, 1, 1, &[SET], None),
    // Bytes 6 and 7.
    (NODES, 3, 1, &[SET], Some((6, 0xFE))),
    (BASE, 3, 0, &[], Some((7, 0))),
    // Unused places.
    (NODES, 3, 1, &[SET], Some((18, 0))),
    (NODES, 3, 1, &[SET], Some((63, 0x7F))),
    (NODES, 3, 1, &[SET], Some((72, 0xFE))),
    (BASE, 3, 0, &[], Some((255, 0))),
    (NODES, 3, 1, &[SET, SET], None),
    // Keys.
    (BASE, 3, 1, &[REMOVED], None),
    (MOVED, 3, 1, &[REMOVED], None),
    (NODES, 3, 1, &[REMOVED_WITH_WORD], None),
    (NODES, 3, 2, &[SET, REMOVED_WITH_WORD], None),
    // Kind 4: the flags, n, the bits that say where groups end, unused places
    // and keys.
    (GATHERED, 0, 16, &SIXTEEN, None),
    (GATHERED, 1, 16, &SIXTEEN, None),
    (GATHERED, 2, 1, &[SET], None),
    (GATHERED, 7, 1, &[SET], None),
    (GATHERED, 0, 24, &FULL, None),
    (GATHERED, 3, 0, &[], None),
    (GATHERED, 3, 17, &SEVENTEEN, None),
    (GATHERED, 3, 24, &FULL, None),
    (GATHERED, 3, 1, &[SET], Some((5, 1))),
    (GATHERED, 3, 1, &[SET], Some((6, 0xFE))),
    (GATHERED, 3, 2, &[SET, SET], Some((6, 0xFD))),
    (GATHERED, 3, 2, &[SET, SET], Some((6, 0xFB))),
    (GATHERED, 3, 2, &[SET, SET], Some((7, 0x7F))),
    (GATHERED, 3, 16, &SIXTEEN, Some((7, 0x7F))),
    (GATHERED, 3, 1, &[SET], Some((18, 0))),
    (GATHERED, 3, 16, &SIXTEEN, Some((48, 0xFE))),
    (GATHERED, 3, 16, &SIXTEEN, Some((192, 0))),
    (GATHERED, 3, 1, &[SET, SET], None),
    (GATHERED, 3, 2, &[SET, REMOVED_WITH_WORD], None),
];

/// The page of a break, whole.
fn broken_page(serial: u64, (kind, flags, n, entries, byte): Break) -> [u8; PAGE_BYTES] {
    let mut bytes = lay_page(kind, flags, serial, entries);
    bytes[4] = n;
    if let Some((at, value)) = byte {
        bytes[at] = value;
    }
    seal(&mut bytes);
    bytes
}

/// A good medium with one page that breaks the rules, or has a serial that
/// does.
fn refused_2(random: &mut Random, way: usize) -> Vec<u8> {
    let mut bytes = medium(random);
    let page = some_page(random, &bytes);
    let broken = match way {
        0 => lay_page(NODES, 3, 0, &[SET]),
        1 => lay_page(NODES, 3, u64::MAX, &[SET]),
        _ => broken_page(random.bits() >> 1 | 1, BREAKS[way - 2]),
    };
    put_page(&mut bytes, page, &broken);
    bytes
}

/// Two whole pages of one serial: copies, or of different content.
fn refused_3(random: &mut Random, way: usize) -> Vec<u8> {
    let mut sketch = Sketch::new(random);
    let base = sketch.add(BASE, 3, &[]);
    let nodes = sketch.add(NODES, 3, &[SET]);
    match way {
        0 => {
            let copy = reader::page(&sketch.medium, base).to_vec();
            sketch.add_bytes(&copy);
        }
        1 => {
            let copy = reader::page(&sketch.medium, nodes).to_vec();
            sketch.add_bytes(&copy);
        }
        _ => {
            sketch.serial -= 1;
            sketch.add(MOVED, 3, &[SET]);
        }
    }
    sketch.medium
}

/// No complete base.
fn refused_4(random: &mut Random, way: usize) -> Vec<u8> {
    if way == 0 {
        return without_bases(random);
    }
    let mut sketch = Sketch::new(random);
    let full = full_page();
    match way {
        1 => {}
        2 => sketch.add_nodes(0, 30),
        // Not ended.
        3 => {
            sketch.add(BASE, 1, &full);
            sketch.add(BASE, 0, &full);
        }
        // Not begun.
        4 => {
            sketch.add(BASE, 0, &full);
            sketch.add(BASE, 2, &full);
        }
        // A serial is missing.
        5 => {
            sketch.add(BASE, 1, &full);
            sketch.serial += 1;
            sketch.add(BASE, 2, &full);
        }
        // A page of another kind is between.
        6 => {
            sketch.add(BASE, 1, &full);
            sketch.add(NODES, 3, &full);
            sketch.add(BASE, 2, &full);
        }
        _ => {
            sketch.add(BASE, 1, &full);
            sketch.add_gathered(&[&[SET]]);
            sketch.add(BASE, 2, &full);
        }
    }
    sketch.medium
}

/// A good medium with every base page spoilt.
fn without_bases(random: &mut Random) -> Vec<u8> {
    let mut bytes = medium(random);
    for page in bytes.chunks_mut(PAGE_BYTES) {
        let is_base = |p: Page| p.class() == Class::Whole && p.kind() == BASE;
        if Page::from_bytes(page).is_some_and(is_base) {
            page.fill(0);
        }
    }
    bytes
}

/// A gap, a page without its group, or a fifth page.
fn refused_5(random: &mut Random, way: usize) -> Vec<u8> {
    let mut sketch = Sketch::new(random);
    let full = full_page();
    let before = random.below(60);
    sketch.add_nodes(0, before);
    sketch.add_base();
    match way {
        // Base, nodes, a gap, nodes.
        0 => {
            sketch.add(NODES, 3, &[SET]);
            sketch.serial += 1 + random.below(9) as u64;
            sketch.add(NODES, 3, &[SET]);
        }
        // A gap behind the base.
        1 => {
            sketch.serial += 1;
            sketch.add(NODES, 3, &[SET]);
        }
        // Not begun, behind the base.
        2 => {
            sketch.add(NODES, random.one_of(&[0, 2]), &full);
        }
        // Not begun, behind a complete group.
        3 => {
            sketch.add_group(NODES, &[SET; 30]);
            sketch.add(NODES, 2, &full);
        }
        // A group of the other kind is open.
        4 => {
            sketch.add(NODES, 1, &full);
            sketch.add(BASE, random.one_of(&[0, 2]), &full);
        }
        5 => {
            sketch.add(BASE, 1, &full);
            sketch.add(NODES, random.one_of(&[0, 2]), &full);
        }
        // Moved nodes have closed the open group.
        6 => {
            sketch.add(NODES, 1, &full);
            sketch.add(MOVED, 3, &[SET]);
            sketch.add(NODES, 2, &full);
        }
        // A page of kind 4 has closed it, or stands behind a gap.
        7 => {
            sketch.add(NODES, 1, &full);
            sketch.add_gathered(&[&[SET], &[SET]]);
            sketch.add(NODES, 2, &full);
        }
        8 => {
            sketch.add_gathered(&[&[SET]]);
            sketch.serial += 1;
            sketch.add_gathered(&[&[SET]]);
        }
        // A fifth page, ending its group or not.
        9 => sketch.add_group(NODES, &[SET; GROUP_ENTRIES + 1]),
        _ => {
            sketch.add(NODES, 1, &full);
            for _ in 0..4 {
                sketch.add(NODES, 0, &full);
            }
        }
    }
    sketch.medium
}

/// Valves not rising, too many, or an address without its node.
fn refused_6(random: &mut Random, way: usize) -> Vec<u8> {
    let mut sketch = Sketch::new(random);
    match way {
        0..=3 => base_not_rising(&mut sketch, way),
        4..=10 => too_many_valves(&mut sketch, way),
        _ => stray_address(random, &mut sketch, way),
    }
    sketch.medium
}

/// Equal or falling valves, in a page or from one to the next.
fn base_not_rising(sketch: &mut Sketch, way: usize) {
    sketch.add_nodes(0, 30);
    let mut places = sketch.places();
    match way {
        0 => places[10] = places[9],
        1 => places.swap(3, 4),
        2 => places[24] = places[23],
        _ => places.swap(23, 24),
    }
    sketch.add_group(BASE, &places);
}

/// A 193rd valve: in the base, by an append, for a while, by moved nodes, or by
/// groups on one page.
fn too_many_valves(sketch: &mut Sketch, way: usize) {
    let extra = setting(300);
    sketch.add_nodes(0, MAX_VALVES + usize::from(way == 4));
    sketch.add_base();
    match way {
        4 => {}
        5 => {
            sketch.add(NODES, 3, &[extra]);
        }
        6 => {
            sketch.add(NODES, 3, &[extra, REMOVED]);
        }
        7 => {
            sketch.add(MOVED, 3, &[extra]);
        }
        8 => sketch.add_gathered(&[&[SET], &[extra]]),
        9 => sketch.add_gathered(&[&[extra], &[REMOVED]]),
        _ => {
            sketch.add(NODES, 3, &[REMOVED, extra]);
            sketch.add(NODES, 3, &[SET]);
        }
    }
}

/// A base that sets valve 5 at an address without a node for it.
fn stray_address(random: &mut Random, sketch: &mut Sketch, way: usize) {
    let nodes = sketch.add(NODES, 3, &[setting(4), SET, REMOVED]);
    let end = (sketch.medium.len() / PAGE_BYTES * PAGE_ENTRIES) as u64;
    // Where the base will stand, and a page that will stay clean.
    let (base, clean) = (sketch.free[sketch.free.len() - 1], sketch.free[0]);
    let address = match way {
        11 => reader::address(base, 0),
        12 => end,
        13 => u64::MAX,
        14 => reader::address(clean, random.below(PAGE_ENTRIES)),
        // Another valve, a removal, a place not used.
        15 => reader::address(nodes, 0),
        16 => reader::address(nodes, 2),
        17 => reader::address(nodes, random.from_to(3, 23)),
        // On a page of kind 4, likewise.
        18 => {
            sketch.add_gathered(&[&[setting(4)], &[SET, REMOVED]]);
            reader::address(base, random.one_of(&[0, 2, 3, 15, 16, 23]))
        }
        _ => reader::address(nodes, 1),
    };
    sketch.add_group(BASE, &[Entry { key: 5, word: address }]);
    if way > 18 {
        // The node was there, but its page is spoilt.
        sketch.medium[nodes * PAGE_BYTES + 64] ^= 1;
    }
}
