//! Sketches: media laid down page by page.

use super::{wipe_page, Random};
use crate::grown::some_blocks;
use crate::reader::{
    self, Entry, Place, BASE, BLOCK_BYTES, BLOCK_PAGES, BUFFER_ENTRIES, GROUP_ENTRIES, MOVED,
    NODES, PAGE_ENTRIES, REMOVAL,
};
use crate::writer::{lay_gathered, lay_page, put_page};

/// A medium made by hand: pages of rising serial in any places.
#[derive(Clone, Debug)]
pub struct Sketch {
    pub medium: Vec<u8>,
    /// Places not yet used, the next one last.
    pub(super) free: Vec<usize>,
    /// The serial of the next page.
    pub serial: u64,
    /// The last node written for each valve.
    nodes: Vec<Place>,
}

impl Sketch {
    /// A clean medium; the pages will stand in any order.
    pub fn new(random: &mut Random) -> Sketch {
        let blocks = some_blocks(random);
        Sketch::on(random, blocks)
    }

    /// The same of so many blocks. The last serials suffice for all pages.
    pub fn on(random: &mut Random, blocks: usize) -> Sketch {
        let mut free: Vec<usize> = (0..blocks * BLOCK_PAGES).collect();
        random.shuffle(&mut free);
        let near_the_last = u64::MAX - 44 - free.len() as u64;
        let serial = random.one_of(&[1, 2, 255, 1 << 32, near_the_last]);
        Sketch { medium: vec![0xFF; blocks * BLOCK_BYTES], free, serial, nodes: Vec::new() }
    }

    /// Adds a page with the next serial; its number is handed back.
    pub fn add(&mut self, kind: u8, flags: u8, entries: &[Entry]) -> usize {
        let bytes = lay_page(kind, flags, self.serial, entries);
        self.serial += 1;
        let page = self.add_bytes(&bytes);
        if kind != BASE {
            self.note_nodes(page, entries);
        }
        page
    }

    /// Adds a page of these bytes; its number is handed back.
    pub fn add_bytes(&mut self, bytes: &[u8]) -> usize {
        let page = self.free.pop().unwrap_or(0);
        put_page(&mut self.medium, page, bytes);
        page
    }

    /// Adds a page of kind 4 with the next serial.
    pub fn add_gathered(&mut self, groups: &[&[Entry]]) {
        let bytes = lay_gathered(self.serial, groups);
        self.serial += 1;
        let page = self.add_bytes(&bytes);
        self.note_nodes(page, &groups.concat());
    }

    fn note_nodes(&mut self, page: usize, entries: &[Entry]) {
        for (place, &entry) in entries.iter().enumerate() {
            reader::enter(&mut self.nodes, entry, reader::address(page, place));
        }
    }

    /// Adds single pages of nodes that set the valves from `first` on.
    pub fn add_nodes(&mut self, first: usize, valves: usize) {
        let entries: Vec<Entry> =
            (first..first + valves).map(|valve| setting(valve as u16)).collect();
        for part in entries.chunks(PAGE_ENTRIES) {
            self.add(NODES, 3, part);
        }
    }

    /// The places of the valves set so far, as a base stores them.
    pub fn places(&self) -> Vec<Entry> {
        self.nodes.iter().map(|p| Entry { key: p.valve, word: p.address }).collect()
    }

    /// Adds a group of this kind, 24 entries to a page.
    pub fn add_group(&mut self, kind: u8, entries: &[Entry]) {
        let pages = reader::pages_for(entries.len()).max(1);
        for nth in 0..pages {
            let part = entries.iter().skip(PAGE_ENTRIES * nth).take(PAGE_ENTRIES);
            let part: Vec<Entry> = part.copied().collect();
            let flags = u8::from(nth == 0) + 2 * u8::from(nth + 1 == pages);
            self.add(kind, flags, &part);
        }
    }

    /// Adds a base of all valves set so far.
    pub fn add_base(&mut self) {
        self.add_group(BASE, &self.places());
    }
}

/// An entry that sets a valve.
pub(super) fn setting(valve: u16) -> Entry {
    Entry { key: valve, word: 1000 + u64::from(valve) }
}

/// 24 entries that set the valves 0 to 23.
pub(super) fn full_page() -> Vec<Entry> {
    (0..PAGE_ENTRIES as u16).map(setting).collect()
}

/// A sketch of pages by chance, most of them lawful and in their turn; any
/// answer of recovery from 2 on may come of it.
pub fn sketched(random: &mut Random) -> Vec<u8> {
    let mut sketch = Sketch::new(random);
    let before = random.below(100);
    sketch.add_nodes(random.below(50), before);
    sketch.add_base();
    for _ in 0..random.below(20) {
        sketch_more(random, &mut sketch);
    }
    sketch.medium
}

/// One more group, sometimes unfinished, or a fault.
fn sketch_more(random: &mut Random, sketch: &mut Sketch) {
    let length = random.from_to(1, GROUP_ENTRIES);
    let group: Vec<Entry> = (0..length).map(|_| setting(random.below(150) as u16)).collect();
    let full = full_page();
    match random.below(48) {
        0..=14 => sketch.add_group(NODES, &group),
        15..=20 => {
            sketch.add(MOVED, 3, &group[..length.min(PAGE_ENTRIES)]);
        }
        21..=24 => sketch.add_base(),
        25..=27 => {
            sketch.add(NODES, 1, &full);
        }
        28 | 29 => {
            sketch.add(BASE, 1, &full);
        }
        30..=33 => {
            sketch.add(NODES, 1, &full);
            sketch.add(NODES, random.one_of(&[0, 2]), &full);
        }
        34 | 35 => {
            sketch.add(random.one_of(&[NODES, BASE]), random.one_of(&[0, 2]), &full);
        }
        36 => sketch.serial += 1,
        37 => sketch.serial -= 1,
        38 => {
            sketch.add(NODES, 3, &[Entry { key: 7 + REMOVAL, word: 0 }]);
        }
        39 => wipe_page(random, &mut sketch.medium),
        _ => {
            let group = &group[..length.min(BUFFER_ENTRIES)];
            let groups: Vec<&[Entry]> = group.chunks(random.from_to(1, 5)).collect();
            sketch.add_gathered(&groups);
        }
    }
}
