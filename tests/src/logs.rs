//! Logs and media made for the readings of the log.

use crate::grown::{grown, shuffle_blocks, How};
use crate::random::{damage, lived, refused_medium, sketched, some_entry, ways, Random};
use crate::reader::{
    Entry, BASE, BLOCK_BYTES, BLOCK_PAGES, BUFFER_ENTRIES, GROUP_ENTRIES, MAX_BLOCKS, MAX_VALVES,
    NODES, PAGE_ENTRIES, REMOVAL,
};
use crate::writer::{lay_gathered, lay_page};
use std::collections::BTreeSet;

/// A log, group by group.
pub type Log = Vec<Vec<Entry>>;

/// The most groups that a log can have: 16 on each page but the base's.
pub const MOST_GROUPS: usize = (MAX_BLOCKS * BLOCK_PAGES - 1) * BUFFER_ENTRIES;

/// The most changes that a log can have: 24 on each page but the base's.
pub const MOST_CHANGES: usize = (MAX_BLOCKS * BLOCK_PAGES - 1) * PAGE_ENTRIES;

// ---------------------------------------------------------------------------
// Media of logs

/// How the groups of a log stand on pages.
#[derive(Clone, Copy, PartialEq, Eq, Debug)]
pub enum Pages {
    /// Each group on pages of its own, of kind 1.
    Own,
    /// Neighbours of 16 entries in all on one page of kind 4.
    Gathered,
}

/// A medium with this log: an empty base, and the groups behind it.
pub fn medium_of(blocks: usize, log: &[Vec<Entry>], pages: Pages) -> Vec<u8> {
    let mut medium = lay_page(BASE, 3, 1, &[]).to_vec();
    let (mut serial, mut rest) = (2, log);
    while let Some(group) = rest.first() {
        let together = if pages == Pages::Gathered { fitting(rest) } else { 0 };
        let laid = if together > 0 {
            let parts: Vec<&[Entry]> = rest[..together].iter().map(Vec::as_slice).collect();
            lay_gathered(serial, &parts).to_vec()
        } else {
            lay_group(serial, group)
        };
        serial += (laid.len() / 256) as u64;
        medium.extend(laid);
        rest = &rest[together.max(1)..];
    }
    assert!(medium.len() <= blocks * BLOCK_BYTES, "the log has its place");
    medium.resize(blocks * BLOCK_BYTES, 0xFF);
    medium
}

/// How many of the first groups have their place on one page of kind 4.
fn fitting(groups: &[Vec<Entry>]) -> usize {
    let mut held = 0;
    let fits = |group: &&Vec<Entry>| {
        held += group.len();
        held <= BUFFER_ENTRIES
    };
    groups.iter().take_while(fits).count()
}

/// The pages of kind 1 of a group, from this serial on.
fn lay_group(serial: u64, group: &[Entry]) -> Vec<u8> {
    let pages = group.len().div_ceil(PAGE_ENTRIES);
    let parts = group.chunks(PAGE_ENTRIES).enumerate();
    let page = |(nth, part): (usize, &[Entry])| {
        let flags = u8::from(nth == 0) + 2 * u8::from(nth + 1 == pages);
        lay_page(NODES, flags, serial + nth as u64, part)
    };
    parts.flat_map(page).collect()
}

// ---------------------------------------------------------------------------
// Logs by chance

/// The measures of a log by chance.
#[derive(Clone, Copy, Debug)]
pub struct Shape {
    pub groups: usize,
    /// The most entries of a group.
    pub entries: usize,
    /// Valves are below this.
    pub valves: usize,
    /// Words are below this, so that groups often leave a valve as it was; at 0
    /// they are any.
    pub words: u64,
    /// Of so many entries one is a removal.
    pub removal_one_in: usize,
}

impl Shape {
    /// Some shape with at most so many groups.
    pub fn new(random: &mut Random, groups: usize) -> Shape {
        Shape {
            groups: random.below(groups + 1),
            entries: random.one_of(&[1, 2, 3, 8, 16, 24, 30, GROUP_ENTRIES]),
            valves: random.one_of(&[1, 2, 3, 8, 40, 192, 193, 400, 32768]),
            words: random.one_of(&[1, 2, 3, 0]),
            removal_one_in: random.one_of(&[1, 2, 3, 10]),
        }
    }

    /// The most pages that such a log takes.
    pub fn pages(self) -> usize {
        self.groups * self.entries.div_ceil(PAGE_ENTRIES)
    }
}

/// A log of this shape that recovery takes: at most 192 valves are ever set. What
/// would set one more is a removal.
pub fn some_log(random: &mut Random, shape: Shape) -> Log {
    let mut set = BTreeSet::new();
    let mut entry = |random: &mut Random| {
        let mut entry = some_entry(random, shape.valves, shape.removal_one_in);
        let valve = entry.valve();
        if !entry.removes() && set.len() == MAX_VALVES && !set.contains(&valve) {
            entry = removal(valve);
        }
        if entry.removes() {
            set.remove(&valve);
        } else {
            set.insert(valve);
            entry.word %= if shape.words == 0 { u64::MAX } else { shape.words };
        }
        entry
    };
    let mut group = |random: &mut Random| {
        let length = random.from_to(1, shape.entries);
        (0..length).map(|_| entry(random)).collect()
    };
    (0..shape.groups).map(|_| group(random)).collect()
}

/// A log of some shape, and a medium that has it.
pub fn some_medium(random: &mut Random, groups: usize) -> (Log, Vec<u8>) {
    let shape = Shape::new(random, groups);
    let blocks = (shape.pages() + 1).div_ceil(BLOCK_PAGES).max(4) + random.below(3);
    let log = some_log(random, shape);
    let medium = medium_of(blocks, &log, random.one_of(&[Pages::Own, Pages::Gathered]));
    (log, medium)
}

// ---------------------------------------------------------------------------
// Logs made for the purpose

/// An entry that sets a valve.
pub fn setting(valve: u16, word: u64) -> Entry {
    Entry { key: valve, word }
}

/// An entry that removes a valve.
pub fn removal(valve: u16) -> Entry {
    Entry { key: valve + REMOVAL, word: 0 }
}

/// A log with its name and the medium that has it.
pub struct Made {
    pub name: &'static str,
    pub log: Log,
    pub medium: Vec<u8>,
}

impl Made {
    fn new(name: &'static str, blocks: usize, pages: Pages, log: Log) -> Made {
        let medium = medium_of(blocks, &log, pages);
        Made { name, log, medium }
    }
}

/// Small logs, each for something that can go wrong.
pub fn small() -> Vec<Made> {
    let own = |name, log| Made::new(name, 16, Pages::Own, log);
    let gathered = |name, log| Made::new(name, 16, Pages::Gathered, log);
    vec![
        own("no group", vec![]),
        own("one entry", vec![vec![setting(5, 1000)]]),
        own("the largest group", vec![touching(1, 96, 1)]),
        gathered("a valve twice in a group", twice()),
        own("a valve twice in a group, on pages", twice()),
        gathered("removals of unset valves", (1..60).map(|v| vec![removal(v)]).collect()),
        gathered("a word of 0 and a removal", word_0_and_removal()),
        gathered("the same again and again", vec![vec![setting(5, 7)]; 40]),
        gathered("the outermost valves and words", outermost()),
        own("many groups on few valves", on_few_valves(200)),
        gathered("many groups on few valves, gathered", on_few_valves(1000)),
        own("192 valves touched", touched(&[96, 96])),
        own("193 valves touched", touched(&[96, 96, 1])),
        gathered("193 valves touched, one by one", touched(&[1; 193])),
        own("192 valves touched twice", [touched(&[96, 96]), touched(&[96, 96])].concat()),
        own("193 valves touched, the last one twice", last_again()),
        own("1000 valves touched", touched(&[50; 20])),
        own("groups of every size", (1..=40).map(|n| touching(n, n, 1)).collect()),
    ]
}

/// The largest logs: 65,520 groups of one entry, almost as many behind a group of
/// 96, and 98,280 changes in large and in small groups.
pub fn large() -> Vec<Made> {
    let on = |name, pages, log| Made::new(name, MAX_BLOCKS, pages, log);
    vec![
        on("65520 groups", Pages::Gathered, most_groups()),
        on(
            "65520 groups, 190 valves of which each is touched once more",
            Pages::Gathered,
            once_more(),
        ),
        on("65456 groups of one entry behind one of 96", Pages::Gathered, largest_and_singles()),
        on("98280 changes in groups of 24", Pages::Own, most_changes(24)),
        on("98280 changes in groups of 96", Pages::Own, most_changes(96)),
    ]
}

/// A group that removes the `count` valves from `first` on where they are even,
/// and sets the odd ones to this word.
fn touching(first: u16, count: u16, word: u64) -> Vec<Entry> {
    let entry = |v: u16| if v.is_multiple_of(2) { removal(v) } else { setting(v, word) };
    (first..first + count).map(entry).collect()
}

/// Groups that touch as many valves as these numbers say, no valve twice. At most
/// 192 are set: valves past 300 are only removed.
fn touched(counts: &[u16]) -> Log {
    let (mut first, mut log) = (1, Vec::new());
    for &count in counts {
        let group = touching(first, count, 9);
        let lower = |entry: Entry| if first > 300 { removal(entry.valve()) } else { entry };
        log.push(group.into_iter().map(lower).collect());
        first += count;
    }
    log
}

/// 193 valves, the last of which is touched again.
fn last_again() -> Log {
    [touched(&[96, 96, 1]), vec![vec![removal(193)], vec![setting(1, 2)]]].concat()
}

/// Groups that name one valve more than once.
fn twice() -> Log {
    vec![
        vec![setting(5, 1), setting(5, 2)],
        vec![setting(5, 2), removal(5)],
        vec![removal(5), setting(5, 2)],
        vec![setting(7, 1), setting(6, 1), setting(7, 1)],
        vec![removal(6), removal(6)],
        vec![setting(5, 3), setting(5, 2)],
    ]
}

/// A valve set to 0 is not a valve removed, though both words are 0.
fn word_0_and_removal() -> Log {
    let of = |entry| vec![entry];
    vec![of(setting(5, 0)), of(removal(5)), of(removal(6)), of(setting(6, 0)), of(setting(6, 0))]
}

/// Valves 0 and 32767, words 0 and the largest.
fn outermost() -> Log {
    vec![
        vec![setting(32767, u64::MAX), setting(0, 0)],
        vec![setting(1, u64::MAX)],
        vec![removal(0), removal(32767), removal(16384)],
        vec![setting(32767, 0)],
    ]
}

/// So many groups of one or two entries on three valves with two words.
fn on_few_valves(groups: u64) -> Log {
    let group = |n: u64| {
        let mut group = vec![setting(1 + (n % 3) as u16, n / 7 % 2)];
        if n.is_multiple_of(5) {
            group.push(removal(1 + (n / 5 % 3) as u16));
        }
        group
    };
    (0..groups).map(group).collect()
}

/// 65,520 groups of one entry on 150 valves.
fn most_groups() -> Log {
    let entry = |n: usize| {
        let valve = (1 + 11 * n % 150) as u16;
        if n.is_multiple_of(7) {
            removal(valve)
        } else {
            setting(valve, (n % 13) as u64)
        }
    };
    (0..MOST_GROUPS).map(|n| vec![entry(n)]).collect()
}

/// 65,520 groups of one entry: each of 190 valves in the first ones, then one
/// valve for long, then each again, half of them as they were.
fn once_more() -> Log {
    let last = MOST_GROUPS - 190;
    let entry = |n: usize| match n {
        0..190 => setting(1 + n as u16, 1),
        n if n >= last => setting((n - last) as u16 + 1, 1 + (n % 2) as u64),
        _ => setting(191, 1),
    };
    (0..MOST_GROUPS).map(|n| vec![entry(n)]).collect()
}

/// A group of 96 entries, on four pages, and as many of one entry, on other valves,
/// as have their place behind it: the smallest groups matter, and the largest.
fn largest_and_singles() -> Log {
    let entry = |n: usize| setting((101 + n % 90) as u16, (n % 13) as u64);
    let singles = (0..MOST_GROUPS - 4 * BUFFER_ENTRIES).map(|n| vec![entry(n)]);
    std::iter::once(touching(1, GROUP_ENTRIES as u16, 7)).chain(singles).collect()
}

/// 98,280 changes in groups of so many entries, on 180 valves; each third valve
/// keeps its word.
fn most_changes(size: usize) -> Log {
    let entry = |n: usize| {
        let valve = (1 + 7 * n % 180) as u16;
        setting(valve, if valve.is_multiple_of(3) { 1 } else { (n / 100) as u64 })
    };
    let entries: Vec<Entry> = (0..MOST_CHANGES).map(entry).collect();
    entries.chunks(size).map(<[Entry]>::to_vec).collect()
}

// ---------------------------------------------------------------------------
// All media

/// Lends media of every kind, each with a name: refused ones in each of their
/// ways; sketches; media that a life with cuts has left, as they are and damaged;
/// logs by chance; logs made for the purpose; media of many blocks, as they were
/// written and with their blocks in any order. So many of each by chance.
pub fn each_medium(seed: u64, times: usize, mut lend: impl FnMut(&str, &[u8])) {
    let mut random = Random::new(seed);
    for number in 1..=6 {
        for way in 0..ways(number) {
            lend("refused", &refused_medium(&mut random, number, way));
        }
    }
    for nth in 0..times {
        lend("sketched", &sketched(&mut random));
        let mut medium = lived(&mut random, 10 + nth % 400).medium;
        lend("lived", &medium);
        damage(&mut random, &mut medium);
        lend("damaged", &medium);
        let (_, medium) = some_medium(&mut random, 60);
        lend("by chance", &medium);
    }
    small().iter().chain(&large()).for_each(|made| lend(made.name, &made.medium));
    for blocks in [17, 64, 255, 256] {
        for how in [How::Full, How::High, How::Round] {
            let mut life = grown(blocks, how);
            lend("grown", &life.medium);
            shuffle_blocks(&mut random, &mut life);
            lend("grown, blocks in any order", &life.medium);
        }
    }
}
