//! The numbers of the groups in the log: both implementations against logs that
//! are known from how their media were made.

mod common;

use common::*;
use journal_tests::grown::{some_blocks, BLOCK_COUNTS};
use journal_tests::proved;
use journal_tests::random::{refused_medium, ways, Random, Sketch};
use journal_tests::reader::*;
use journal_tests::writer::{self, lay_gathered, lay_page, put_page, State, Touched};

/// The log read-out of both, and the proved library's change by change.
const READ_OUTS: [LogInto; 3] = [log_into, proved::log_into, proved::one_by_one];

/// All read this log, in lists of its length and in longer ones.
fn check(medium: &[u8], log: &[Vec<Entry>]) {
    let length = log.iter().map(Vec::len).sum();
    for lengths in [[length; 3], [length + 2, length + 3, length + 1]] {
        let expected = expected_read_out(log, lengths);
        for log_into in READ_OUTS {
            assert!(read_out(log_into, medium, lengths) == expected, "{} groups", log.len());
        }
    }
}

/// Entries in turn, each with a word of its own; one in seven is a removal.
#[derive(Default)]
struct Entries(u64);

impl Entries {
    fn next(&mut self) -> Entry {
        self.0 += 1;
        let valve = (1 + 11 * self.0 % 150) as u16;
        if self.0.is_multiple_of(7) {
            Entry { key: valve + REMOVAL, word: 0 }
        } else {
            set_entry(valve, self.0)
        }
    }

    fn take(&mut self, count: usize) -> Vec<Entry> {
        (0..count).map(|_| self.next()).collect()
    }

    /// Groups of these sizes.
    fn groups(&mut self, sizes: &[usize]) -> Vec<Vec<Entry>> {
        sizes.iter().map(|&size| self.take(size)).collect()
    }
}

// ---------------------------------------------------------------------------
// Media laid down piece by piece

/// What may stand behind the first base.
#[derive(Clone, Copy, Debug)]
enum Piece {
    /// A group of so many entries.
    Group(usize),
    /// A group of so many pages without its end.
    Unfinished(usize),
    /// A page of kind 4 with groups of so many entries.
    Gathered(&'static [usize]),
    /// Pages of moved nodes.
    Moved(usize),
    Base,
    /// A base of so many pages without its end.
    UnfinishedBase(usize),
}

use Piece::*;

const PIECES: [Piece; 15] = [
    Group(1),
    Group(24),
    Group(25),
    Group(96),
    Unfinished(1),
    Unfinished(2),
    Unfinished(4),
    Gathered(&[1]),
    Gathered(&[1; 16]),
    Gathered(&[16]),
    Gathered(&[3, 1, 5]),
    Moved(1),
    Moved(2),
    Base,
    UnfinishedBase(1),
];

/// The most pages of a piece: a base of 150 valves.
const PIECE_PAGES: usize = 7;

/// A sketch, and the log that it must have.
struct Laid {
    sketch: Sketch,
    entries: Entries,
    log: Vec<Vec<Entry>>,
}

impl Laid {
    fn new(random: &mut Random) -> Laid {
        let blocks = some_blocks(random);
        Laid::on(random, blocks)
    }

    fn on(random: &mut Random, blocks: usize) -> Laid {
        let mut sketch = Sketch::on(random, blocks);
        sketch.add_base();
        Laid { sketch, entries: Entries::default(), log: Vec::new() }
    }

    /// Full pages of a group that is begun and not ended.
    fn begin(&mut self, kind: u8, pages: usize) {
        for nth in 0..pages {
            let page: Vec<Entry> = (0..24).map(|valve| set_entry(valve, 1)).collect();
            self.sketch.add(kind, u8::from(nth == 0), &page);
        }
    }

    fn add(&mut self, piece: Piece) {
        match piece {
            Group(size) => {
                let group = self.entries.take(size);
                self.sketch.add_group(NODES, &group);
                self.log.push(group);
            }
            Gathered(sizes) => {
                let groups = self.entries.groups(sizes);
                let parts: Vec<&[Entry]> = groups.iter().map(Vec::as_slice).collect();
                self.sketch.add_gathered(&parts);
                self.log.extend(groups);
            }
            Base => {
                self.sketch.add_base();
                self.log.clear();
            }
            Moved(pages) => {
                for word in 0..pages as u64 {
                    self.sketch.add(MOVED, 3, &[set_entry(5, word), set_entry(6, word)]);
                }
            }
            Unfinished(pages) => self.begin(NODES, pages),
            UnfinishedBase(pages) => self.begin(BASE, pages),
        }
    }

    fn check(&self) {
        check(&self.sketch.medium, &self.log);
    }
}

/// Every three pieces, one behind the other.
#[test]
fn pieces_in_every_order() {
    let mut random = Random::new(61);
    for one in PIECES {
        for two in PIECES {
            for three in PIECES {
                let mut laid = Laid::new(&mut random);
                [one, two, three].into_iter().for_each(|piece| laid.add(piece));
                laid.check();
            }
        }
    }
}

/// Many pieces, until the medium is full; bases are rare.
#[test]
fn full_media_of_pieces() {
    let mut random = Random::new(62);
    let mut most = 0;
    for blocks in (4..=16).cycle().take(60).chain(BLOCK_COUNTS) {
        let mut laid = Laid::on(&mut random, blocks);
        let pages = blocks * BLOCK_PAGES;
        let last = laid.sketch.serial + (pages - 1 - PIECE_PAGES) as u64;
        while laid.sketch.serial <= last {
            let piece = random.one_of(&PIECES);
            if !matches!(piece, Base) || random.one_in(8) {
                laid.add(piece);
            }
            if random.one_in(if blocks > 16 { pages / 4 } else { 8 }) {
                laid.check();
            }
        }
        laid.check();
        most = most.max(laid.log.len());
    }
    assert!(most > 256, "{most} groups at most");
}

/// As many groups as a medium can hold, on pages of kind 4 and on pages of
/// their own, and as many changes.
#[test]
fn media_with_the_most_groups() {
    for blocks in BLOCK_COUNTS {
        for sizes in [[1; 16].as_slice(), &[1], &[24]] {
            let (medium, log) = filled(blocks, sizes);
            assert_eq!(log.len(), (16 * blocks - 1) * sizes.len());
            check(&medium, &log);
        }
    }
}

/// A base and pages of groups of these sizes on all other pages: the medium,
/// and its log. Pages of one group stand in falling order.
fn filled(blocks: usize, sizes: &[usize]) -> (Vec<u8>, Vec<Vec<Entry>>) {
    let (mut entries, pages) = (Entries::default(), BLOCK_PAGES * blocks);
    let (mut medium, mut log) = (blank(blocks), Vec::new());
    put_page(&mut medium, 0, &lay_page(BASE, 3, 1, &[]));
    for nth in 1..pages {
        let groups = entries.groups(sizes);
        let parts: Vec<&[Entry]> = groups.iter().map(Vec::as_slice).collect();
        let bytes = match sizes.len() {
            1 => lay_page(NODES, 3, nth as u64 + 1, parts[0]),
            _ => lay_gathered(nth as u64 + 1, &parts),
        };
        let page = if sizes.len() == 1 { pages - nth } else { nth };
        put_page(&mut medium, page, &bytes);
        log.extend(groups);
    }
    (medium, log)
}

/// Every way to divide up to ten entries of a page into groups: the number of
/// an entry is how many before it end a group.
#[test]
fn every_division_of_a_page() {
    let mut entries = Entries::default();
    let (formatted, _) = formatted(4);
    for n in 1..=10 {
        for inner in 0..1 << (n - 1) {
            let (mut medium, group) = (formatted.clone(), entries.take(n));
            let mut page = lay_page(GATHERED, 3, 2, &group);
            let ends = inner | u16::MAX << (n - 1);
            page[6..8].copy_from_slice(&ends.to_le_bytes());
            writer::seal(&mut page);
            put_page(&mut medium, 1, &page);
            put_page(&mut medium, 2, &lay_page(NODES, 3, 3, &group[..1]));
            let number = |place: usize| (ends & ((1 << place) - 1)).count_ones();
            let mut expected: Vec<u32> = (0..n).map(number).collect();
            expected.push(inner.count_ones() + 1);
            for log_into in READ_OUTS {
                let (answer, lists) = read_out(log_into, &medium, [n + 1; 3]);
                assert_eq!((answer, &lists.groups), (Ok(n + 1), &expected));
            }
        }
    }
}

// ---------------------------------------------------------------------------
// Media written by the calls

/// A medium, its state and the log that it must have.
struct Day {
    medium: Vec<u8>,
    state: State,
    entries: Entries,
    log: Vec<Vec<Entry>>,
}

impl Day {
    fn check(&self) {
        check(&self.medium, &self.log);
    }

    /// Makes so many of the steps that program a page.
    fn pages(&mut self, mut pages: usize) {
        while pages > 0 {
            let step = one_step(&mut self.medium, &mut self.state).expect("a step");
            pages -= usize::from(matches!(step.touched, Touched::Page(_)));
        }
    }

    fn begin_append(&mut self, size: usize) -> Vec<Entry> {
        let group = self.entries.take(size);
        let (keys, words): (Vec<u16>, Vec<u64>) =
            group.iter().map(|entry| (entry.key, entry.word)).unzip();
        begin_lists(&self.medium, &mut self.state, &keys, &words).expect("append");
        group
    }

    fn append(&mut self, size: usize) {
        let group = self.begin_append(size);
        finish(&mut self.medium, &mut self.state);
        self.log.push(group);
        self.check();
    }

    /// Groups of these sizes on one page.
    fn flush(&mut self, sizes: &[usize]) {
        let (groups, mut buffer, mut held) = (self.entries.groups(sizes), EMPTY, 0);
        for group in &groups {
            writer::gather(&mut buffer, held, group);
            held += group.len();
        }
        writer::flush(&self.medium, &mut self.state, &buffer).expect("flush");
        while self.state.pending.is_some() {
            writer::step(&mut self.medium, &mut self.state, &mut buffer).expect("a step");
        }
        self.log.extend(groups);
        self.check();
    }

    /// A cut between steps: what is pending is lost.
    fn cut(&mut self) {
        self.check();
        self.state = recover(&self.medium).expect("recovery");
        self.check();
    }
}

/// Appends, flushes, commits and a collection, cut and finished.
#[test]
fn a_day_of_calls() {
    for blocks in [16, 17, 64, 255, 256] {
        a_day_on(blocks);
    }
}

/// On many blocks the day begins near the last one, so that the head goes round.
fn a_day_on(blocks: usize) {
    let (medium, mut state) = formatted(blocks);
    if blocks > 16 {
        (state.head, state.next_page) = (blocks - 2, 16);
    }
    let mut day = Day { medium, state, entries: Entries::default(), log: Vec::new() };
    for size in [1, 24, 25, 96] {
        day.append(size);
        for pages in 1..pages_for(size) {
            day.begin_append(size);
            day.pages(pages);
            day.cut();
        }
        day.flush(&[1, 13, 2]);
    }
    assert_eq!(day.log.len(), 16);
    // A commit cut after each of its pages but the last; then to its end.
    let pages = commit_pages(day.state.index.len());
    assert!(pages > 2);
    for done in 1..pages {
        begin_commit(&day.medium, &mut day.state).expect("commit");
        day.pages(done);
        day.cut();
        day.append(1);
    }
    commit(&mut day.medium, &mut day.state);
    day.log.clear();
    day.check();
    // Moved nodes between groups.
    day.append(25);
    let movable = |&block: &usize| {
        collectible(&day.medium, &day.state, block) && live_count(&day.state, block) > 0
    };
    let block = (0..blocks).find(movable).expect("a block with nodes to move");
    begin_collect(&day.medium, &mut day.state, block).expect("collect");
    finish(&mut day.medium, &mut day.state);
    day.check();
    day.append(1);
    day.flush(&[1; 16]);
    day.append(96);
    assert_eq!(day.log.len(), 19);
}

// ---------------------------------------------------------------------------
// 17

/// Every three of these lengths.
fn triples(lengths: &[usize]) -> Vec<[usize; 3]> {
    let mut triples = Vec::new();
    for &keys in lengths {
        for &words in lengths {
            triples.extend(lengths.iter().map(|&groups| [keys, words, groups]));
        }
    }
    triples
}

/// Short and long lists beside each other: 17 where any of the three is too
/// short, and then no place is written to; else only those of the log.
#[test]
fn short_and_long_lists() {
    let mut random = Random::new(63);
    for pieces in [
        &[Moved(1)][..],
        &[Group(1)],
        &[Group(2), Group(1)],
        &[Group(24)],
        &[Group(25), Unfinished(1)],
        &[Gathered(&[3, 1, 5]), Moved(1), Group(1)],
        &[Group(1), Unfinished(4), Group(96), Gathered(&[1; 16]), Group(25)],
    ] {
        let mut laid = Laid::new(&mut random);
        pieces.iter().for_each(|&piece| laid.add(piece));
        let length: usize = laid.log.iter().map(Vec::len).sum();
        let mut lengths = vec![0, 1, length.saturating_sub(1), length, length + 1, length + 25];
        lengths.dedup();
        for lengths in triples(&lengths) {
            let expected = expected_read_out(&laid.log, lengths);
            let fits = lengths.iter().all(|&places| places >= length);
            assert_eq!(expected.0, if fits { Ok(length) } else { refused(17) });
            for log_into in READ_OUTS {
                assert_eq!(read_out(log_into, &laid.sketch.medium, lengths), expected);
            }
        }
    }
}

/// Recovery's refusals come before 17, and no list is written to.
#[test]
fn refusals_leave_the_lists() {
    let mut random = Random::new(64);
    for number in 1..=6 {
        for way in 0..ways(number) {
            let medium = refused_medium(&mut random, number, way);
            let most = most_changes(&medium);
            let lengths = [0; 3].map(|_| random.one_of(&[0, 1, most]));
            for log_into in READ_OUTS {
                let (answer, lists) = read_out(log_into, &medium, lengths);
                assert_eq!(answer, refused(number));
                assert!(lists == LogLists::new(lengths));
            }
        }
    }
}
