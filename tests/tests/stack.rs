//! The deepest stack that each call of the proved library takes, on the worst
//! media at hand, 256 blocks, full, in any order, 192 valves set, with nothing
//! pending and with an append, a commit, a collection or a flush.

mod common;

use common::{blank, lists, valves, EMPTY};
use journal_tests::calls::{Calls, Proved, Second};
use journal_tests::grown::{grown, shuffle_blocks, How};
use journal_tests::proved::{self, VjState};
use journal_tests::random::Random;
use journal_tests::reader::{
    self, Place, Record, BASE, BLOCK_BYTES, BLOCK_PAGES, GATHERED, MOVED, NODES, REMOVAL,
};
use journal_tests::run::{self, Journal, FAILED};
use journal_tests::stack::{self, Call, Lent};
use journal_tests::writer::{self, lay_gathered, lay_page, put_page, State};
use std::collections::BTreeMap;
use std::io::Write;

/// The most that recovery of any medium may take.
const RECOVERY: usize = 256 * 1024;

/// The deepest stack of each call so far.
#[derive(Default)]
struct Table(BTreeMap<&'static str, usize>);

/// What is lent to the calls, to be altered for each.
struct Desk {
    medium: Vec<u8>,
    state: VjState,
    buffer: [u8; 256],
    keys: Vec<u16>,
    words: Vec<u64>,
    records: Vec<Record>,
}

impl Desk {
    /// A medium with its state, an empty buffer, and lists of so many entries.
    fn new(medium: &[u8], state: &VjState, entries: u16) -> Desk {
        let (keys, words) = lists(&valves(1, entries));
        let (medium, state) = (medium.to_vec(), *state);
        Desk { medium, state, buffer: EMPTY, keys, words, records: Vec::new() }
    }
}

impl Table {
    /// Makes a call with copies of what is on the desk.
    fn note(&mut self, name: &'static str, desk: &Desk, number: usize) {
        let call = stack::calls().iter().find(|call| call.name() == name).expect("a call");
        let taken = call.taken(&mut Lent {
            medium: &mut desk.medium.clone(),
            state: &desk.state,
            buffer: &mut desk.buffer.clone(),
            keys: &mut desk.keys.clone(),
            words: &mut desk.words.clone(),
            groups: &mut vec![0; desk.keys.len()],
            records: &desk.records,
            number,
        });
        let deepest = self.0.entry(name).or_insert(0);
        *deepest = taken.max(*deepest);
    }

    /// Recovery and the log of a medium, whole and change by change, what is new in
    /// it, the whole log's effect, and the groups that mattered.
    fn recovery(&mut self, medium: &[u8]) {
        let mut desk = Desk::new(medium, &Proved::of(&State::at_format(256)), 0);
        let most = reader::most_changes(medium);
        (desk.keys, desk.words) = (vec![0; most], vec![0; most]);
        self.note("vj_recover", &desk, 0);
        self.note("vj_log", &desk, 0);
        self.note("vj_reader", &desk, 0);
        self.note("vj_news", &desk, 0);
        self.note("vj_mattered", &desk, 0);
        // From the first page, one in the middle and the last.
        for page in [0, 2048, 4095] {
            self.note("vj_change", &desk, page);
        }
        let mut groups = vec![0; most];
        let changes = Proved::log_into(medium, &mut desk.keys, &mut desk.words, &mut groups);
        let last = changes.map_or(None, |count| groups[..count].last().copied());
        self.note("vj_effect", &desk, last.map_or(0, |group| group as usize + 1));
    }

    /// The readings of a state, and what can be begun with it and some entries, or is
    /// refused by what is pending in it.
    fn state(&mut self, medium: &[u8], state: &VjState, entries: &[(u16, u64)]) {
        let mut desk = Desk::new(medium, state, 0);
        (desk.keys, desk.words) = lists(entries);
        self.note("vj_page", &desk, 4095);
        for name in ["vj_pick", "vj_survey", "vj_available", "vj_format", "vj_append", "vj_commit"]
        {
            self.note(name, &desk, 0);
        }
        for read in [0, 1] {
            self.note("vj_next", &desk, read);
        }
        for block in (0..256).step_by(15) {
            self.note("vj_collect", &desk, block);
        }
        // Of 192 valves all but one differ, 96 do, and none does.
        for same in [1, 96, 192] {
            desk.records = records(medium, state, same);
            self.note("vj_wanted", &desk, 0);
        }
        self.note("vj_settings", &Desk::new(medium, state, 192), 0);
        desk.buffer = common::holding(&[&entries[..16]]);
        self.note("vj_flush", &desk, 0);
        for valve in [state.index.keys[0], state.index.keys[191], 32767] {
            self.note("vj_opening", &desk, valve.into());
            self.note("vj_word", &desk, valve.into());
        }
        for (held, group) in [(15, &entries[15..16]), (0, &entries[..16])] {
            desk.buffer = common::holding(&[&entries[..held]]);
            (desk.keys, desk.words) = lists(group);
            self.note("vj_buffer", &desk, 0);
        }
    }

    /// The steps of what is pending, one after the other.
    fn steps(&mut self, medium: &[u8], state: &VjState, buffer: &[u8; 256]) {
        let mut desk = Desk::new(medium, state, 0);
        desk.buffer = *buffer;
        for _ in 0..12 {
            self.note("vj_step", &desk, 0);
            match proved::step(&mut desk.medium, &mut desk.state, &mut desk.buffer) {
                Ok(step) if !step.finished => {}
                _ => return,
            }
        }
    }
}

/// The settings of a state of 192 valves as records, so many as they are and the
/// others with another word.
fn records(medium: &[u8], state: &VjState, same: usize) -> Vec<Record> {
    let record = |nth: usize| {
        let (valve, address) = (state.index.keys[nth], state.index.vals[nth]);
        let word = reader::node(medium, Place { valve, address }).expect("a node");
        Record { valve, word: if nth < same { word } else { !word } }
    };
    (0..192).map(record).collect()
}

/// Entries that 12 lets in only by entering them: of 192 valves the first is removed, a
/// new one set in its place, and the others are set again.
fn exchange(state: &VjState) -> Vec<(u16, u64)> {
    let [first, others @ ..] = &state.index.keys;
    let exchanged = [(REMOVAL | first, 0), (32767, 1)];
    exchanged.into_iter().chain(others.iter().map(|&valve| (valve, 2))).take(96).collect()
}

/// Kinds and flags of pages that are repeated up to the last page: groups of one
/// to five pages, finished and not, in each other's way.
const PATTERNS: [&[(u8, u8)]; 15] = [
    &[(NODES, 3)],
    &[(NODES, 1), (NODES, 2)],
    &[(NODES, 1), (NODES, 0), (NODES, 2)],
    &[(NODES, 1), (NODES, 0), (NODES, 0), (NODES, 2)],
    &[(NODES, 1), (NODES, 0), (NODES, 0), (NODES, 0)],
    &[(NODES, 1), (NODES, 0), (NODES, 0), (NODES, 0), (NODES, 2)],
    &[(NODES, 1)],
    &[(NODES, 1), (NODES, 3)],
    &[(NODES, 1), (MOVED, 3)],
    &[(NODES, 1), (GATHERED, 3)],
    &[(NODES, 1), (BASE, 1)],
    &[(BASE, 1), (BASE, 0)],
    &[(BASE, 1), (MOVED, 3), (NODES, 1), (NODES, 2)],
    &[(MOVED, 3)],
    &[(GATHERED, 3)],
];

/// Full media of 256 blocks: a base and pages by each of the patterns, in their
/// order, backward, and in any order. 192 valves are set.
fn full_media() -> Vec<Vec<u8>> {
    let pages = 256 * BLOCK_PAGES;
    let mut places: [Vec<usize>; 3] = std::array::from_fn(|_| (0..pages).collect());
    places[1].reverse();
    Random::new(54).shuffle(&mut places[2]);
    let mut media = Vec::new();
    for pattern in PATTERNS {
        for places in &places {
            let mut medium = blank(256);
            put_page(&mut medium, places[0], &lay_page(BASE, 3, 1, &[]));
            for nth in 1..pages {
                let (kind, flags) = pattern[(nth - 1) % pattern.len()];
                put_page(&mut medium, places[nth], &some_page(kind, flags, nth));
            }
            media.push(medium);
        }
    }
    media
}

/// The n-th page behind the base: 24 entries, or 16 groups of one.
fn some_page(kind: u8, flags: u8, nth: usize) -> [u8; 256] {
    let (first, serial) = (24 * nth, nth as u64 + 1);
    let entry = |i: usize| common::set_entry((1 + i % 192) as u16, i as u64);
    let entries: Vec<_> = (first..first + 24).map(entry).collect();
    match kind {
        GATHERED => lay_gathered(serial, &entries[..16].chunks(1).collect::<Vec<_>>()),
        _ => lay_page(kind, flags, serial, &entries),
    }
}

/// A journal of 256 blocks with 192 valves set, all in blocks that can be
/// collected, and its state.
fn crowded() -> (Vec<u8>, State) {
    let mut life = grown(256, How::High);
    let state = life.state.as_mut().expect("a state");
    let (keys, words) = lists(&valves(180, 12));
    Second::append(&life.medium, state, &EMPTY, &keys, &words).expect("append");
    Second::finish_unbuffered(&mut life.medium, state);
    Second::commit(&life.medium, state, &EMPTY).expect("commit");
    Second::finish_unbuffered(&mut life.medium, state);
    assert_eq!(state.index.len(), 192);
    (life.medium, state.clone())
}

#[test]
fn the_deepest_stack_of_each_call() {
    let mut table = Table::default();
    let mut media = full_media();
    for how in [How::Full, How::Round] {
        let mut life = grown(256, how);
        media.push(life.medium.clone());
        shuffle_blocks(&mut Random::new(53), &mut life);
        media.push(life.medium);
    }
    media.push(blank(256));
    media.iter().for_each(|medium| table.recovery(medium));

    let (medium, state) = crowded();
    let recovered = reader::recover(&medium).expect("recovery");
    for state in [&state, &recovered] {
        let idle = Proved::of(state);
        let begun = |call: &dyn Fn(&mut State)| {
            let mut begun = state.clone();
            call(&mut begun);
            Proved::of(&begun)
        };
        let commit = begun(&|s| writer::commit(&medium, s, &EMPTY).expect("commit"));
        let most = (0..256).max_by_key(|&block| {
            let collectible = reader::collectible(&medium, state, block);
            usize::from(collectible) * (1 + reader::live_count(state, block))
        });
        let block = most.expect("a block");
        let collect = begun(&|s| writer::collect(&medium, s, &EMPTY, block).expect("collect"));
        for begun in [commit, collect, Proved::of(&State::at_format(256))] {
            table.steps(&medium, &begun, &EMPTY);
        }
        // Groups that are let in by counting, and that have to be entered.
        for entries in [valves(1, 96), exchange(&idle)] {
            let (keys, words) = lists(&entries);
            let held = common::holding(&[&entries[..16]]);
            let append =
                begun(&|s| writer::append(&medium, s, &EMPTY, &keys, &words).expect("append"));
            let flush = begun(&|s| writer::flush(&medium, s, &held).expect("flush"));
            for state in [&idle, &append, &commit, &collect, &flush] {
                table.state(&medium, state, &entries);
            }
            table.steps(&medium, &append, &EMPTY);
            table.steps(&medium, &flush, &held);
        }
    }
    assert_eq!(medium.len(), 256 * BLOCK_BYTES);
    // Journals that are full, where a commit or a collection is named.
    for how in [How::Full, How::Round] {
        let life = grown(256, how);
        let state = Proved::of(life.state.as_ref().expect("a state"));
        for read in [0, 1] {
            table.note("vj_next", &Desk::new(&life.medium, &state, 96), read);
        }
    }
    print(&table);
    for call in stack::calls() {
        check(call, table.0[call.name()]);
    }
    assert_eq!(table.0.len(), stack::calls().len());
    assert!(table.0["vj_recover"] <= RECOVERY);
}

/// The header's number of a call is not less than it took, and not much more.
fn check(call: &Call, taken: usize) {
    let (name, most) = (call.name(), call.most());
    assert!(taken <= most, "{name} takes {taken} bytes of stack, the header says {most}");
    assert!(most <= taken + 2048, "{name} takes only {taken}, the header says {most}");
}

/// Writes the table where the tests' own output goes, also if they pass.
fn print(table: &Table) {
    let mut text =
        String::from("\nbytes of stack, the most that was seen and what the header says\n");
    for call in stack::calls() {
        text += &format!("{:14} {:7} {:7}\n", call.name(), table.0[call.name()], call.most());
    }
    std::io::stdout().write_all(text.as_bytes()).expect("standard output");
}

#[test]
fn the_deepest_stack_of_whole_operations() {
    let mut deepest = 0;
    let mut note = |what: &mut (dyn FnMut() -> u8 + Send), expected: u8| {
        let mut answer = FAILED;
        deepest = deepest.max(stack::taken(&mut || answer = what()));
        assert_eq!(answer, expected);
    };
    for medium in full_media() {
        let mut journal = Journal::new(&medium);
        let expected = common::recovery_number(&medium);
        note(&mut || journal.open(), expected);
    }
    let (mut journal, (keys, words)) = (Journal::new(&crowded().0), lists(&valves(1, 96)));
    note(&mut || journal.open(), 0);
    let block = reader::pick(&journal.chip.bytes, &journal.state().meaning().expect("a state"));
    let block = block.expect("a reading").expect("a block");
    note(&mut || journal.collect(block), 0);
    note(&mut || journal.append(&keys, &words), 0);
    note(&mut || journal.write(&keys, &words, true), 0);
    note(&mut || journal.buffer(&keys[..16], &words[..16]), 0);
    note(&mut || journal.flush(), 0);
    note(&mut || journal.commit(), 0);
    note(&mut || journal.format(), 0);
    let most = run::most_stack();
    assert!(deepest <= most && most <= deepest + 16384, "{deepest} bytes, said are {most}");
}
