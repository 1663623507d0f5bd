//! The samples that the gate gives to `morning` and `rerun`: how each is made, by
//! the second implementation, and that the files are just that. Where a sample is
//! changed here, its files are written again by
//! `cargo test --release --offline --manifest-path tests/Cargo.toml --test samples -- --ignored`.

mod common;

use common::{append, formatted, lists};
use journal_tests::before;
use journal_tests::corners::file;
use journal_tests::reader::{self, Entry, Page, BLOCK_BYTES, GATHERED, PAGE_BYTES, REMOVAL};
use journal_tests::trace::{bytes_of, rerun, Call};
use journal_tests::writer::{self, State};
use std::fs;

/// A sample: the program, its input, and what it prints.
type Sample = (&'static str, Vec<u8>, String);

/// A valve's removal.
const fn removal(valve: u16) -> (u16, u64) {
    (valve + REMOVAL, 0)
}

/// Groups go through the write buffer to one page.
fn flush(medium: &mut [u8], state: &mut State, groups: &[&[(u16, u64)]]) {
    let mut buffer = common::EMPTY;
    for group in groups {
        common::gather(medium, state, &mut buffer, group).expect("buffer");
    }
    writer::flush(medium, state, &buffer).expect("flush");
    while state.pending.is_some() {
        writer::step(medium, state, &mut buffer).expect("step");
    }
}

/// A journal of 4 blocks, begun as 01's example. Its third group sets valve 0, as an
/// older program did; the fifth removes it. Two pages are of kind 4, words are 0 in the
/// log and in the settings, and the last groups have the numbers 10 to 12.
fn medium() -> Vec<u8> {
    let (mut medium, mut state) = formatted(4);
    append(&mut medium, &mut state, &[(5, 1000), (7, 20)]);
    append(&mut medium, &mut state, &[removal(5)]);
    let older = [(0, 300), (9, 0)].map(|(key, word)| Entry { key, word });
    before::append(&mut medium, &mut state, &older);
    flush(&mut medium, &mut state, &[&[(12, 0)], &[removal(0), (7, 21)], &[(32767, u64::MAX)]]);
    append(&mut medium, &mut state, &[removal(9)]);
    let groups: [&[(u16, u64)]; 6] =
        [&[(1, 0)], &[(1, 5), (2, 0)], &[removal(1)], &[(32766, 1)], &[removal(7)], &[(12, 9)]];
    flush(&mut medium, &mut state, &groups);
    medium
}

fn append_call(group: &[(u16, u64)]) -> Call {
    let (keys, words) = lists(group);
    Call::Append { keys, words }
}

fn buffer_call(group: &[(u16, u64)]) -> Call {
    let (keys, words) = lists(group);
    Call::Buffer { keys, words }
}

/// A cut that leaves the page torn after so many bytes, and the recovery.
fn cut(page: u64, bytes: usize) -> [Call; 2] {
    let mut pattern = vec![0; PAGE_BYTES];
    pattern[bytes..].fill(0xFF);
    [Call::Cut { place: page, pattern }, Call::Recover]
}

/// A run on 6 blocks: appended groups, a step where none is due, valve 0 refused and
/// removed, a page of kind 4 with nine groups, words that are 0; a page that was cut,
/// one that was cut and is complete, and a cut at another page than the one due.
fn trace() -> Vec<u8> {
    let mut calls = vec![Call::Format { blocks: 6 }];
    calls.resize(8, Call::Step);
    calls.extend([append_call(&[(5, 1000), (7, 20)]), Call::Step]);
    calls.extend([append_call(&[removal(5)]), Call::Step, Call::Recover, Call::Step]);
    calls.extend([append_call(&[(0, 300)]), append_call(&[(12, 0), removal(0)])]);
    calls.extend([
        Call::Step,
        Call::Step,
        buffer_call(&[(9, 300)]),
        buffer_call(&[(9, 0), (8, 1)]),
    ]);
    calls.extend((1..8).map(|word| buffer_call(&[(8, word)])));
    calls.extend([Call::Flush, Call::Step, Call::Recover]);
    calls.extend([append_call(&[(11, 4)]), Call::Step]);
    calls.extend(cut(32, 16));
    calls.extend([append_call(&[(11, 4)]), Call::Step]);
    calls.extend(cut(48, PAGE_BYTES));
    calls.push(Call::Commit);
    calls.extend(cut(5, PAGE_BYTES));
    bytes_of(&calls)
}

fn samples() -> [Sample; 2] {
    let (medium, trace) = (medium(), trace());
    let (listing, lines) = (reader::morning(&medium), rerun(&trace));
    [("morning", medium, listing), ("rerun", trace, lines)]
}

fn path(program: &str, stream: &str) -> String {
    format!("{}/../crates/{program}/{stream}", env!("CARGO_MANIFEST_DIR"))
}

#[test]
#[ignore = "writes the samples"]
fn written_again() {
    for (program, input, text) in samples() {
        fs::write(path(program, "stdin"), input).expect("the sample");
        fs::write(path(program, "stdout"), text).expect("what is printed");
    }
}

#[test]
fn the_files_are_what_is_made() {
    for (program, input, text) in samples() {
        assert!(fs::read(path(program, "stdin")).expect("the sample") == input, "{program}");
        assert_eq!(fs::read_to_string(path(program, "stdout")).expect("a text"), text);
        assert_eq!(common::printed(program, &input), text);
    }
}

#[test]
fn what_the_samples_hold() {
    let [(_, medium, listing), (_, _, lines)] = samples();
    for line in ["0 5 1000", "3 12 0", "2 0 300", "4 0 -", "10 32766 1", "12 12 9", "2 0"] {
        assert!(listing.lines().any(|printed| printed == line), "{line}");
    }
    let kinds = (0..).map_while(|p| Page::of(&medium, p)).map(Page::kind);
    assert_eq!(kinds.filter(|&kind| kind == GATHERED).count(), 2);
    for line in ["refused 9", "refused 11", "12 0", "9 0", "log 15", "refused 27"] {
        assert!(lines.lines().any(|printed| printed == line), "{line}");
    }
}

/// The lines of a part of a document that are set apart by four spaces.
fn set_apart(text: &str) -> impl Iterator<Item = &str> {
    text.lines().filter_map(|line| line.strip_prefix("    "))
}

/// The medium that docs/FORMAT.md reads by hand is the sample's first three pages
/// alone, and it says what `morning` and `pages` print of that.
#[test]
fn the_pages_that_are_read_by_hand() {
    let text = file("docs/FORMAT.md");
    let section = text.split("\n## Example: the sample medium\n").nth(1).expect("its section");
    let section = section.split("\n## ").next().expect("its section");
    let (bytes, pages) = section.split_once("\nThe program `pages` prints").expect("what it prints");
    let (mut listed, mut printed) = (vec![0xFF; 4 * BLOCK_BYTES], String::new());
    for line in set_apart(bytes) {
        let Some((offset, bytes)) = line.split_once("  ") else {
            printed += &format!("{line}\n");
            continue;
        };
        let offset = usize::from_str_radix(offset, 16).expect("an offset");
        for (byte, digits) in listed[offset..].iter_mut().zip(bytes.split(' ')) {
            *byte = u8::from_str_radix(digits, 16).expect("a byte");
        }
    }
    let three = 3 * PAGE_BYTES;
    assert!(listed[..three] == medium()[..three] && listed[three..].iter().all(|&b| b == 0xFF));
    assert_eq!(reader::morning(&listed), printed);
    let told: String = set_apart(pages).map(|line| format!("{line}\n")).collect();
    assert_eq!(common::printed("pages", &listed), told);
}
