//! The program `rerun` against the second implementation: what it prints, for
//! many traces, in form and damaged.

mod common;

use common::printed;
use journal_tests::corners::corners;
use journal_tests::random::{damaged_trace, some_calls, some_calls_within, Random};
use journal_tests::reader::{entries_of, Entry, REMOVAL};
use journal_tests::trace::{bytes_of, rerun, Call, MOST_BYTES};
use std::collections::BTreeMap;

/// Both print the same; how often each line was printed is added up, and of the
/// lines of settings only that there were some.
fn same(bytes: &[u8], lines: &mut BTreeMap<String, usize>) {
    let text = printed("rerun", bytes);
    assert!(text == rerun(bytes), "{}", told(bytes, &text));
    for line in text.lines() {
        let setting = line.starts_with(|first: char| first.is_ascii_digit());
        let line = match line {
            line if setting && line.ends_with(" 0") => "a setting of 0",
            _ if setting => "a setting",
            line => line,
        };
        *lines.entry(line.to_string()).or_insert(0) += 1;
    }
}

/// The first line that differs, and the trace's first bytes.
fn told(bytes: &[u8], text: &str) -> String {
    let expected = rerun(bytes);
    let (mut is, mut should) = (text.lines(), expected.lines());
    loop {
        let (is, should) = (is.next(), should.next());
        if is != should || is.is_none() {
            let head = &bytes[..bytes.len().min(200)];
            return format!("{is:?} for {should:?}, {} bytes: {head:02X?}", bytes.len());
        }
    }
}

#[test]
fn what_is_made_by_hand() {
    for corner in corners() {
        assert_eq!(printed("rerun", &corner.bytes), corner.text, "{}", corner.about);
    }
}

/// The entries of a call's group.
fn entries(call: &Call) -> Vec<Entry> {
    match call {
        Call::Append { keys, words } | Call::Buffer { keys, words } => entries_of(keys, words),
        _ => Vec::new(),
    }
}

/// Adds up what the calls of a trace in form have: the blocks, a flush, the removal of
/// valve 0, and a valve set to 0.
fn held(calls: &[Call], counts: &mut BTreeMap<String, usize>) {
    let mut count = |what: &str| *counts.entry(what.to_string()).or_insert(0) += 1;
    let Call::Format { blocks } = calls[0] else { panic!("a trace begins with format") };
    count(&format!("{blocks} blocks"));
    if calls.windows(2).any(|two| two == [Call::Flush, Call::Step]) {
        count("flush");
    }
    let entries: Vec<Entry> = calls.iter().flat_map(entries).collect();
    if entries.contains(&Entry { key: REMOVAL, word: 0 }) {
        count("valve 0 removed");
    }
    if entries.iter().any(|entry| !entry.removes() && entry.word == 0) {
        count("word 0");
    }
}

#[test]
fn traces_in_form() {
    let (mut random, mut lines) = (Random::new(132), BTreeMap::new());
    for _ in 0..3000 {
        let calls = some_calls(&mut random);
        same(&bytes_of(&calls), &mut lines);
        held(&calls, &mut lines);
    }
    let numbers = [4, 8, 9, 10, 11, 12, 13, 15, 23, 24, 27].map(|n| format!("refused {n}"));
    let often = ["log 0", "log 1", "set 0", "set 1", "set 192", "a setting", "a setting of 0"];
    let calls = ["flush", "valve 0 removed", "word 0"].map(String::from);
    let blocks = (4..=16).map(|blocks| format!("{blocks} blocks"));
    for line in numbers.into_iter().chain(often.map(String::from)).chain(calls).chain(blocks) {
        let times = lines.get(&line).copied().unwrap_or(0);
        assert!(times >= 20, "{times} times: {line}");
    }
}

/// Traces about as long as they can be, and a byte or a few shorter and longer.
#[test]
fn lengths() {
    let (mut random, mut lines) = (Random::new(134), BTreeMap::new());
    let mut accepted = 0;
    for _ in 0..20 {
        let bytes = bytes_of(&some_calls_within(&mut random, MOST_BYTES));
        accepted += usize::from(rerun(&bytes) != "refused 26\n");
        let length = bytes.len();
        for length in [0, 1, 7, 8, length - 1, length, length + 1, 65535, 65536, 65537, 69632] {
            let mut other = bytes.clone();
            other.resize(length, 0);
            same(&other, &mut lines);
        }
    }
    assert_eq!(accepted, 20);
    assert!(lines["refused 26"] >= 180);
}

#[test]
fn damaged_traces() {
    let (mut random, mut lines) = (Random::new(133), BTreeMap::new());
    for _ in 0..6000 {
        same(&damaged_trace(&mut random), &mut lines);
    }
    let broken = lines["refused 26"];
    assert!((1000..5000).contains(&broken), "{broken} times 26");
}
