//! The program `pages` against the second implementation: what it prints, on
//! many media; its sample; and what it tells where reading or writing fails.

mod common;

use common::{printed, set_entry};
use journal_tests::random::{self, Random};
use journal_tests::reader::{self, Class, Entry, Page, Refused, BASE, NODES};
use journal_tests::reader::{BLOCK_BYTES, PAGE_BYTES, REMOVAL};
use journal_tests::writer::{lay_gathered, lay_page, put_page, seal};
use std::collections::BTreeMap;
use std::fmt::Write;
use std::fs::File;
use std::process::{Command, Output, Stdio};

/// The longest medium.
const MOST_BYTES: usize = 256 * BLOCK_BYTES;

/// What the program must print: a line for each page that is not clean and one
/// for each of its entries, one for each run of clean pages, then the number
/// that recovery refuses with; 1 alone for more than 1048576 bytes.
fn described(medium: &[u8]) -> String {
    if medium.len() > MOST_BYTES {
        return "refused 1\n".to_string();
    }
    let pages: Vec<Page> = (0..).map_while(|p| Page::of(medium, p)).collect();
    let (mut text, mut p) = (String::new(), 0);
    while p < pages.len() {
        let clean = pages[p..].iter().take_while(|page| page.class() == Class::Clean).count();
        match clean {
            0 => writeln!(text, "page {p}: {}{}", said(pages[p]), entries(pages[p])),
            1 => writeln!(text, "page {p}: clean"),
            _ => writeln!(text, "pages {p} to {}: clean", p + clean - 1),
        }
        .expect("text");
        p += clean.max(1);
    }
    if let Err(Refused(number)) = reader::recover(medium) {
        writeln!(text, "refused {number}").expect("text");
    }
    text
}

/// What a page that is not clean is, and what its bytes say.
fn said(page: Page) -> String {
    let kinds = ["unknown", "nodes", "base", "moved nodes", "small groups"];
    let flags = ["neither begins nor ends", "begins", "ends", "begins and ends"];
    let named =
        |names: &[&'static str], number: u8| *names.get(usize::from(number)).unwrap_or(&"unknown");
    let kind = format!("kind {} ({})", page.kind(), named(&kinds, page.kind()));
    let flags = format!("flags {} ({})", page.flags(), named(&flags, page.flags()));
    let fields = format!("{kind}, {flags}, serial {}, entries {}", page.serial(), page.n());
    match page.class() {
        Class::Whole if page.lawful() => format!("whole, {fields}, keeps the rules"),
        Class::Whole => format!("whole, {fields}, breaks the rules"),
        _ => format!("spoilt, reads as {fields}"),
    }
}

/// Its entries, a line before each.
fn entries(page: Page) -> String {
    let line = |(i, e): (usize, Entry)| format!("\n  entry {i}: key {}, word {}", e.key, e.word);
    page.entries().enumerate().map(line).collect()
}

/// The program prints what the second implementation finds; how often each part
/// of a line was printed is added up.
fn same(medium: &[u8], parts: &mut BTreeMap<String, usize>) {
    let text = printed("pages", medium);
    assert!(text == described(medium), "a medium of {} bytes", medium.len());
    for part in text.split([',', ':', '\n']) {
        *parts.entry(part.trim().to_string()).or_insert(0) += 1;
    }
}

/// So many pages by chance: clean, with any bytes, with any bytes and their own
/// check, with any fields.
fn scattered(random: &mut Random, pages: usize) -> Vec<u8> {
    let mut medium = vec![0xFF; pages * PAGE_BYTES];
    for p in 0..pages {
        let mut bytes = [0xFF; PAGE_BYTES];
        match random.below(4) {
            0 => continue,
            1 => random.fill(&mut bytes),
            2 => {
                random.fill(&mut bytes);
                seal(&mut bytes);
            }
            _ => {
                let (kind, flags) = (random.below(6) as u8, random.below(5) as u8);
                let entries: Vec<Entry> = (0..random.below(25))
                    .map(|_| Entry { key: random.bits() as u16, word: random.word() })
                    .collect();
                bytes = lay_page(kind, flags, random.word(), &entries);
            }
        }
        put_page(&mut medium, p, &bytes);
    }
    medium
}

#[test]
fn prints_what_the_second_implementation_finds() {
    let (mut random, mut parts) = (Random::new(85), BTreeMap::new());
    for events in 0..200 {
        let mut medium = random::lived(&mut random, events).medium;
        same(&medium, &mut parts);
        random::damage(&mut random, &mut medium);
        same(&medium, &mut parts);
        let pages = random.below(200);
        same(&scattered(&mut random, pages), &mut parts);
    }
    for part in ["clean", "whole", "keeps the rules", "breaks the rules", "refused 2", "refused 5"]
        .into_iter()
        .chain(["entry 0", "entry 15", "entry 23", "word 0", "kind 4 (small groups)"])
    {
        let times = parts.get(part).copied().unwrap_or(0);
        assert!(times >= 5, "{times} times: {part}");
    }
    assert!(!parts.contains_key("entry 24"));
}

/// Media of more than 16 blocks, and texts of more bytes than are written at a
/// time.
#[test]
fn many_blocks() {
    let (mut random, mut parts) = (Random::new(87), BTreeMap::new());
    for events in 0..60 {
        let blocks = random.from_to(17, 256);
        let mut medium = random::lived_on(&mut random, blocks, 6 * events).medium;
        same(&medium, &mut parts);
        random::damage(&mut random, &mut medium);
        same(&medium, &mut parts);
    }
    let mut longest = 0;
    for pages in [4096, 4096, 4095, 3000, 1600] {
        let medium = scattered(&mut random, pages);
        same(&medium, &mut parts);
        longest = longest.max(described(&medium).len());
    }
    assert!(longest > 3 << 20, "{longest} bytes");
    let mut full = vec![0; MOST_BYTES];
    random.fill(&mut full);
    same(&full, &mut parts);
}

/// Bytes past the last page are no page; more than 1048576 bytes are refused
/// before anything else.
#[test]
fn a_length_that_is_not_allowed() {
    let medium = random::lived_on(&mut Random::new(86), 256, 40).medium;
    for length in [0, 1, 255, 256, 257, 1000, 12288, 16383, 65535, 65537, 65792, 1048575] {
        let text = printed("pages", &medium[..length]);
        assert_eq!(text, described(&medium[..length]));
        assert!(text.ends_with("refused 1\n"));
        assert_eq!(length < PAGE_BYTES, text == "refused 1\n");
    }
    for length in [65536, 69632, 1048576] {
        let text = printed("pages", &medium[..length]);
        assert_eq!(text, described(&medium[..length]));
        assert!(!text.ends_with("refused 1\n"));
    }
    for length in [1048577, 1048832, 1052672, 2097152] {
        let mut medium = medium.clone();
        medium.resize(length, 0xFF);
        assert_eq!(printed("pages", &medium), "refused 1\n", "{length} bytes");
    }
}

/// The sample: 01's example of four blocks, whose page 2, the removal of valve
/// 5, has faded by one bit; after it a group, then small groups, with a word 0,
/// a removal of valve 0 and the greatest word.
#[test]
fn the_sample() {
    let sample = concat!(env!("CARGO_MANIFEST_DIR"), "/../crates/pages/");
    let removal = |valve: u16| Entry { key: REMOVAL + valve, word: 0 };
    let mut faded = lay_page(NODES, 3, 3, &[removal(5)]);
    faded[64] |= 16;
    let small = [vec![set_entry(9, 0)], vec![removal(0), set_entry(5, u64::MAX)]];
    let mut medium = vec![0xFF; 4 * BLOCK_BYTES];
    for (page, bytes) in [
        lay_page(BASE, 3, 1, &[]),
        lay_page(NODES, 3, 2, &[set_entry(5, 1000), set_entry(7, 20)]),
        faded,
        lay_page(NODES, 3, 4, &[set_entry(9, 3)]),
        lay_gathered(5, &[&small[0], &small[1]]),
    ]
    .iter()
    .enumerate()
    {
        put_page(&mut medium, page, bytes);
    }
    assert!(std::fs::read(format!("{sample}stdin")).expect("the sample") == medium);
    let text = std::fs::read_to_string(format!("{sample}stdout")).expect("its text");
    assert_eq!(text, described(&medium));
    assert_eq!(text, printed("pages", &medium));
}

/// What the program leaves that reads and writes these files.
fn run(input: File, output: Stdio) -> Output {
    let path = concat!(env!("CARGO_MANIFEST_DIR"), "/../target/bin/pages");
    let mut command = Command::new(path);
    command.stdin(input).stdout(output).stderr(Stdio::piped());
    command.spawn().and_then(|child| child.wait_with_output()).expect("the program in target/bin")
}

/// A read that fails is not taken for the end of the medium, nor a write for
/// done: both are told on standard error.
#[test]
fn a_read_or_a_write_that_fails() {
    let folder = File::open(env!("CARGO_MANIFEST_DIR")).expect("a folder, which cannot be read");
    let unread = run(folder, Stdio::piped());
    assert_eq!(unread.stdout, b"");
    assert!(unread.stderr.starts_with(b"cannot read standard input: "));
    let sample = concat!(env!("CARGO_MANIFEST_DIR"), "/../crates/pages/stdin");
    let full = File::options().write(true).open("/dev/full").expect("a full device");
    let unwritten = run(File::open(sample).expect("the sample"), Stdio::from(full));
    assert!(unwritten.stderr.starts_with(b"cannot write standard output: "));
    let printed = run(File::open(sample).expect("the sample"), Stdio::piped());
    assert_eq!(printed.stderr, b"");
    assert!(!printed.stdout.is_empty());
}
