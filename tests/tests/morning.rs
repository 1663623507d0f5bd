//! The program `morning` against the second implementation: what it prints, on
//! many media.

mod common;

use common::{commit, formatted};
use journal_tests::before;
use journal_tests::corners::file;
use journal_tests::grown::{grown, How};
use journal_tests::logs::{each_medium, medium_of, removal, setting, Pages};
use journal_tests::random::{self, Random};
use journal_tests::reader::{self, Class, Entry, Page, BLOCK_BYTES, GATHERED, REMOVAL};
use std::collections::BTreeMap;
use std::fs;
use std::path::{Path, PathBuf};
use std::process::Command;

/// What the proved program prints for a medium.
fn printed(medium: &[u8]) -> String {
    common::printed("morning", medium)
}

/// Both print the same; how often each line was printed is added up, the group
/// of a change apart from the rest of its line.
fn same(medium: &[u8], lines: &mut BTreeMap<String, usize>) {
    let text = printed(medium);
    assert_eq!(text, reader::morning(medium));
    let mut count = |line: String| *lines.entry(line).or_insert(0) += 1;
    for line in text.lines() {
        match line.split(' ').collect::<Vec<_>>()[..] {
            [group, valve, word] => {
                count(format!("group {group}"));
                count(format!("{valve} {word}"));
            }
            _ => count(line.to_string()),
        }
    }
}

/// A medium whose groups set and remove the first and the last valves, 0 too as
/// by the rules of before; some stand together on a page.
fn at_the_ends(random: &mut Random) -> Vec<u8> {
    let blocks = random.from_to(4, 16);
    at_the_ends_of(random, blocks)
}

/// The same of so many blocks.
fn at_the_ends_of(random: &mut Random, blocks: usize) -> Vec<u8> {
    let (mut medium, mut state) = formatted(blocks);
    for _ in 0..random.below(40) {
        let mut entry = || {
            let valve = random.one_of(&[0, 1, 255, 256, 32766, 32767]);
            if random.one_in(2) {
                Entry { key: valve + REMOVAL, word: 0 }
            } else {
                Entry { key: valve, word: random.word() }
            }
        };
        let group: Vec<Entry> = (0..15).map(|_| entry()).collect();
        if random.one_in(2) {
            before::append(&mut medium, &mut state, &group[random.from_to(10, 14)..]);
        } else {
            let groups: Vec<&[Entry]> = group.chunks(random.from_to(1, 5)).collect();
            before::flush(&mut medium, &mut state, &groups);
        }
    }
    if random.one_in(4) {
        commit(&mut medium, &mut state);
    }
    medium
}

#[test]
fn prints_what_the_second_implementation_prints() {
    let (mut random, mut lines) = (Random::new(48), BTreeMap::new());
    for events in 0..250 {
        let mut medium = random::lived(&mut random, events).medium;
        same(&medium, &mut lines);
        random::damage(&mut random, &mut medium);
        same(&medium, &mut lines);
        same(&at_the_ends(&mut random), &mut lines);
    }
    let often = ["0 -", "32767 -", "log 0", "set 0", "refused 1", "refused 2", "refused 4"];
    let groups = ["group 0", "group 9", "group 10", "group 99", "group 100"];
    for line in often.into_iter().chain(groups) {
        let times = lines.get(line).copied().unwrap_or(0);
        assert!(times >= 5, "{times} times: {line}");
    }
}

/// Adds up what a medium that both read alike holds, besides its lines: its blocks,
/// pages of kind 4 in its log, words 0, and a length that is no blocks.
fn held(medium: &[u8], lines: &mut BTreeMap<String, usize>) {
    let mut count = |what: String| *lines.entry(what).or_insert(0) += 1;
    if medium.len() % BLOCK_BYTES != 0 {
        count("no blocks".to_string());
    }
    let Ok(replay) = reader::replay(medium) else { return };
    count(format!("{} blocks", replay.state.blocks));
    let pages = (0..).map_while(|p| Page::of(medium, p));
    let gathered = |page: &Page| page.kind() == GATHERED && page.class() == Class::Whole;
    if pages.filter(gathered).any(|page| page.serial() > replay.state.first_base_serial) {
        count("kind 4".to_string());
    }
    let zero = |entry: &Entry| !entry.removes() && entry.word == 0;
    if replay.changes().any(|change| zero(&change.entry)) {
        count("word 0 in the log".to_string());
    }
    if replay.settings().iter().any(zero) {
        count("word 0 in the settings".to_string());
    }
}

/// Media of each number of blocks: by chance, written full, written round and round;
/// each of them damaged, and a little longer and shorter.
#[test]
fn media_of_4_to_16_blocks() {
    let (mut random, mut lines) = (Random::new(51), BTreeMap::new());
    let mut both = |medium: &[u8]| {
        same(medium, &mut lines);
        held(medium, &mut lines);
    };
    for blocks in 4..=16 {
        let mut media: Vec<Vec<u8>> = vec![grown(blocks, How::Full).medium];
        media.push(grown(blocks, How::Round).medium);
        media.extend((0..4).map(|_| at_the_ends_of(&mut random, blocks)));
        media.extend((0..4).map(|_| random::medium_on(&mut random, blocks)));
        for mut medium in media {
            both(&medium);
            for more in [-4096, -256, -1, 1, 256, 4096] {
                let mut other = medium.clone();
                other.resize(medium.len().saturating_add_signed(more), 0xFF);
                both(&other);
            }
            random::damage(&mut random, &mut medium);
            both(&medium);
        }
    }
    let blocks = (4..=16).map(|blocks| (format!("{blocks} blocks"), 10));
    let kinds = ["kind 4", "word 0 in the log", "word 0 in the settings"];
    let words = kinds.map(|what| (what.to_string(), 40));
    for (what, least) in blocks.chain(words).chain([("no blocks".to_string(), 400)]) {
        let times = lines.get(&what).copied().unwrap_or(0);
        assert!(times >= least, "{times} times: {what}");
    }
}

/// Refused media in each of their ways, sketches, logs by chance and logs made for the
/// purpose, media of many blocks.
#[test]
fn media_of_every_kind() {
    let mut lines = BTreeMap::new();
    each_medium(52, 60, |_, medium| same(medium, &mut lines));
    for number in 1..=6 {
        let times = lines.get(&format!("refused {number}")).copied().unwrap_or(0);
        assert!(times >= 3, "{times} times: refused {number}");
    }
}

/// The longest listings: as many changes as 16 blocks hold, with the longest words, and
/// as many groups. At 65536 bytes they are printed, and one byte more is refused.
#[test]
fn the_longest_listings() {
    let entry = |n: usize| match n % 5 {
        0 => removal(32767),
        _ => setting(32767 - (n % 191) as u16, u64::MAX - n as u64 % 2),
    };
    for (changes, size, pages) in [(255 * 24, 24, Pages::Own), (255 * 16, 1, Pages::Gathered)] {
        let entries: Vec<Entry> = (0..changes).map(entry).collect();
        let log: Vec<Vec<Entry>> = entries.chunks(size).map(<[Entry]>::to_vec).collect();
        let mut medium = medium_of(16, &log, pages);
        same(&medium, &mut BTreeMap::new());
        assert!(printed(&medium).starts_with(&format!("log {changes}\n")));
        assert_eq!(printed(&medium[..65535]), "refused 1\n");
        medium.push(0xFF);
        assert_eq!(printed(&medium), "refused 1\n");
    }
}

/// No byte, too few, and too many: whatever they are. From 69632 to 1048576
/// bytes these are media that recovery takes.
#[test]
fn a_length_that_is_not_allowed() {
    let journal = at_the_ends(&mut Random::new(49));
    let few = [0, 1, 12288, 16383, 65535, 65537, 65792];
    let many = [69632, 131072, 262144, 1044480, 1048576, 1052672];
    for length in few.into_iter().chain(many) {
        let mut medium = journal.clone();
        medium.resize(length, 0xFF);
        assert_eq!(reader::recover(&medium).is_ok(), many[..5].contains(&length));
        assert_eq!(printed(&medium), "refused 1\n", "{length} bytes");
    }
}

// ---------------------------------------------------------------------------
// Whether a listing is whole

/// The lines of shell in docs/USING.md: the one that runs the program, and those that
/// tell whether its listing is whole.
fn lines_of_shell() -> (String, String) {
    let text = file("docs/USING.md");
    let section = text.split("\n## Whether a listing is whole\n").nth(1).expect("its section");
    let section = section.split("\n## ").next().expect("its section");
    let lines: Vec<&str> = section.lines().filter_map(|line| line.strip_prefix("    ")).collect();
    let (runs, asks) = lines.split_first().expect("the lines");
    (runs.to_string(), asks.join("\n"))
}

/// A folder in which lines of shell are run.
struct Folder(PathBuf);

impl Folder {
    fn new(name: &str) -> Folder {
        let path = Path::new(env!("CARGO_TARGET_TMPDIR")).join(name);
        fs::create_dir_all(&path).expect("a folder");
        Folder(path)
    }

    fn put(&self, name: &str, bytes: &[u8]) {
        fs::write(self.0.join(name), bytes).expect("a file");
    }

    /// Whether the last line ends with status 0.
    fn accepts(&self, lines: &str) -> bool {
        let mut shell = Command::new("sh");
        shell.arg("-c").arg(lines).current_dir(&self.0);
        shell.status().expect("the shell").success()
    }
}

/// Listings and refusals, whole, cut off after each of their bytes, and with a line
/// more.
#[test]
fn a_listing_that_is_cut_off_is_told_from_a_whole_one() {
    let (_, asks) = lines_of_shell();
    let folder = Folder::new("cut_off");
    let sample = fs::read_to_string("../crates/morning/stdout").expect("the sample");
    for whole in [&sample, "log 0\nset 0\n", "log 1\n0 7 11\nset 1\n7 11\n", "refused 12\n"] {
        for length in 0..=whole.len() {
            folder.put("ERRORS", b"");
            folder.put("LISTING", &whole.as_bytes()[..length]);
            assert_eq!(folder.accepts(&asks), length == whole.len(), "{length} bytes of {whole}");
        }
        folder.put("LISTING", format!("{whole}7 1\n").as_bytes());
        assert!(!folder.accepts(&asks), "a line behind {whole}");
        folder.put("LISTING", whole.as_bytes());
        folder.put("ERRORS", b"cannot read standard input: Input/output error\n");
        assert!(!folder.accepts(&asks), "an error beside {whole}");
    }
}

/// The program, run so, on media and with streams that fail.
#[test]
fn a_run_that_failed_is_told_from_a_whole_one() {
    let (runs, asks) = lines_of_shell();
    let folder = Folder::new("runs");
    let medium = at_the_ends(&mut Random::new(50));
    for (medium, refused) in [(&medium[..], false), (&medium[..12288], true), (&[], true)] {
        folder.put("MEDIUM", medium);
        let length = reader::morning(medium).len();
        let program = common::proved("morning");
        let library = common::streams_library().display();
        let accepted = |fault: &str| {
            let called = format!("LD_PRELOAD='{library}' FAULT='{fault}' '{program}'");
            folder.accepts(&format!("{}\n{asks}", runs.replace("target/bin/morning", &called)))
        };
        for n in [0, 1, length / 2, length - 1, length] {
            assert_eq!(accepted(&format!("write {n}")), n == length, "{n} bytes written");
        }
        for n in (0..=medium.len()).step_by(4096) {
            assert!(!accepted(&format!("read {n}")), "{n} bytes read");
        }
        assert!(accepted("short 100"));
        let listing = fs::read_to_string(folder.0.join("LISTING")).expect("the listing");
        assert_eq!(listing, reader::morning(medium));
        assert_eq!(listing.starts_with("refused 1\n"), refused);
    }
}
