//! Start-up time: recovery of the proved library over the tight one
//! (`tests/src/tight.rs`), on media of 16 and of 256 blocks. The tight one is
//! built twice: for any x86-64 processor, as the library's archive is, and for
//! x86-64-v2. All three recover the same media in turn in one process; the least
//! of many times counts. First the same medium again and again; then with other
//! media recovered before each timed call, so that no branch is foretold from the
//! call before; then as the first call of a process of its own.
//!
//!     cargo bench --offline --manifest-path tests/Cargo.toml --bench start_up
//!
//! With the word `list` it only prints the names of the media. With the words
//! `count`, an implementation (`proved`, `tight`, `v2`), a block count, a medium's
//! name and a number, it only recovers that medium so many times: for
//! `tests/instructions`. With the word `first` and an implementation it reads a
//! medium from standard input, recovers it once and prints the nanoseconds.

use journal_tests::grown::{grown, turn_blocks, How};
use journal_tests::random::Random;
use journal_tests::reader::{
    Entry, BASE, BEGINS, BLOCK_BYTES, ENDS, NODES, PAGE_BYTES, PAGE_ENTRIES, REMOVAL,
};
use journal_tests::writer::{lay_gathered, lay_page};
use journal_tests::{proved, tight};
use std::hint::black_box;
use std::io::{Read, Write};
use std::process::{Command, Stdio};
use std::time::{Duration, Instant};

/// Recovery of an accepted medium.
type Recover = fn(&[u8]);

fn proved(medium: &[u8]) {
    assert!(black_box(proved::recover(black_box(medium))).is_ok());
}

fn tight(medium: &[u8]) {
    assert!(black_box(tight::recover(black_box(medium))).is_ok());
}

fn tight_v2(medium: &[u8]) {
    // The processor was asked at the start.
    assert!(black_box(unsafe { tight::recover_v2(black_box(medium)) }).is_ok());
}

/// Each under its name.
const ALL: [(&str, Recover); 3] = [("proved", proved), ("tight", tight), ("v2", tight_v2)];

fn named(which: &str) -> Recover {
    ALL.iter().find(|one| one.0 == which).expect("an implementation").1
}

// ---------------------------------------------------------------------------
// Media

/// A page's bytes.
type Page = [u8; PAGE_BYTES];

/// An empty base in page 0, then so many pages, each by its serial; the rest clean.
fn written(blocks: usize, pages: usize, lay: impl Fn(u64) -> Page) -> Vec<u8> {
    let mut medium = vec![0xFF; blocks * BLOCK_BYTES];
    let base = lay_page(BASE, 3, 1, &[]);
    medium[..PAGE_BYTES].copy_from_slice(&base);
    for (serial, page) in (2..).zip(medium.chunks_exact_mut(PAGE_BYTES).skip(1).take(pages)) {
        page.copy_from_slice(&lay(serial));
    }
    medium
}

/// The same with as many pages as appends fill.
fn full(blocks: usize, lay: impl Fn(u64) -> Page) -> Vec<u8> {
    written(blocks, 16 * blocks - 17, lay)
}

/// Entries of the page with this serial, of so many valves in all.
fn entries(serial: u64, count: usize, valves: usize) -> Vec<Entry> {
    let mut random = Random::new(serial);
    let mut entry = || Entry { key: random.from_to(1, valves) as u16, word: random.word() };
    (0..count).map(|_| entry()).collect()
}

/// Pages of kind 1, each a group of so many entries, of 180 valves in all.
fn groups(count: usize) -> impl Fn(u64) -> Page {
    move |serial| lay_page(NODES, 3, serial, &entries(serial, count, 180))
}

/// Pages of kind 1, each a group of 24 entries, each changed by its place.
fn changed(valves: usize, change: impl Fn(usize, &mut Entry)) -> impl Fn(u64) -> Page {
    move |serial| {
        let mut entries = entries(serial, PAGE_ENTRIES, valves);
        entries.iter_mut().enumerate().for_each(|(place, entry)| change(place, entry));
        lay_page(NODES, 3, serial, &entries)
    }
}

/// Groups of 24 in which every third entry is a removal.
fn with_removals() -> impl Fn(u64) -> Page {
    changed(180, |place, entry| {
        if place % 3 == 2 {
            *entry = Entry { key: entry.key | REMOVAL, word: 0 };
        }
    })
}

/// Groups of 24 of 180 valves whose numbers are taken by chance from 1 to 32767.
fn spread() -> impl Fn(u64) -> Page {
    let mut valves: Vec<u16> = (1..REMOVAL).collect();
    Random::new(9).shuffle(&mut valves);
    changed(180, move |_, entry| entry.key = valves[usize::from(entry.key)])
}

/// Pages of kind 4, each with 16 groups of one entry.
fn gathered(serial: u64) -> Page {
    let entries = entries(serial, 16, 180);
    lay_gathered(serial, &entries.chunks(1).collect::<Vec<_>>())
}

/// Valves from 1 on, so many, set by groups of 24, and a base of them; then other
/// pages. A page with this serial stands one below it.
fn based(valves: usize, lay: impl Fn(u64) -> Page) -> impl Fn(u64) -> Page {
    let pages = valves.div_ceil(PAGE_ENTRIES);
    move |serial| {
        let nth = serial as usize - 2;
        let on_page = |nth: usize, word: &dyn Fn(usize) -> u64| -> Vec<Entry> {
            let places = PAGE_ENTRIES * nth..valves.min(PAGE_ENTRIES * (nth + 1));
            places.map(|at| Entry { key: 1 + at as u16, word: word(at) }).collect()
        };
        if nth < pages {
            lay_page(NODES, 3, serial, &on_page(nth, &|at| 1000 + at as u64))
        } else if nth < 2 * pages {
            let nth = nth - pages;
            let begins = if nth == 0 { BEGINS } else { 0 };
            let ends = if nth + 1 == pages { ENDS } else { 0 };
            let address = |at: usize| (PAGE_ENTRIES + at) as u64;
            lay_page(BASE, begins | ends, serial, &on_page(nth, &address))
        } else {
            lay(serial)
        }
    }
}

/// All pages written, but those after the ninth spoilt: by one bit, or with the
/// check not programmed.
fn spoilt(blocks: usize, programmed: bool) -> Vec<u8> {
    let mut medium = written(blocks, 16 * blocks - 1, groups(24));
    for page in medium.chunks_exact_mut(PAGE_BYTES).skip(9) {
        if programmed {
            page[2] = 0xFF;
        } else {
            page[..2].copy_from_slice(&[0xFF; 2]);
        }
    }
    medium
}

/// A full medium, runs of so many bytes put in this order.
fn in_order(blocks: usize, run: usize, order: impl Fn(&mut [usize])) -> Vec<u8> {
    let medium = full(blocks, groups(24));
    let mut from: Vec<usize> = (0..medium.len() / run).collect();
    order(&mut from);
    from.iter().flat_map(|&nth| medium[nth * run..][..run].iter().copied()).collect()
}

/// A journal whose serials go on at block 0, with a commit and three groups last.
fn wrapped(blocks: usize) -> Vec<u8> {
    let mut life = grown(blocks, How::High);
    turn_blocks(&mut life, blocks / 2);
    life.medium
}

/// The name of a medium, and how it is made on so many blocks.
type Made = (&'static str, fn(usize) -> Vec<u8>);

const MEDIA: [Made; 16] = [
    ("full, groups of 24", |blocks| full(blocks, groups(24))),
    ("full, groups of 2", |blocks| full(blocks, groups(2))),
    ("full, 16 groups of 1 to a page", |blocks| full(blocks, gathered)),
    ("written for long, with commits and collections", |blocks| grown(blocks, How::Round).medium),
    ("mostly clean", |blocks| written(blocks, 8, groups(24))),
    ("clean but the base", |blocks| written(blocks, 0, groups(24))),
    ("all but 9 pages spoilt, check programmed", |blocks| spoilt(blocks, true)),
    ("all but 9 pages spoilt, check not programmed", |blocks| spoilt(blocks, false)),
    ("full, blocks turned by half", |blocks| {
        in_order(blocks, BLOCK_BYTES, |order| order.rotate_left(blocks / 2))
    }),
    ("full, blocks in any order", |blocks| {
        in_order(blocks, BLOCK_BYTES, |order| Random::new(7).shuffle(order))
    }),
    ("full, serials falling", |blocks| in_order(blocks, PAGE_BYTES, |order| order.reverse())),
    ("full, 180 valves spread over 1 to 32767", |blocks| full(blocks, spread())),
    ("full, 12 of the base's 180 valves set again", |blocks| {
        full(blocks, based(180, changed(12, |_, _| {})))
    }),
    ("full, every third entry a removal", |blocks| full(blocks, with_removals())),
    ("a base of 192 valves and nothing after it", |blocks| {
        written(blocks, 16, based(192, groups(24)))
    }),
    ("come round, with a recent base", wrapped),
];

// ---------------------------------------------------------------------------
// Times

fn time(recover: Recover, medium: &[u8]) -> Duration {
    let start = Instant::now();
    recover(medium);
    start.elapsed()
}

/// The least time of each, run in turn for a second, others recovered before.
fn least(medium: &[u8], others: &[&[u8]]) -> [Duration; 3] {
    let (mut least, start, mut runs) = ([Duration::MAX; 3], Instant::now(), 0);
    while runs < 20 || start.elapsed() < Duration::from_secs(1) {
        for (least, (_, recover)) in least.iter_mut().zip(ALL) {
            others.iter().for_each(|other| recover(other));
            *least = time(recover, medium).min(*least);
        }
        runs += 1;
    }
    least
}

/// The least time of each as the first call of a process, of so many processes.
fn least_first(medium: &[u8], processes: usize) -> [Duration; 3] {
    let mut least = [Duration::MAX; 3];
    for _ in 0..processes {
        for (least, (which, _)) in least.iter_mut().zip(ALL) {
            *least = first_elsewhere(which, medium).min(*least);
        }
    }
    least
}

/// The time of the first call in a process of its own.
fn first_elsewhere(which: &str, medium: &[u8]) -> Duration {
    let mut command = Command::new(std::env::current_exe().expect("this program"));
    command.args(["first", which]).stdin(Stdio::piped()).stdout(Stdio::piped());
    let mut child = command.spawn().expect("a process");
    let mut input = child.stdin.take().expect("its input");
    input.write_all(medium).expect("the medium is read");
    drop(input);
    let output = child.wait_with_output().expect("its end").stdout;
    let text = String::from_utf8(output).expect("a number");
    Duration::from_nanos(text.trim().parse().expect("a number"))
}

/// Reads a medium and prints how long its first recovery takes.
fn first(which: &str) {
    let (recover, mut medium) = (named(which), Vec::new());
    std::io::stdin().read_to_end(&mut medium).expect("a medium");
    println!("{}", time(recover, &medium).as_nanos());
}

/// Recovers the medium of a name so many times.
fn count(which: &str, blocks: &str, name: &str, times: &str) {
    let recover = named(which);
    let (_, made) = MEDIA.iter().find(|medium| medium.0 == name).expect("a medium's name");
    let medium = made(blocks.parse().expect("a block count"));
    (0..times.parse().expect("a number")).for_each(|_: usize| recover(&medium));
}

fn main() {
    assert!(std::arch::is_x86_feature_detected!("popcnt"), "no x86-64-v2");
    let words: Vec<String> = std::env::args().skip(1).filter(|word| word != "--bench").collect();
    match &words.iter().map(String::as_str).collect::<Vec<_>>()[..] {
        ["list"] => MEDIA.iter().for_each(|(name, _)| println!("{name}")),
        ["count", which, blocks, name, times] => count(which, blocks, name, times),
        ["first", which] => first(which),
        [] => times(),
        _ => panic!("no such words: {words:?}"),
    }
}

/// The ratios of the first time to the others.
fn ratios(times: [Duration; 3]) -> String {
    let [proved, tight, v2] = times.map(|time| time.as_secs_f64());
    format!("{:.2} | {:.2}", proved / tight, proved / v2)
}

/// Prints the times as a table: of each way of timing the ratio to either build.
fn times() {
    println!("| medium | proved | tight | v2 | ratio | to v2 | disturbed | to v2 | first call | to v2 |");
    println!("|---|---|---|---|---|---|---|---|---|---|");
    for blocks in [16, 256] {
        let media = MEDIA.map(|(name, made)| (name, made(blocks)));
        for (nth, (name, medium)) in media.iter().enumerate() {
            let others = [1, 4, 9].map(|more| &*media[(nth + more) % media.len()].1);
            let (again, disturbed) = (least(medium, &[]), least(medium, &others));
            let first = least_first(medium, 40);
            let [proved, tight, v2] = again.map(|time| time.as_secs_f64() * 1e6);
            let (again, disturbed, first) = (ratios(again), ratios(disturbed), ratios(first));
            println!(
                "| {blocks} blocks, {name} | {proved:.1} µs | {tight:.1} µs | {v2:.1} µs | {again} | {disturbed} | {first} |"
            );
        }
    }
}
