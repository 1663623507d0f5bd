//! Paper 14, bits that fade: of a medium that a list of calls and cuts has
//! reached, bits turn from 0 to 1. Then recovery refuses, or log and settings are
//! those of one moment since formatting ended, by the plain history.
//!
//! `JOURNAL_FADES=n` asks for n fades. A failure prints a seed;
//! `JOURNAL_SEED=s` begins with it.

mod common;

use common::{lists, valves, variable, Seed};
use journal_tests::fading::{
    fade, faded_pages, shown, verdict, Pages, Shown, Verdict, Watched, FADES,
};
use journal_tests::player::Action;
use journal_tests::random::Random;
use journal_tests::reader::*;
use std::collections::BTreeMap;

/// How often each thing happened.
type Counts = BTreeMap<String, usize>;

fn count(counts: &mut Counts, name: impl Into<String>) {
    *counts.entry(name.into()).or_insert(0) += 1;
}

// ---------------------------------------------------------------------------
// Fades by chance

/// Fades, where no variable asks for another number.
const MANY: usize = 40_000;

/// One list on so many blocks; after one in so many of its events the medium fades.
struct List {
    blocks: usize,
    events: usize,
    one_in: usize,
}

/// Mostly 4 to 17 blocks; now and then 64 or 256, whose formatting alone takes
/// an event for each.
fn list(nth: u64) -> List {
    match nth % 50 {
        24 => List { blocks: 64, events: 1500, one_in: 40 },
        49 => List { blocks: 256, events: 800, one_in: 60 },
        other => List { blocks: 4 + other as usize % 14, events: 500, one_in: 10 },
    }
}

/// Plays the list that a seed gives.
fn play(seed: u64, counts: &mut Counts) {
    let _seed = Seed(seed);
    let (mut random, List { blocks, events, one_in }) = (Random::new(seed), list(seed));
    let mut watched = Watched::new(&mut random, blocks);
    // Where few of the commits are made, the log grows long.
    let (commits, mut serial) = (random.one_of(&[1, 5, 50]), 0);
    for _ in 0..events {
        let mut action = watched.life.next_action(&mut random);
        while action == Action::Commit && !random.one_in(commits) {
            action = watched.life.next_action(&mut random);
        }
        watched.act(&action);
        if watched.moments().is_empty() {
            serial = 0;
        } else if random.one_in(one_in) {
            let pages = Pages::of(watched.medium());
            assert!(serial <= pages.next_serial(), "the next serial does not fall");
            serial = pages.next_serial();
            fade_often(&mut random, &watched, &pages, counts);
        }
    }
}

/// The medium as it now is fades in each way, each time from the beginning.
fn fade_often(random: &mut Random, watched: &Watched, pages: &Pages, counts: &mut Counts) {
    let (medium, moments) = (watched.medium(), watched.moments());
    assert_eq!(verdict(medium, pages, moments), Verdict::Same, "what has not faded");
    let mut faded = medium.to_vec();
    for what in FADES {
        faded.copy_from_slice(medium);
        fade(random, pages, &mut faded, what);
        let gone = faded_pages(medium, &faded);
        if gone.is_empty() {
            continue;
        }
        let verdict = verdict(&faded, pages, moments);
        if !gone.iter().any(|page| pages.from_the_base_on().contains(page)) {
            let present = [Verdict::Same, Verdict::Refused(6)].contains(&verdict);
            assert!(present, "no page from the base on has faded: {verdict:?}");
        }
        count(counts, "fades");
        count(counts, format!("{verdict:?}"));
        count(counts, format!("{what:?}: {verdict:?}"));
        circumstances(watched, medium, &gone, counts);
    }
}

/// When it faded, and which pages did.
fn circumstances(watched: &Watched, medium: &[u8], gone: &[usize], counts: &mut Counts) {
    let pending = watched.life.state.as_ref().map(|state| state.pending.is_some());
    let when = match pending {
        None => "between a cut and its recovery",
        Some(true) => "while an operation is pending",
        Some(false) => "with nothing pending",
    };
    count(counts, when);
    let mut kinds = [false; 5];
    for &page in gone {
        let page = Page::of(medium, page).expect("a page");
        let kind = if page.class() == Class::Whole { page.kind() } else { 0 };
        kinds[usize::from(kind)] = true;
    }
    for (kind, _) in kinds.iter().enumerate().filter(|(_, &faded)| faded) {
        let what = if kind == 0 { "a torn page".to_string() } else { format!("kind {kind}") };
        count(counts, format!("of {what}"));
    }
}

/// What must come, and how often at least.
#[rustfmt::skip]
const OFTEN: [&str; 14] = [
    "Same", "Earlier", "OlderBase", "Refused(4)", "Refused(5)", "Refused(6)",
    "between a cut and its recovery", "while an operation is pending", "with nothing pending",
    "of kind 1", "of kind 2", "of kind 3", "of kind 4", "of a torn page",
];

#[test]
fn recovery_refuses_or_shows_one_moment() {
    let most = variable("JOURNAL_FADES").map_or(MANY, |fades| fades as usize);
    let mut seed = variable("JOURNAL_SEED").unwrap_or(1);
    let mut counts = Counts::new();
    while counts.get("fades").is_none_or(|&fades| fades < most) {
        play(seed, &mut counts);
        seed += 1;
    }
    for (name, times) in &counts {
        println!("{times:7} {name}");
    }
    // What is left whole was whole before: 1 to 3 have no occasion.
    let known = [4, 5, 6].map(|number| format!("Refused({number})"));
    assert!(counts.keys().all(|name| !name.starts_with("Refused") || known.contains(name)));
    for name in OFTEN.iter().filter(|_| most >= MANY) {
        let times = counts.get(*name).copied().unwrap_or(0);
        assert!(times >= 100, "{times} times: {name}");
    }
}

// ---------------------------------------------------------------------------
// Small cases

fn append(entries: &[(u16, u64)]) -> Action {
    let (keys, words) = lists(entries);
    Action::Append { keys, words }
}

fn buffer(entries: &[(u16, u64)]) -> Action {
    let (keys, words) = lists(entries);
    Action::Buffer { keys, words }
}

/// A journal of 4 blocks after formatting and these calls, with their steps.
fn journal(calls: &[Action]) -> Watched {
    let mut watched = Watched::new(&mut Random::new(1), 4);
    [&[Action::Format], calls].concat().iter().for_each(|call| watched.finished(call));
    watched
}

/// Ways for a page to fade: all of it, one bit, the check, many bits. Each makes a
/// byte at its place in the page another.
const WAYS: [fn(usize, u8) -> u8; 4] = [
    |_, _| 0xFF,
    |at, byte| byte | u8::from(at == 9),
    |at, byte| if at < 2 { 0xFF } else { byte },
    |at, byte| byte | (at as u8).wrapping_mul(37),
];

/// A medium of which these pages have faded in this way.
fn with_faded(medium: &[u8], pages: &[usize], way: fn(usize, u8) -> u8) -> Vec<u8> {
    let mut faded = medium.to_vec();
    for &page in pages {
        let bytes = &mut faded[PAGE_BYTES * page..PAGE_BYTES * (page + 1)];
        bytes.iter_mut().enumerate().for_each(|(at, byte)| *byte = way(at, *byte));
    }
    assert_eq!(faded_pages(medium, &faded), pages);
    faded
}

/// Once these pages have faded, the number of the moment that is shown, that of the
/// end of formatting being 0; or the refusal. In which way they fade does not matter.
fn after_fading(watched: &Watched, pages: &[usize]) -> Result<usize, u8> {
    let answers = WAYS.map(|way| shown(&with_faded(watched.medium(), pages, way), &[]));
    assert!(answers.iter().all(|answer| answer == &answers[0]));
    let moment = |shown: &Shown| watched.moments().iter().rposition(|moment| moment == shown);
    match &answers[0] {
        Ok((shown, _)) => Ok(moment(shown).expect("a moment")),
        Err(Refused(number)) => Err(*number),
    }
}

/// Pages 0 to 3 are the empty base, two groups, and a page with two groups more.
#[test]
fn the_newest_page_and_a_gap() {
    let first = append(&[(5, 1000), (7, 20)]);
    let calls =
        [first, append(&[(5 + REMOVAL, 0)]), buffer(&[(5, 30)]), buffer(&[(7, 40), (9, 1)])];
    let mut journal = journal(&calls);
    journal.finished(&Action::Flush);
    assert_eq!(journal.moments().len(), 4);
    assert_eq!(after_fading(&journal, &[]), Ok(3));
    // Yesterday's log, without either group of the newest page.
    assert_eq!(after_fading(&journal, &[3]), Ok(2));
    assert_eq!(after_fading(&journal, &[2, 3]), Ok(1));
    assert_eq!(after_fading(&journal, &[1, 2, 3]), Ok(0));
    for gap in [&[1][..], &[2], &[1, 2], &[1, 3]] {
        assert_eq!(after_fading(&journal, gap), Err(5), "{gap:?}");
    }
    for without_base in [&[0][..], &[0, 3], &[0, 1, 2, 3]] {
        assert_eq!(after_fading(&journal, without_base), Err(4), "{without_base:?}");
    }
}

/// Pages 1 and 2 are one group; the commit's base is on pages 3 and 4.
#[test]
fn groups_and_bases_of_two_pages() {
    let mut journal = journal(&[append(&valves(1, 30))]);
    assert_eq!(after_fading(&journal, &[2]), Ok(0));
    assert_eq!(after_fading(&journal, &[1]), Err(5));
    journal.finished(&Action::Commit);
    // Without its end it is as if the commit had been cut there.
    assert_eq!(after_fading(&journal, &[4]), Ok(1));
    assert_eq!(after_fading(&journal, &[3, 4]), Ok(1));
    assert_eq!(after_fading(&journal, &[2, 3, 4]), Ok(0));
    assert_eq!(after_fading(&journal, &[3]), Err(5));
    // The nodes are still read where they were written.
    assert_eq!(after_fading(&journal, &[1]), Err(6));
    assert_eq!(after_fading(&journal, &[0]), Ok(2));
}

/// Pages 1 and 2 are groups, page 3 a base; then page 4 a group more, or moved nodes
/// in block 1 and nothing left in block 0.
#[test]
fn an_older_base_or_none() {
    let calls = [append(&[(5, 1000), (7, 20)]), append(&[(5 + REMOVAL, 0)]), Action::Commit];
    let mut committed = journal(&calls);
    assert_eq!(after_fading(&committed, &[3]), Ok(2));
    assert_eq!(after_fading(&committed, &[2, 3]), Ok(1));
    assert_eq!(after_fading(&committed, &[0, 3]), Err(4));
    assert_eq!(after_fading(&committed, &[1]), Err(6));
    assert_eq!(after_fading(&committed, &[2]), Ok(3), "a removal is needed no more");
    committed.finished(&append(&[(9, 1)]));
    assert_eq!(after_fading(&committed, &[3]), Err(5));
    assert_eq!(after_fading(&committed, &[3, 4]), Ok(2));
    let calls = [&calls[..2], &[Action::Recover, Action::Commit, Action::Collect { block: 0 }]];
    let collected = journal(&calls.concat());
    assert_eq!(Pages::of(collected.medium()).whole(), [16, 17]);
    assert_eq!(after_fading(&collected, &[16]), Err(4));
    assert_eq!(after_fading(&collected, &[17]), Err(6));
}

// ---------------------------------------------------------------------------
// Every set of pages, and every bit

/// A journal with pages of every kind, of which a collection's erase was cut and left
/// everything; thirteen whole pages.
fn of_every_kind() -> Watched {
    let first = [append(&valves(1, 30)), buffer(&[(5, 9)]), buffer(&[(6, 7), (2 + REMOVAL, 0)])];
    let mut journal = journal(&first);
    for call in [Action::Flush, Action::Commit, append(&[(40, 1)]), Action::Recover] {
        journal.finished(&call);
    }
    journal.finished(&append(&[(5 + REMOVAL, 0)]));
    journal.finished(&Action::Commit);
    journal.act(&Action::Collect { block: 0 });
    journal.act(&Action::Step);
    journal.act(&Action::Step);
    journal.act(&Action::CutInside { mask: vec![0xFF; BLOCK_BYTES] });
    journal.finished(&Action::Recover);
    journal.finished(&append(&[(41, 2)]));
    journal
}

/// All that can fade, since a page that fades is not whole: each set of pages.
#[test]
fn every_set_of_pages() {
    let journal = of_every_kind();
    let (medium, pages) = (journal.medium(), Pages::of(journal.medium()));
    let kind = |&page: &usize| Page::of(medium, page).expect("a page").kind();
    let mut kinds: Vec<u8> = pages.whole().iter().map(kind).collect();
    kinds.sort();
    assert_eq!(kinds, [1, 1, 1, 1, 1, 2, 2, 2, 2, 2, 3, 3, 4]);
    let (mut whole, mut counts) = (pages.whole().to_vec(), Counts::new());
    whole.sort();
    for set in 0..1usize << whole.len() {
        let of_the_set = |nth: &usize| set >> nth & 1 == 1;
        let gone: Vec<usize> = (0..13).filter(of_the_set).map(|nth| whole[nth]).collect();
        let faded = with_faded(medium, &gone, WAYS[set % WAYS.len()]);
        count(&mut counts, format!("{:?}", verdict(&faded, &pages, journal.moments())));
    }
    println!("{counts:?}");
    for name in ["Same", "Earlier", "OlderBase", "Refused(4)", "Refused(5)", "Refused(6)"] {
        assert!(counts.contains_key(name), "never: {name}");
    }
}

/// Each bit alone: it is as if its whole page had faded.
#[test]
fn every_bit() {
    let journal = of_every_kind();
    let (medium, mut faded) = (journal.medium(), journal.medium().to_vec());
    let mut bits = 0;
    for &page in Pages::of(medium).whole() {
        let expected = shown(&with_faded(medium, &[page], WAYS[0]), &[]);
        let places = (PAGE_BYTES * page..PAGE_BYTES * (page + 1))
            .flat_map(|at| [at; 8].into_iter().zip(0..));
        for (at, bit) in places.filter(|&(at, bit)| medium[at] >> bit & 1 == 0) {
            faded[at] |= 1 << bit;
            assert_eq!(shown(&faded, &[]), expected, "byte {at}, bit {bit}");
            faded[at] = medium[at];
            bits += 1;
        }
    }
    assert!(bits > 5000, "{bits}");
}

/// Berger's code: whatever bits of the check fade, and of the others none, all, or as
/// many as the check rises by, one more or one fewer, the page is not whole. The check
/// can only rise, and the zero bits that it counts can only become fewer.
#[test]
fn no_faded_page_is_whole() {
    let journal = of_every_kind();
    for &page in Pages::of(journal.medium()).whole() {
        let with_others_faded = others_faded(journal_tests::reader::page(journal.medium(), page));
        let check = with_others_faded.len() - 1;
        for raised in (0..=0xFFFF).filter(|raised| raised & check == 0) {
            for others in [0, check, raised.wrapping_sub(1), raised, raised + 1] {
                let Some(mut bytes) = with_others_faded.get(others).cloned() else { continue };
                bytes[..2].copy_from_slice(&((check | raised) as u16).to_le_bytes());
                let class = classify(&bytes);
                assert_eq!(class == Class::Whole, (raised, others) == (0, 0));
            }
        }
    }
}

/// A page with no bit of bytes 2 to 255 faded, one, and so on to all.
fn others_faded(page: &[u8]) -> Vec<Vec<u8>> {
    let mut pages = vec![page.to_vec()];
    for at in 2..PAGE_BYTES {
        while pages[pages.len() - 1][at] != 0xFF {
            let mut bytes = pages[pages.len() - 1].clone();
            bytes[at] |= bytes[at] + 1;
            pages.push(bytes);
        }
    }
    pages
}
