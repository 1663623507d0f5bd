//! The log change by change: from first to last it is the lists of the log, on all
//! media; then there is no more; and any place is answered within the medium.

mod common;

use common::*;
use journal_tests::logs::{each_medium, large, medium_of, removal, setting, Pages};
use journal_tests::proved::{self, change, changes, one_by_one, reader, VjPlace};
use journal_tests::random::{lived, refused_medium, ways, Life, Random};
use journal_tests::reader::{self as second, Change, Entry, Refused};

/// Reads a medium to its end and past it: both implementations refuse it with the
/// same number, or the reader gives the changes of the log and then no more,
/// however often it is asked. The refusal, or 0.
fn check(name: &str, medium: &[u8]) -> u8 {
    let replay = match second::replay(medium) {
        Ok(replay) => replay,
        Err(refused) => {
            assert_eq!(reader(medium), Err(refused), "{name}");
            assert_eq!(changes(medium), Err(refused), "{name}");
            return refused.0;
        }
    };
    let mut place = reader(medium).expect("a reader");
    for (nth, expected) in replay.changes().enumerate() {
        let (found, next) = change(medium, place).expect("a change");
        assert_eq!(found, expected, "{name}: change {nth}");
        assert_eq!(change(medium, place), Some((found, next)), "a place is not used up");
        place = next;
    }
    (0..3).for_each(|_| assert_eq!(change(medium, place), None, "{name}: no more"));
    0
}

#[test]
fn from_first_to_last_and_no_more_on_all_media() {
    let mut numbers = [0; 7];
    each_medium(121, 400, |name, medium| numbers[usize::from(check(name, medium))] += 1);
    assert!(numbers.iter().all(|&times| times > 0), "{numbers:?}");
    assert!(numbers[0] > 1000, "{numbers:?}");
}

/// The same lists as the library's own read-out, of any lengths.
#[test]
fn the_lists_of_the_log() {
    each_medium(122, 150, |name, medium| {
        let length = second::replay(medium).map_or(0, |replay| replay.log_length());
        for lengths in [[length; 3], [length + 1, length + 2, length], [length / 2; 3]] {
            let (lists, read) = (
                read_out(proved::log_into, medium, lengths),
                read_out(one_by_one, medium, lengths),
            );
            assert!(lists == read, "{name}: {:?} and {:?}", lists.0, read.0);
        }
    });
}

/// After every event of a life the reader gives the history's log.
#[test]
fn the_history_change_by_change() {
    let (mut random, mut read) = (Random::new(123), 0);
    for blocks in (4..=16).cycle().take(40) {
        let mut life = Life::on(&mut random, blocks);
        for _ in 0..300 {
            let action = life.next_action(&mut random);
            life.act(&action);
            let Some(history) = &life.history else { continue };
            let changes = changes(&life.medium).expect("recovery accepts");
            assert!(changes.iter().copied().eq(numbered(history.log())));
            read += changes.len();
        }
    }
    assert!(read > 100_000, "{read}");
}

/// The groups of a page of kind 4 are numbered one by one; an unfinished group,
/// moved nodes and a base give no change.
#[test]
fn small_cases() {
    let log = vec![vec![setting(5, 1000), setting(7, 20)], vec![removal(5)], vec![setting(9, 1)]];
    for pages in [Pages::Own, Pages::Gathered] {
        let medium = medium_of(4, &log, pages);
        let of = |group, entry| Change { group, entry };
        let expected = [
            of(0, setting(5, 1000)),
            of(0, setting(7, 20)),
            of(1, removal(5)),
            of(2, setting(9, 1)),
        ];
        assert_eq!(changes(&medium), Ok(expected.to_vec()));
    }
    let (mut medium, mut state) = formatted(4);
    assert_eq!(changes(&medium), Ok(vec![]));
    append(&mut medium, &mut state, &[(5, 1)]);
    begin_append(&medium, &mut state, &valves(1, 30)).expect("append");
    one_step(&mut medium, &mut state).expect("a step");
    let one = vec![Change { group: 0, entry: setting(5, 1) }];
    assert_eq!(changes(&medium), Ok(one));
    let mut state = second::recover(&medium).expect("recovery");
    commit(&mut medium, &mut state);
    assert_eq!(changes(&medium), Ok(vec![]));
    begin_collect(&medium, &mut state, 0).expect("collect");
    finish(&mut medium, &mut state);
    assert_eq!(changes(&medium), Ok(vec![]));
}

/// It is made only after recovery accepts the medium.
#[test]
fn refused_media() {
    let mut random = Random::new(124);
    for number in 1..=6 {
        for way in 0..ways(number) {
            let medium = refused_medium(&mut random, number, way);
            assert_eq!(reader(&medium), Err(Refused(number)));
        }
    }
}

/// Numbers for a place: small, near the ends, or any.
fn some_number(random: &mut Random) -> u64 {
    let ends = [0, 1, 15, 16, 23, 24, 255, 256, 4095, 4096, 65535, 98280, u64::MAX - 1, u64::MAX];
    match random.below(3) {
        0 => random.one_of(&ends),
        1 => random.bits() % 5000,
        _ => random.bits(),
    }
}

/// A place of any content, or one of a real reader with a number altered.
fn some_place(random: &mut Random, medium: &[u8]) -> VjPlace {
    let start = reader(medium).ok().filter(|_| !random.one_in(3));
    let Some(mut place) = start else { return any_place(random) };
    for _ in 0..random.below(30) {
        place = change(medium, place).map_or(place, |(_, next)| next);
    }
    let number = some_number(random);
    match random.below(4) {
        0 => VjPlace { number: number as u8, ..place },
        1 => VjPlace { entry: number as u8, ..place },
        2 => VjPlace { page: number as u16, ..place },
        _ => VjPlace { group: number as u32, ..place },
    }
}

/// A place of any content, every second without a refusal.
fn any_place(random: &mut Random) -> VjPlace {
    let [number, entry, page, group] = [0; 4].map(|_| some_number(random));
    let number = if random.one_in(2) { 0 } else { number as u8 };
    VjPlace { number, entry: entry as u8, page: page as u16, group: group as u32 }
}

/// What a reader gives from a place on, at most twenty times: changes of the
/// medium's pages; none where the place is that of a refusal.
fn given(medium: &[u8], place: VjPlace) -> Vec<(Change, VjPlace)> {
    let mut given: Vec<(Change, VjPlace)> = Vec::new();
    while let Some(next) = change(medium, given.last().map_or(place, |&(_, next)| next)) {
        assert!(stands(medium, next.0.entry), "{place:?}: {next:?}");
        given.push(next);
        if given.len() == 20 {
            break;
        }
    }
    assert!(place.number == 0 || given.is_empty(), "{place:?}");
    given
}

/// Whether an entry stands on a page of the medium.
fn stands(medium: &[u8], entry: Entry) -> bool {
    let (key, word) = (entry.key.to_le_bytes(), entry.word.to_le_bytes());
    let on = |page: &[u8]| {
        (0..24).any(|i| page[16 + 2 * i..][..2] == key && page[64 + 8 * i..][..8] == word)
    };
    medium.chunks_exact(256).any(on)
}

/// A place of any content on a medium of any content and length is answered, and
/// by the medium alone: other bytes around it do not alter the answer.
#[test]
fn any_place_is_answered_within_the_medium() {
    let (mut random, mut found, mut none) = (Random::new(125), 0, 0);
    for nth in 0..3000 {
        let mut medium = lived(&mut random, nth % 150).medium;
        match random.below(6) {
            0 => medium.truncate(random.below(medium.len() + 1)),
            1 => random.fill(&mut medium),
            2 => medium.truncate(random.one_of(&[0, 1, 255, 256, 257, 4095])),
            _ => {}
        }
        let place = some_place(&mut random, &medium);
        let answers = [0x00, 0xFF, 0x5A].map(|around| {
            let mut bytes = vec![around; medium.len() + 8192];
            bytes[4096..4096 + medium.len()].copy_from_slice(&medium);
            given(&bytes[4096..4096 + medium.len()], place)
        });
        assert!(answers.iter().all(|answer| answer == &answers[0]), "{place:?}");
        found += answers[0].len();
        none += usize::from(answers[0].is_empty());
    }
    assert!(found > 500 && none > 500, "found {found}, none at once {none}");
}

/// A reader of one medium, used on another: changes of that one, or none.
#[test]
fn the_place_of_another_medium() {
    let (mut random, mut found) = (Random::new(126), 0);
    for nth in 0..600 {
        let (one, other) = (lived(&mut random, nth % 300).medium, lived(&mut random, 200).medium);
        if let Ok(place) = reader(&one) {
            found += given(&other, place).len();
        }
    }
    assert!(found > 500, "{found}");
}

/// The largest logs: the last change has the last group's number.
#[test]
fn the_largest_logs() {
    for made in large() {
        let changes = changes(&made.medium).expect("a log");
        assert!(changes.iter().copied().eq(numbered(&made.log)), "{}", made.name);
        let last = changes.last().map(|change| change.group as usize + 1);
        assert_eq!(last, Some(made.log.len()));
    }
}
