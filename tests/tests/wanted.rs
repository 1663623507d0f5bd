//! A group for wanted openings: the fewest entries that leave exactly the wanted
//! settings. Every test is made of both implementations.

mod common;

use common::{finish, formatted, holding, lists, refused};
use journal_tests::calls::{Calls, EMPTY};
use journal_tests::random::{self, Random};
use journal_tests::reader::{self, Entry, Record, Refused, BLOCK_BYTES, REMOVAL};
use journal_tests::writer::{self, Pending, State};
use std::collections::{BTreeMap, BTreeSet};

journal_tests::both! {
    small_cases,
    fewest_of_all_lists,
    removals_first_and_both_ascending,
    at_most_96_entries,
    records_of_any_count_and_content,
    order_of_refusals,
    six_is_asked_of_the_whole_index,
    what_is_pending_and_what_is_buffered_is_left_aside,
    the_group_leads_there,
    any_journal_and_any_records,
}

/// Settings: each valve that is set with its word.
type Settings = BTreeMap<u16, u64>;

/// A journal of 4 blocks with these settings.
fn journal(settings: &Settings) -> (Vec<u8>, State) {
    let (mut medium, mut state) = formatted(4);
    let entries: Vec<(u16, u64)> = settings.iter().map(|(&valve, &word)| (valve, word)).collect();
    for part in entries.chunks(96) {
        let (keys, words) = lists(part);
        writer::append(&medium, &mut state, &EMPTY, &keys, &words).expect("append");
        finish(&mut medium, &mut state);
    }
    (medium, state)
}

fn records(settings: &Settings) -> Vec<Record> {
    settings.iter().map(|(&valve, &word)| Record { valve, word }).collect()
}

/// A group as keys and words.
fn pairs(group: Vec<Entry>) -> Vec<(u16, u64)> {
    group.into_iter().map(|entry| (entry.key, entry.word)).collect()
}

/// The entries in order set or remove their valves.
fn laid_on(settings: &Settings, group: &[(u16, u64)]) -> Settings {
    let mut settings = settings.clone();
    for &(key, word) in group {
        if key >= REMOVAL {
            settings.remove(&(key - REMOVAL));
        } else {
            settings.insert(key, word);
        }
    }
    settings
}

/// What the call answers, the group as keys and words.
type Answer = Result<Option<Vec<(u16, u64)>>, Refused>;

/// By the words of the document: the valves that differ, those to be removed
/// and then those to be set; 11 if valve 0 is among these, none if there are more
/// than 96.
fn defined(present: &Settings, wanted: &Settings) -> Answer {
    let valves: BTreeSet<u16> = present.keys().chain(wanted.keys()).copied().collect();
    let differ = |valve: &u16| present.get(valve) != wanted.get(valve);
    let differing: Vec<u16> = valves.into_iter().filter(differ).collect();
    let removed = differing.iter().filter(|valve| !wanted.contains_key(valve));
    let mut group: Vec<(u16, u64)> = removed.map(|valve| (valve + REMOVAL, 0)).collect();
    for valve in &differing {
        group.extend(wanted.get(valve).map(|&word| (*valve, word)));
    }
    if differing.contains(&0) && wanted.contains_key(&0) {
        return refused(11);
    }
    Ok((differing.len() <= 96).then_some(group))
}

/// What the call answers for a journal with these settings.
fn answered<C: Calls>(present: &Settings, wanted: &Settings) -> Answer {
    let (medium, state) = journal(present);
    asked::<C>(&medium, &state, &records(wanted))
}

/// What the call answers.
fn asked<C: Calls>(medium: &[u8], state: &State, list: &[Record]) -> Answer {
    C::wanted(medium, &C::of(state), list).map(|group| group.map(pairs))
}

/// So many valves from `first` on, each with this word.
fn settings(first: u16, count: u16, word: u64) -> Settings {
    (first..first + count).map(|valve| (valve, word)).collect()
}

fn small_cases<C: Calls>() {
    let present = Settings::from([(5, 1000), (7, 20), (9, 0)]);
    let answer = |wanted: &[(u16, u64)]| {
        let wanted = wanted.iter().copied().collect();
        answered::<C>(&present, &wanted).expect("an accepted call").expect("a group")
    };
    assert_eq!(answer(&[(5, 1000), (7, 20), (9, 0)]), []);
    assert_eq!(answer(&[]), [(5 + REMOVAL, 0), (7 + REMOVAL, 0), (9 + REMOVAL, 0)]);
    assert_eq!(answer(&[(5, 1000), (7, 21), (9, 0)]), [(7, 21)]);
    assert_eq!(answer(&[(4, 1), (7, 20)]), [(5 + REMOVAL, 0), (9 + REMOVAL, 0), (4, 1)]);
    assert_eq!(answer(&[(5, 1000), (7, 20), (9, 0), (32767, u64::MAX)]), [(32767, u64::MAX)]);
    assert_eq!(answered::<C>(&Settings::new(), &Settings::new()), Ok(Some(vec![])));
}

/// Three valves, each unset or with one of two words: every present and every
/// wanted setting. No list of entries is shorter, by trying all of them.
fn fewest_of_all_lists<C: Calls>() {
    let valves = [1, 2, 32767];
    let all: Vec<Settings> = (0..27)
        .map(|number: usize| {
            let choice = |nth: usize| number / [1, 3, 9][nth] % 3;
            let set = (0..3).filter(|&nth| choice(nth) > 0);
            set.map(|nth| (valves[nth], choice(nth) as u64 - 1)).collect()
        })
        .collect();
    for present in &all {
        let (medium, state) = journal(present);
        let steps = fewest_from(present, &valves);
        for wanted in &all {
            let answer = asked::<C>(&medium, &state, &records(wanted));
            assert_eq!(answer, defined(present, wanted));
            let group = answer.expect("an accepted call").expect("a group");
            assert_eq!(laid_on(present, &group), *wanted);
            assert_eq!(group.len(), steps[wanted], "{present:?} to {wanted:?}");
        }
    }
}

/// How many entries lead from these settings to each other, at least.
fn fewest_from(present: &Settings, valves: &[u16]) -> BTreeMap<Settings, usize> {
    let entries = valves.iter().flat_map(|&valve| [(valve, 0), (valve, 1), (valve + REMOVAL, 0)]);
    let entries: Vec<(u16, u64)> = entries.collect();
    let (mut steps, mut last) = (BTreeMap::from([(present.clone(), 0)]), vec![present.clone()]);
    for length in 1.. {
        let mut next = Vec::new();
        for settings in &last {
            for &entry in &entries {
                let after = laid_on(settings, &[entry]);
                if !steps.contains_key(&after) {
                    steps.insert(after.clone(), length);
                    next.push(after);
                }
            }
        }
        if next.is_empty() {
            break;
        }
        last = next;
    }
    steps
}

fn removals_first_and_both_ascending<C: Calls>() {
    let present = settings(100, 60, 1);
    let wanted = [settings(1, 20, 9), settings(130, 20, 1), settings(150, 30, 2)].concat_all();
    let answer = answered::<C>(&present, &wanted);
    let mut expected: Vec<(u16, u64)> = (100..130).map(|valve| (valve + REMOVAL, 0)).collect();
    expected.extend(settings(1, 20, 9));
    expected.extend(settings(150, 30, 2));
    assert_eq!(answer, Ok(Some(expected)));
    assert_eq!(answer, defined(&present, &wanted));
}

/// All of several settings together.
trait ConcatAll {
    fn concat_all(self) -> Settings;
}

impl<const N: usize> ConcatAll for [Settings; N] {
    fn concat_all(self) -> Settings {
        self.into_iter().flatten().collect()
    }
}

/// 95 and 96 valves that differ, in any way, give a group; 97 and more none.
fn at_most_96_entries<C: Calls>() {
    let full = settings(1, 192, 1);
    for differing in [0, 1, 95, 96, 97, 98, 191, 192] {
        let kept = 192 - differing;
        let gone = settings(1, kept, 1);
        let changed = [settings(1, kept, 1), settings(1 + kept, differing, 2)].concat_all();
        let added = settings(1, differing, 1);
        let mixed = [settings(1, kept, 1), settings(1000, differing / 2, 1)].concat_all();
        let cases =
            [(&full, &gone), (&full, &changed), (&Settings::new(), &added), (&full, &mixed)];
        for (nth, (present, wanted)) in cases.into_iter().enumerate() {
            let answer = answered::<C>(present, wanted);
            assert_eq!(answer, defined(present, wanted));
            let entries = if nth == 3 { differing + differing / 2 } else { differing };
            let length = answer.expect("an accepted call").map(|group| group.len());
            assert_eq!(length, (entries <= 96).then_some(entries.into()));
        }
    }
    // 192 valves replaced by 192 others, and 48 by 48.
    assert_eq!(answered::<C>(&full, &settings(500, 192, 1)), Ok(None));
    let replaced = answered::<C>(&settings(1, 48, 1), &settings(500, 48, 1));
    assert_eq!(replaced.map(|group| group.map(|group| group.len())), Ok(Some(96)));
    assert_eq!(answered::<C>(&settings(1, 48, 1), &settings(500, 49, 1)), Ok(None));
}

fn record(valve: u16) -> Record {
    Record { valve, word: 1 }
}

fn records_of_any_count_and_content<C: Calls>() {
    let (medium, state) = journal(&settings(1, 100, 1));
    let state = C::of(&state);
    let number = |records: &[Record]| {
        C::wanted(&medium, &state, records).err().map_or(0, |refused| refused.0)
    };
    let rising = |range: std::ops::Range<u32>| -> Vec<Record> {
        range.map(|valve| record(valve as u16)).collect()
    };
    for (range, expected) in [
        (0..0, 0),
        (5..6, 0),
        (1..193, 0),
        (0..192, 11),
        (32576..32768, 0),
        (0..193, 20),
        (32575..32768, 20),
        (0..32768, 20),
        (32768..32769, 19),
        (32767..32769, 19),
        (0..32769, 19),
        (0..65536, 19),
        (65535..65536, 19),
        (0..65537, 19),
        (0..200_000, 19),
    ] {
        assert_eq!(number(&rising(range.clone())), expected, "{range:?}");
    }
    // Not strictly rising, wherever it is, however many there are.
    for count in [2, 3, 192, 193, 194, 10_000] {
        for at in [0, count / 2 - 1, count - 2] {
            let mut list = rising(0..count as u32);
            list[at + 1].valve = list[at].valve;
            assert_eq!(number(&list), 19);
            list[at + 1].valve += 1;
            list.swap(at, at + 1);
            assert_eq!(number(&list), 19);
        }
        assert_eq!(number(&vec![record(5); count]), 19);
    }
}

/// Everything is wrong; then mended one by one.
fn order_of_refusals<C: Calls>() {
    let (mut medium, mut state) = journal(&settings(1, 100, 1));
    let mut list: Vec<Record> = (200..400).map(record).collect();
    let number = |medium: &[u8], state: &State, list: &[Record]| {
        let answer = C::wanted(medium, &C::of(state), list);
        answer.map(|group| group.is_some()).map_err(|Refused(number)| number)
    };
    state.index[99].address = 0;
    state.blocks = 5;
    list.swap(7, 8);
    assert_eq!(number(&medium[..3 * BLOCK_BYTES], &state, &list), Err(1));
    assert_eq!(number(&medium, &state, &list), Err(7));
    state.blocks = 4;
    assert_eq!(number(&medium, &state, &list), Err(19));
    list.swap(7, 8);
    assert_eq!(number(&medium, &state, &list), Err(20));
    list.truncate(150);
    assert_eq!(number(&medium, &state, &list), Err(6));
    state.index[99].address = reader::recover(&medium).expect("recovery").index[99].address;
    // 250 valves differ.
    assert_eq!(number(&medium, &state, &list), Ok(false));
    assert_eq!(number(&medium, &state, &[]), Ok(false));
    assert_eq!(number(&medium, &state, &(1..=100).map(record).collect::<Vec<_>>()), Ok(true));
    medium.push(0xFF);
    assert_eq!(number(&medium, &state, &[]), Err(1));
}

/// Also of valves that the list removes, keeps or sets anew.
fn six_is_asked_of_the_whole_index<C: Calls>() {
    let (medium, state) = journal(&settings(1, 60, 1));
    let keep: Vec<Record> = (1..=60).map(record).collect();
    let anew: Vec<Record> = keep.iter().map(|record| Record { word: 2, ..*record }).collect();
    for at in [0, 23, 24, 30, 59] {
        let right = state.index[at].address;
        let other = state.index[(at + 1) % 60].address;
        // A base, another valve's node, a place not used, a clean page, the end.
        for address in [0, other, 3 * 24 + 20, 40 * 24, 4 * 384 - 1] {
            let mut state = state.clone();
            state.index[at].address = address;
            for list in [&keep[..], &anew, &[]] {
                let answer = C::wanted(&medium, &C::of(&state), list);
                assert_eq!(answer, refused(6), "{address}, not {right}");
            }
        }
        let mut spoilt = medium.clone();
        spoilt[right as usize / 24 * 256 + 255] ^= 1;
        assert_eq!(C::wanted(&spoilt, &C::of(&state), &keep), refused(6));
    }
    assert_eq!(C::wanted(&medium, &C::of(&state), &keep), Ok(Some(vec![])));
}

/// The index of the lent state and the words at its addresses count alone.
fn what_is_pending_and_what_is_buffered_is_left_aside<C: Calls>() {
    let (medium, state) = journal(&settings(1, 3, 1));
    let list = [record(1), record(2), record(9)];
    let expected = [(3 + REMOVAL, 0), (9, 1)];
    let entries = vec![Entry { key: 9, word: 1 }];
    for pending in [
        None,
        Some(Pending::Append { entries, written: vec![] }),
        Some(Pending::Commit { done: 0 }),
        Some(Pending::Flush),
    ] {
        let state = C::of(&State { pending, ..state.clone() });
        let group = C::wanted(&medium, &state, &list).expect("accepted").expect("a group");
        assert_eq!(pairs(group), expected);
    }
    let mut buffer = holding(&[&[(9, 1)], &[(3 + REMOVAL, 0)]]);
    let mut state = C::of(&state);
    C::flush(&medium, &mut state, &buffer).expect("flush");
    let mut medium = medium;
    C::finish(&mut medium, &mut state, &mut buffer);
    assert_eq!(C::wanted(&medium, &state, &list), Ok(Some(vec![])));
    // Formatting has no valve set.
    let state = C::format(&medium).expect("format");
    assert_eq!(C::wanted(&medium, &state, &[]), Ok(Some(vec![])));
    let group = C::wanted(&medium, &state, &list).expect("accepted").expect("a group");
    assert_eq!(pairs(group), [(1, 1), (2, 1), (9, 1)]);
}

/// Appended and recovered, the settings are the wanted ones; no entry on the way
/// sets a 193rd valve, and an empty group is no append.
fn the_group_leads_there<C: Calls>() {
    let full = settings(1, 192, 1);
    let cases = [
        (full.clone(), [settings(1, 144, 1), settings(500, 48, 1)].concat_all()),
        (full.clone(), [settings(1, 96, 1), settings(97, 96, 2)].concat_all()),
        (full, settings(1, 96, 1)),
        (Settings::new(), settings(7, 96, 3)),
        (settings(7, 96, 3), Settings::new()),
        (settings(7, 96, 3), settings(7, 96, 3)),
    ];
    for (present, wanted) in cases {
        let (medium, state) = journal(&present);
        assert_eq!(led::<C>(medium, &state, &records(&wanted)), Some(wanted));
    }
}

/// The settings after the group is appended, if there is one.
fn led<C: Calls>(mut medium: Vec<u8>, state: &State, list: &[Record]) -> Option<Settings> {
    let mut state = C::of(state);
    let group = C::wanted(&medium, &state, list).expect("an accepted call")?;
    let (keys, words) = lists(&pairs(group));
    let begun = C::append(&medium, &mut state, &EMPTY, &keys, &words);
    if keys.is_empty() {
        assert_eq!(begun, refused(10));
    } else {
        begun.expect("append");
        C::finish_unbuffered(&mut medium, &mut state);
    }
    assert_eq!(C::wanted(&medium, &state, list), Ok(Some(vec![])));
    let settings = reader::replay(&medium).expect("recovery").settings();
    Some(pairs(settings).into_iter().collect())
}

/// Journals that were lived, and records by chance: the answer is the one
/// defined, and it leads there.
fn any_journal_and_any_records<C: Calls>() {
    let mut random = Random::new(71);
    let (mut groups, mut none, mut zero) = (0, 0, 0);
    for _ in 0..150 {
        let medium = random::medium(&mut random);
        let replay = reader::replay(&medium).expect("recovery");
        let present: Settings = pairs(replay.settings()).into_iter().collect();
        for _ in 0..4 {
            let list = random::some_records(&mut random, &medium, &replay.state);
            let wanted: Settings = list.iter().map(|record| (record.valve, record.word)).collect();
            if records(&wanted) != list || list.len() > 192 || wanted.keys().any(|&v| v > 32767) {
                continue;
            }
            let answer = asked::<C>(&medium, &replay.state, &list);
            assert_eq!(answer, defined(&present, &wanted));
            match answer {
                Err(_) => zero += 1,
                Ok(None) => none += 1,
                Ok(Some(group)) => {
                    groups += 1;
                    assert_eq!(laid_on(&present, &group), wanted);
                    if reader::available(&medium, &replay.state) >= 20 {
                        assert_eq!(led::<C>(medium.clone(), &replay.state, &list), Some(wanted));
                    }
                }
            }
        }
    }
    let often = groups > 100 && none > 20 && zero > 10;
    assert!(often, "{groups} groups, {none} times none, {zero} times 11");
}
