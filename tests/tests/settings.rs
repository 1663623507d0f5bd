//! All valves set with their words, into two lent lists. Every test is made of
//! both implementations.

mod common;

use common::{finish, formatted, holding, lists, refused};
use journal_tests::calls::{Calls, Second, EMPTY};
use journal_tests::random::{self, Random};
use journal_tests::reader::{Refused, BLOCK_BYTES};
use journal_tests::writer::{self, State};

journal_tests::both! {
    small_cases,
    places_past_the_settings_stay,
    order_of_refusals,
    six_is_asked_of_the_whole_index,
    what_is_pending_and_what_is_buffered_is_left_aside,
    the_settings_of_any_history,
    any_state_on_any_medium,
}

/// What stands in a lent list before the call.
const VALVE: u16 = 0xA5A5;
const WORD: u64 = 0xA5A5_A5A5_A5A5_A5A5;

/// What the call answers, and the lists lent to it after that.
type ReadOut = (Result<usize, Refused>, Vec<u16>, Vec<u64>);

/// The settings read into lists of these lengths.
fn read_out<C: Calls>(medium: &[u8], state: &State, lengths: (usize, usize)) -> ReadOut {
    let (mut valves, mut words) = (vec![VALVE; lengths.0], vec![WORD; lengths.1]);
    let answer = C::settings_into(medium, &C::of(state), &mut valves, &mut words);
    (answer, valves, words)
}

/// What it must be for these settings: 17 where a list is too short, and then
/// no place is written to.
fn expected(settings: &[(u16, u64)], lengths: (usize, usize)) -> ReadOut {
    let (mut valves, mut words) = (vec![VALVE; lengths.0], vec![WORD; lengths.1]);
    if lengths.0.min(lengths.1) < settings.len() {
        return (refused(17), valves, words);
    }
    for (at, &(valve, word)) in settings.iter().enumerate() {
        (valves[at], words[at]) = (valve, word);
    }
    (Ok(settings.len()), valves, words)
}

/// A journal of 4 blocks with this many valves from 100 on, each with its own
/// number as its word.
fn journal(valves: u16) -> (Vec<u8>, State, Vec<(u16, u64)>) {
    let (mut medium, mut state) = formatted(4);
    let settings: Vec<(u16, u64)> = (100..100 + valves).map(|v| (v, v.into())).collect();
    for part in settings.chunks(96) {
        let (keys, words) = lists(part);
        writer::append(&medium, &mut state, &EMPTY, &keys, &words).expect("append");
        finish(&mut medium, &mut state);
    }
    (medium, state, settings)
}

fn small_cases<C: Calls>() {
    for valves in [0, 1, 2, 24, 25, 191, 192] {
        let (medium, state, settings) = journal(valves);
        let full = (192, 192);
        assert_eq!(read_out::<C>(&medium, &state, full), expected(&settings, full));
    }
}

/// Lists of any two lengths around the number of settings.
fn places_past_the_settings_stay<C: Calls>() {
    for valves in [0, 1, 30, 192] {
        let (medium, state, settings) = journal(valves);
        let n = usize::from(valves);
        let lengths = [0, n.saturating_sub(1), n, n + 1, n + 300];
        for lengths in lengths.iter().flat_map(|&a| lengths.map(|b| (a, b))) {
            assert_eq!(read_out::<C>(&medium, &state, lengths), expected(&settings, lengths));
        }
    }
}

/// Everything is wrong; then mended one by one.
fn order_of_refusals<C: Calls>() {
    let (medium, mut state, settings) = journal(40);
    let address = std::mem::replace(&mut state.index[39].address, 0);
    state.blocks = 5;
    let short = (39, 40);
    let back = |number| (refused(number), vec![VALVE; 39], vec![WORD; 40]);
    assert_eq!(read_out::<C>(&medium[..3 * BLOCK_BYTES], &state, short), back(1));
    assert_eq!(read_out::<C>(&medium, &state, short), back(7));
    state.blocks = 4;
    assert_eq!(read_out::<C>(&medium, &state, short), back(6));
    state.index[39].address = address;
    assert_eq!(read_out::<C>(&medium, &state, short), back(17));
    assert_eq!(read_out::<C>(&medium, &state, (40, 40)), expected(&settings, (40, 40)));
}

fn six_is_asked_of_the_whole_index<C: Calls>() {
    let (medium, state, _) = journal(60);
    let back = (refused(6), vec![VALVE; 60], vec![WORD; 60]);
    for at in [0, 23, 24, 59] {
        let other = state.index[(at + 1) % 60].address;
        // A base, another valve's node, a place not used, a clean page, the end.
        for address in [0, other, 3 * 24 + 20, 40 * 24, 4 * 384 - 1] {
            let mut state = state.clone();
            state.index[at].address = address;
            assert_eq!(read_out::<C>(&medium, &state, (60, 60)), back);
        }
        let mut spoilt = medium.clone();
        spoilt[state.index[at].address as usize / 24 * 256 + 255] ^= 1;
        assert_eq!(read_out::<C>(&spoilt, &state, (60, 60)), back);
    }
}

/// The index of the lent state counts alone.
fn what_is_pending_and_what_is_buffered_is_left_aside<C: Calls>() {
    let (mut medium, mut state, settings) = journal(30);
    let lengths = (40, 40);
    let mut buffer = holding(&[&[(9, 1)]]);
    writer::flush(&medium, &mut state, &buffer).expect("flush");
    assert_eq!(read_out::<C>(&medium, &state, lengths), expected(&settings, lengths));
    while state.pending.is_some() {
        writer::step(&mut medium, &mut state, &mut buffer).expect("a step");
    }
    let after = [&[(9, 1)], &settings[..]].concat();
    assert_eq!(read_out::<C>(&medium, &state, lengths), expected(&after, lengths));
    let (keys, words) = lists(&[(10, 1); 30]);
    writer::append(&medium, &mut state, &EMPTY, &keys, &words).expect("append");
    writer::step(&mut medium, &mut state, &mut { EMPTY }).expect("a step");
    assert_eq!(read_out::<C>(&medium, &state, lengths), expected(&after, lengths));
}

/// With the state at hand the settings are the history's, and each valve opens so.
fn the_settings_of_any_history<C: Calls>() {
    let (mut random, mut read) = (Random::new(83), 0);
    for events in 0..300 {
        let life = random::lived(&mut random, events);
        let (Some(state), Some(history)) = (&life.state, &life.history) else {
            continue;
        };
        let settings: Vec<(u16, u64)> =
            history.settings().into_iter().map(|entry| (entry.key, entry.word)).collect();
        let lengths = (random.from_to(150, 200), random.from_to(150, 200));
        assert_eq!(read_out::<C>(&life.medium, state, lengths), expected(&settings, lengths));
        for (valve, word) in settings {
            assert_eq!(C::open(&life.medium, &C::of(state), valve), Ok(word));
            read += 1;
        }
    }
    assert!(read > 1000, "{read} settings read");
}

/// Media and states that were damaged: both implementations answer the same and
/// leave the same.
fn any_state_on_any_medium<C: Calls>() {
    let (mut random, mut numbers) = (Random::new(84), [0; 18]);
    for _ in 0..2000 {
        let mut life = random::lived(&mut random, 60);
        let Some(mut state) = life.state.take() else {
            continue;
        };
        if random.one_in(2) {
            random::damage(&mut random, &mut life.medium);
        }
        if random.one_in(2) {
            random::damage_state(&mut random, &mut state);
        }
        let set = state.index.len();
        let lengths = (random.from_to(0, 2 * set), random.from_to(0, 2 * set));
        let answer = read_out::<C>(&life.medium, &state, lengths);
        assert_eq!(answer, read_out::<Second>(&life.medium, &state, lengths));
        numbers[answer.0.map_or_else(|Refused(number)| number.into(), |_| 0)] += 1;
    }
    for number in [0, 1, 6, 7, 17] {
        assert!(numbers[number] > 5, "{number}: {} times", numbers[number]);
    }
}
