//! The dispatcher of the proved library: the second implementation's answers in
//! lives, on damaged media and states; and long runs by the library's calls alone.

mod common;

use common::{formatted, lists, valves, EMPTY};
use journal_tests::calls::{Calls, Proved, Second};
use journal_tests::dispatcher::{next_operation, Operation};
use journal_tests::proved::{self, VjState};
use journal_tests::random::{damage, damage_state, some_buffer, some_entry, Life, Random};
use journal_tests::reader::{self, Refused, State, BLOCK_PAGES};

/// A group by chance; now and then one that is refused.
fn some_group(random: &mut Random) -> (Vec<u16>, Vec<u64>) {
    let length = random.one_of(&[0, 1, 1, 1, 24, 25, 96, 96, 97]);
    let valves = random.one_of(&[40, 192, 32768]);
    let entries = (0..length).map(|_| some_entry(random, valves, 5));
    let (mut keys, mut words): (Vec<u16>, Vec<u64>) = entries.map(|e| (e.key, e.word)).unzip();
    match random.below(40) {
        0 => drop(words.pop()),
        // Valve 0 is set; removals have a word.
        1 => keys.iter_mut().for_each(|key| *key %= 2),
        2 => words.fill(1),
        _ => {}
    }
    (keys, words)
}

/// Both name the same, or refuse with the same number; the number, 0 for the
/// group, and 30 or 31 for a commit or a collection.
fn agree(random: &mut Random, medium: &[u8], state: &State, buffer: &[u8]) -> usize {
    let ((keys, words), read) = (some_group(random), random.one_in(2));
    let answer = next_operation(medium, state, buffer, (&keys, &words), read);
    let proved =
        proved::next_operation(medium, &VjState::from(state), buffer, (&keys, &words), read);
    assert_eq!(proved, answer);
    match answer {
        Err(Refused(number)) => number.into(),
        Ok(Operation::Append) => 0,
        Ok(Operation::Commit) => 30,
        Ok(Operation::Collect(_)) => 31,
    }
}

/// Copies of a medium and its state of which one, both or none is damaged.
fn damaged(random: &mut Random, medium: &[u8], state: &State) -> (Vec<u8>, State) {
    let (mut medium, mut state) = (medium.to_vec(), state.clone());
    if random.one_in(2) {
        damage(random, &mut medium);
    }
    for _ in 0..random.below(3) {
        damage_state(random, &mut state);
    }
    (medium, state)
}

#[test]
fn both_name_the_same() {
    let (mut random, mut seen) = (Random::new(151), [0; 32]);
    for blocks in (4..=16).chain([4, 4, 4, 17, 64, 256]).cycle().take(190) {
        let mut life = Life::on(&mut random, blocks);
        for _ in 0..300 {
            let action = life.next_action(&mut random);
            life.act(&action);
            let Some(state) = life.state.as_ref().filter(|_| random.one_in(3)) else { continue };
            seen[agree(&mut random, &life.medium, state, &life.buffer)] += 1;
            if random.one_in(4) {
                let (medium, state) = damaged(&mut random, &life.medium, state);
                let buffer = some_buffer(&mut random);
                seen[agree(&mut random, &medium, &state, &buffer)] += 1;
            }
        }
    }
    println!("answers by number, 30 a commit, 31 a collection: {seen:?}");
    for number in [0, 1, 6, 7, 8, 10, 11, 12, 13, 14, 15, 24, 30, 31] {
        assert!(seen[number] > 0, "never: {number}");
    }
}

/// Journals that are written full again and again: both are asked each time that
/// no append is named, also with few serials left, and damaged.
#[test]
fn both_name_the_same_where_room_is_short() {
    let (mut random, mut seen) = (Random::new(152), [0; 32]);
    for blocks in [4, 4, 5, 6, 16].into_iter().cycle().take(60) {
        let ((mut medium, mut state), mut times) = (formatted(blocks), 0);
        while times < 30 {
            let entries = 0..random.one_of(&[1, 24, 96]);
            let (keys, words): (Vec<u16>, Vec<u64>) =
                entries.map(|_| (random.from_to(1, 192) as u16, random.bits())).unzip();
            let named = next_operation(&medium, &state, &EMPTY, (&keys, &words), true);
            if named != Ok(Operation::Append) {
                times += 1;
                let next_serial = u64::MAX - random.below(20) as u64;
                let old = State { next_serial, ..state.clone() };
                let other = damaged(&mut random, &medium, &state);
                for (medium, state) in [(&medium, &state), (&medium, &old), (&other.0, &other.1)] {
                    seen[agree(&mut random, medium, state, &EMPTY)] += 1;
                }
            }
            begin::<Second>(named, &medium, &mut state, &keys, &words);
            Second::finish_unbuffered(&mut medium, &mut state);
        }
    }
    println!("answers by number, 30 a commit, 31 a collection: {seen:?}");
    for number in [0, 6, 7, 12, 13, 14, 15, 30, 31] {
        assert!(seen[number] > 10, "{number}: {} times", seen[number]);
    }
}

/// Begins what is named, which is accepted.
fn begin<C: Calls>(
    named: Result<Operation, Refused>,
    medium: &[u8],
    state: &mut C::State,
    keys: &[u16],
    words: &[u64],
) {
    match named.expect("an operation") {
        Operation::Append => C::append(medium, state, &EMPTY, keys, words),
        Operation::Commit => C::commit(medium, state, &EMPTY),
        Operation::Collect(block) => C::collect(medium, state, &EMPTY, block),
    }
    .expect("what is named is accepted");
}

/// 192 valves spread over the blocks, written round and round by the library's
/// calls alone: the group is let in by at most one commit and one collection,
/// and recovery has the settings.
#[test]
fn long_runs_by_the_library_alone() {
    for blocks in [4, 5, 16, 17, 256] {
        let (mut medium, state) = formatted(blocks);
        let mut state = VjState::from(&state);
        let (pages, mut times, mut words) = (blocks * BLOCK_PAGES, 0, [0; 193]);
        for n in 0..if blocks > 17 { 2 * pages } else { 60 * pages } {
            let (first, end) = (n * 192 / pages, (n + 1) * 192 / pages);
            let turn = |valve: usize| ((valve % 192) as u16 + 1, n as u64);
            let (keys, new): (Vec<u16>, Vec<u64>) = (first..end.max(first + 1)).map(turn).unzip();
            times += let_in(&mut medium, &mut state, &keys, &new);
            keys.iter().for_each(|&key| words[usize::from(key)] = n as u64);
        }
        assert!(times > if blocks > 17 { 20 } else { 200 }, "{blocks} blocks: {times} times");
        let settings = reader::replay(&medium).expect("recovery").settings();
        assert_eq!(settings.len(), 192);
        assert!(settings.iter().all(|entry| words[usize::from(entry.key)] == entry.word));
    }
}

/// Lets a group in; whether housekeeping came before it.
fn let_in(medium: &mut [u8], state: &mut VjState, keys: &[u16], words: &[u64]) -> usize {
    let mut named = Vec::new();
    loop {
        let operation = proved::next_operation(medium, state, &EMPTY, (keys, words), true);
        begin::<Proved>(operation, medium, state, keys, words);
        Proved::finish_unbuffered(medium, state);
        named.push(operation);
        assert!(named.len() <= 4, "it never ends: {named:?}");
        if operation == Ok(Operation::Append) {
            break;
        }
    }
    // One commit, one collection and the append.
    let commits = named.iter().filter(|&&named| named == Ok(Operation::Commit)).count();
    assert!(commits <= 1 && named.len() - commits <= 2, "{named:?}");
    usize::from(named.len() > 1)
}

/// A call that names something writes nothing: neither the state, which it is lent
/// by value, nor the medium, the buffer or the lists.
#[test]
fn it_begins_nothing() {
    let (mut medium, state) = formatted(4);
    let mut state = VjState::from(&state);
    let (keys, words) = lists(&valves(1, 96));
    while Proved::append(&medium, &mut state, &EMPTY, &keys, &words).is_ok() {
        Proved::finish_unbuffered(&mut medium, &mut state);
    }
    let before = (medium.clone(), state);
    let first = proved::next_operation(&medium, &state, &EMPTY, (&keys, &words), true);
    assert_eq!(first, Ok(Operation::Commit));
    assert_eq!(proved::next_operation(&medium, &state, &EMPTY, (&keys, &words), true), first);
    assert!((medium, state) == before);
}
