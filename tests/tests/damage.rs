//! Damaged media and damaged states: every call answers, a refusal changes
//! nothing, and what recovery accepts can be gone on with.

mod common;

use common::*;
use journal_tests::random::{self, damage, damage_state, some_buffer, some_records, Random};
use journal_tests::reader::*;
use journal_tests::writer::{self, Pending, State, Touched};

/// Bits counted one by one, by the document's words.
fn plain_class(bytes: &[u8]) -> Class {
    let mut zeros = 0;
    for byte in &bytes[2..] {
        for bit in 0..8 {
            zeros += u16::from(byte >> bit & 1 == 0);
        }
    }
    if zeros == u16::from_le_bytes([bytes[0], bytes[1]]) {
        Class::Whole
    } else if bytes.iter().all(|&byte| byte == 0xFF) {
        Class::Clean
    } else {
        Class::Spoilt
    }
}

#[test]
fn classes_are_those_of_the_plain_count() {
    let mut random = Random::new(11);
    for _ in 0..20 {
        let mut medium = random::medium(&mut random);
        for _ in 0..random.below(40) {
            damage(&mut random, &mut medium);
            if medium.len() < PAGE_BYTES {
                break;
            }
        }
        for bytes in medium.chunks_exact(PAGE_BYTES) {
            assert_eq!(classify(bytes), plain_class(bytes));
        }
    }
}

#[test]
fn damaged_media_have_every_answer() {
    let mut random = Random::new(12);
    let mut answers = [0; 7];
    for _ in 0..300 {
        let medium = random::medium(&mut random);
        for _ in 0..10 {
            let mut damaged = medium.clone();
            damage(&mut random, &mut damaged);
            answers[usize::from(recovery_number(&damaged))] += 1;
        }
    }
    println!("answers 0 to 6: {answers:?}");
    assert!(answers.iter().all(|&times| times > 0));
}

#[test]
fn sketched_media_have_every_answer() {
    let mut random = Random::new(13);
    let mut answers = [0; 7];
    for _ in 0..5000 {
        let medium = random::sketched(&mut random);
        answers[usize::from(recovery_number(&medium))] += 1;
    }
    println!("answers 0 to 6: {answers:?}");
    assert!([0, 3, 4, 5, 6].iter().all(|&number| answers[number] > 0));
}

/// Makes every call on a medium, a state and a buffer that may be anything.
/// Hands back the numbers of the refusals.
fn all_calls(random: &mut Random, medium: &[u8], state: &State) -> Vec<u8> {
    let (block, buffer) = (random.below(state.blocks + 2), some_buffer(random));
    let (keys, words) = lists(&valves(1, random.one_of(&[1, 2, 16, 30])));
    let mut numbers = Vec::new();
    let mut note = |result: Result<(), Refused>| {
        numbers.extend(result.err().map(|Refused(number)| number));
    };
    note(open(medium, state, random.below(60) as u16).map(drop));
    note(pick(medium, state).map(drop));
    note(survey(medium, state).map(drop));
    note(word_at(medium, state, &buffer, random.below(60) as u16).map(drop));
    note(wanted(medium, state, &some_records(random, medium, state)).map(drop));
    note(begun(state, |state| writer::append(medium, state, &buffer, &keys, &words)));
    note(begun(state, |state| writer::commit(medium, state, &buffer)));
    note(begun(state, |state| writer::collect(medium, state, &buffer, block)));
    note(begun(state, |state| writer::flush(medium, state, &buffer)));
    note(buffered_group(medium, state, &buffer, &keys, &words));
    note(stepped(medium, state, &buffer));
    numbers
}

/// A group put into the buffer is the last one there, behind those that were;
/// a refusal leaves the buffer.
fn buffered_group(
    medium: &[u8],
    state: &State,
    buffer: &[u8],
    keys: &[u16],
    words: &[u64],
) -> Result<(), Refused> {
    let mut lent = buffer.to_vec();
    let result = writer::buffer(medium, state, &mut lent, keys, words);
    if result.is_err() {
        assert!(lent == buffer);
        return result;
    }
    let mut groups = groups_in(buffer);
    groups.push(entries_of(keys, words));
    assert_eq!(groups_in(&lent), groups);
    assert_eq!(buffered(&lent), Some(groups.concat()));
    Ok(())
}

/// The groups in a fit buffer.
fn groups_in(buffer: &[u8]) -> Vec<Vec<Entry>> {
    match Page::from_bytes(buffer) {
        Some(page) if buffer != EMPTY => page.groups(),
        _ => Vec::new(),
    }
}

/// A call that begins something alters the state only if it is accepted, and
/// then only what is pending.
fn begun(
    state: &State,
    call: impl FnOnce(&mut State) -> Result<(), Refused>,
) -> Result<(), Refused> {
    let mut given = state.clone();
    let result = call(&mut given);
    assert_eq!(result.is_ok(), given.pending != state.pending);
    given.pending = state.pending.clone();
    assert_eq!(&given, state);
    result
}

/// A step alters what it says it touched and nothing else; of the buffer
/// nothing, save that a flush's last leaves it empty.
fn stepped(medium: &[u8], state: &State, buffer: &[u8]) -> Result<(), Refused> {
    let (mut lent, mut given, mut lent_buffer) = (medium.to_vec(), state.clone(), buffer.to_vec());
    let result = writer::step(&mut lent, &mut given, &mut lent_buffer);
    let flushed = result.is_ok_and(|step| step.finished) && state.pending == Some(Pending::Flush);
    assert!(lent_buffer == if flushed { &EMPTY[..] } else { buffer });
    let touched = match result.map(|step| step.touched) {
        Ok(Touched::Page(page)) => page * PAGE_BYTES..(page + 1) * PAGE_BYTES,
        Ok(Touched::Block(block)) => block * BLOCK_BYTES..(block + 1) * BLOCK_BYTES,
        Err(_) => {
            assert_eq!(&given, state);
            0..0
        }
    };
    lent[touched.clone()].copy_from_slice(&medium[touched]);
    assert!(lent == medium);
    if let Ok(step) = result {
        assert_eq!(step.finished, given.pending.is_none());
    }
    result.map(drop)
}

#[test]
fn any_medium_and_any_state() {
    let mut random = Random::new(14);
    let mut seen = [0; 25];
    for _ in 0..400 {
        let events = random.from_to(10, 200);
        let life = random::lived(&mut random, events);
        let Some(state) = life.state else { continue };
        for _ in 0..15 {
            let (mut medium, mut state) = (life.medium.clone(), state.clone());
            for _ in 0..random.below(3) {
                damage_state(&mut random, &mut state);
            }
            if random.one_in(2) {
                damage(&mut random, &mut medium);
            }
            for number in all_calls(&mut random, &medium, &state) {
                seen[usize::from(number)] += 1;
            }
        }
    }
    println!("refusals by number: {seen:?}");
    for number in [1, 6, 7, 8, 9, 10, 12, 13, 14, 15, 16, 18, 19, 20, 23, 24] {
        assert!(seen[number] > 0, "never: {number}");
    }
}

/// What recovery accepts after damage may be written on: the log then ends
/// with what was appended.
#[test]
fn an_accepted_medium_can_be_gone_on_with() {
    let mut random = Random::new(15);
    let mut times = 0;
    for _ in 0..2000 {
        let mut medium = random::sketched(&mut random);
        let Ok(before) = replay(&medium) else { continue };
        let mut log = before.log();
        let mut state = before.state;
        if begin_append(&medium, &mut state, &[(5, 77)]).is_err() {
            continue;
        }
        finish(&mut medium, &mut state);
        log.push(vec![set_entry(5, 77)]);
        let after = replay(&medium).expect("recovery");
        assert_eq!(after.log(), log);
        assert_eq!(after.state.index, state.index);
        assert_eq!(open(&medium, &state, 5), Ok(77));
        times += 1;
    }
    assert!(times > 100, "{times}");
}
