//! The proved library against the second implementation, on many media: the
//! refusal, the state and the log of each, and the readings that take a state.

mod common;

use common::{read_out, refused, some_lengths, LogLists, ReadOut};
use journal_tests::proved::{self, count_available, open, pick, survey, VjState};
use journal_tests::random::{self, Random};
use journal_tests::reader::{self, Entry, Refused, State};
use journal_tests::writer;

/// What the proved recovery says, in the other implementation's terms.
fn recover(medium: &[u8]) -> Result<State, Refused> {
    proved::recover(medium).map(|state| state.meaning().expect("a state that means something"))
}

/// The proved log into lists of these lengths, and the other one.
fn logs(medium: &[u8], lengths: [usize; 3]) -> [ReadOut; 2] {
    [proved::log_into, reader::log_into].map(|log_into| read_out(log_into, medium, lengths))
}

/// Both say the same of a medium; the refusal, or 0.
fn agree(random: &mut Random, medium: &[u8]) -> u8 {
    let expected = reader::recover(medium);
    assert_eq!(recover(medium), expected);
    for lengths in some_lengths(random, medium) {
        let [proved, second] = logs(medium, lengths);
        assert!(proved == second, "{lengths:?}: {:?}, not {:?}", proved.0, second.0);
    }
    expected.map_or_else(|refused| refused.0, |_| 0)
}

#[test]
fn on_media_that_were_lived() {
    let mut random = Random::new(41);
    for events in 0..400 {
        let life = random::lived(&mut random, events);
        agree(&mut random, &life.medium);
        let medium = random::medium(&mut random);
        assert_eq!(agree(&mut random, &medium), 0);
    }
}

#[test]
fn on_damaged_media() {
    let mut random = Random::new(42);
    let mut seen = [0u32; 7];
    for _ in 0..2500 {
        let mut medium = random::medium(&mut random);
        for _ in 0..random.from_to(1, 4) {
            if medium.len() >= 256 {
                random::damage(&mut random, &mut medium);
            }
        }
        seen[agree(&mut random, &medium) as usize] += 1;
    }
    for _ in 0..2500 {
        let medium = random::sketched(&mut random);
        seen[agree(&mut random, &medium) as usize] += 1;
    }
    assert!(seen.iter().all(|&n| n >= 20), "each answer from 0 to 6 comes often: {seen:?}");
}

#[test]
fn on_each_way_to_be_refused() {
    let mut random = Random::new(43);
    for number in 1..=6 {
        for way in 0..random::ways(number) {
            for _ in 0..20 {
                let medium = random::refused_medium(&mut random, number, way);
                assert_eq!(agree(&mut random, &medium), number);
            }
        }
    }
}

#[test]
fn on_a_medium_with_each_bit_of_some_pages_turned() {
    let mut random = Random::new(44);
    // On many blocks only every so many bits.
    for (blocks, every) in [(4, 1), (16, 1), (17, 31), (256, 127)] {
        let mut medium = random::medium_on(&mut random, blocks);
        for _ in 0..2 {
            let page = random.below(16 * blocks);
            for bit in (0..2048).step_by(every) {
                medium[256 * page + bit / 8] ^= 1 << (bit % 8);
                agree(&mut random, &medium);
                medium[256 * page + bit / 8] ^= 1 << (bit % 8);
            }
        }
    }
}

#[test]
fn on_bytes_of_any_length() {
    let mut random = Random::new(45);
    let many = [65535, 65536, 65537, 69632, 1044480, 1048575, 1048576, 1048577, 1052672];
    for length in (0..300).chain([4095, 4096, 16383, 16384, 16385]).chain(many) {
        let mut medium = vec![0u8; length];
        random.fill(&mut medium);
        agree(&mut random, &medium);
    }
}

// ---------------------------------------------------------------------------
// The readings that take a state

#[test]
fn readings_of_states_fit_and_unfit() {
    let mut random = Random::new(46);
    let mut seen = [0u32; 19];
    let mut picked = 0;
    for turn in 0..2000 {
        let life = random::lived(&mut random, turn % 300);
        let mut medium = life.medium;
        let Some(mut state) = life.state else { continue };
        if random.one_in(2) {
            random::damage_state(&mut random, &mut state);
        }
        if random.one_in(3) && medium.len() >= 256 {
            random::damage(&mut random, &mut medium);
        }
        let raw = VjState::from(&state);
        assert_eq!(pick(&medium, &raw), reader::pick(&medium, &state));
        picked += u32::from(matches!(reader::pick(&medium, &state), Ok(Some(_))));
        assert_eq!(survey(&medium, &raw), reader::survey(&medium, &state));
        assert_eq!(count_available(&medium, &raw), reader::count_available(&medium, &state));
        for _ in 0..10 {
            let set = random.below(state.index.len() + 1);
            let valve = state.index.get(set).map_or(random.bits() as u16, |place| place.valve);
            let expected = reader::open(&medium, &state, valve);
            assert_eq!(open(&medium, &raw, valve), expected);
            seen[expected.map_or_else(|refused| refused.0, |_| 0) as usize] += 1;
        }
    }
    assert!(
        [0, 1, 6, 7, 18].iter().all(|&number| seen[number] >= 20),
        "each answer comes often: {seen:?}"
    );
    assert!(picked >= 20, "a block is picked often: {picked}");
}

#[test]
fn an_operation_code_that_names_none_is_7_after_1() {
    let mut random = Random::new(47);
    for code in [6, 7, 255] {
        let medium = random::medium(&mut random);
        let mut state = proved::recover(&medium).expect("a recovery");
        state.operation = code;
        assert_eq!(pick(&medium, &state), Err(Refused(7)));
        assert_eq!(survey(&medium, &state), Err(Refused(7)));
        assert_eq!(open(&medium, &state, 5), Err(Refused(7)));
        assert_eq!(count_available(&medium, &state), Err(Refused(7)));
        assert_eq!(pick(&medium[1..], &state), Err(Refused(1)));
        assert_eq!(survey(&medium[1..], &state), Err(Refused(1)));
        assert_eq!(open(&medium[1..], &state, 5), Err(Refused(1)));
        assert_eq!(count_available(&medium[1..], &state), Err(Refused(1)));
    }
}

#[test]
fn pages_are_parts_of_the_medium() {
    let bytes = vec![0xFF; 1052672];
    let few = [0, 1, 15, 63, 64, 255, 256, 257, 4079, 4080, 4095, 4096, 4111, 4112];
    let ends = [1 << 24, usize::MAX / 256, usize::MAX / 256 + 1, usize::MAX];
    for length in [0, 1, 255, 256, 257, 4095, 16384, 65536, 69632, 1044480, 1048576, 1052672] {
        let medium = &bytes[..length];
        for p in few.into_iter().chain(ends) {
            let (page, expected) = (proved::page(medium, p), reader::page(medium, p));
            assert_eq!(page.len(), expected.len());
            assert!(page.is_empty() || std::ptr::eq(page, expected));
        }
    }
}

// ---------------------------------------------------------------------------
// The small examples of the document that concern reading

/// A medium of 4 blocks with these pages from page 0 on.
fn laid(pages: &[[u8; 256]]) -> Vec<u8> {
    let mut medium = vec![0xFF; 16384];
    for (number, page) in pages.iter().enumerate() {
        writer::put_page(&mut medium, number, page);
    }
    medium
}

fn page(kind: u8, flags: u8, serial: u64, entries: &[(u16, u64)]) -> [u8; 256] {
    let entries: Vec<Entry> = entries.iter().map(|&(key, word)| Entry { key, word }).collect();
    writer::lay_page(kind, flags, serial, &entries)
}

#[test]
fn small_examples() {
    let base = page(2, 3, 1, &[]);
    let formatted = laid(&[base]);
    assert_eq!(recover(&vec![0xFF; 12288]), Err(Refused(1)));
    assert_eq!(recover(&laid(&[base, page(9, 3, 2, &[(5, 1000)])])), Err(Refused(2)));
    assert_eq!(recover(&laid(&[base, base])), Err(Refused(3)));
    assert_eq!(recover(&laid(&[])), Err(Refused(4)));
    assert_eq!(
        recover(&laid(&[base, page(1, 3, 2, &[(5, 1000)]), page(1, 3, 4, &[(5, 1000)])])),
        Err(Refused(5))
    );
    assert_eq!(recover(&laid(&[page(2, 3, 1, &[(5, 0)])])), Err(Refused(6)));

    let morning = laid(&[base, page(1, 3, 2, &[(5, 1000), (7, 20)]), page(1, 3, 3, &[(32773, 0)])]);
    for lengths in [[2, 3, 3], [3, 2, 3], [3, 3, 2]] {
        let [log, _] = logs(&morning, lengths);
        assert_eq!(log, (refused(17), LogLists::new(lengths)));
    }
    let [(answer, lists), _] = logs(&morning, [3, 3, 3]);
    assert_eq!((answer, lists.keys), (Ok(3), vec![5, 7, 32773]));
    assert_eq!((lists.words, lists.groups), (vec![1000, 20, 0], vec![0, 0, 1]));
    let state = proved::recover(&morning).expect("a recovery");
    assert_eq!(open(&morning, &state, 7), Ok(20));
    assert_eq!(open(&morning, &state, 5), Err(Refused(18)));

    let state = proved::recover(&formatted).expect("a recovery");
    assert_eq!(open(&formatted, &state, 5), Err(Refused(18)));
    assert_eq!(pick(&formatted, &state), Ok(None));
    let rows = survey(&formatted, &state).expect("a survey");
    assert_eq!(rows[..5], [[1, 15, 0], [0, 16, 0], [0, 16, 0], [0, 16, 0], [0, 0, 0]]);
    let five_blocks = [formatted, vec![0xFF; 4096]].concat();
    assert_eq!(open(&five_blocks, &state, 5), Err(Refused(7)));
    assert_eq!(pick(&five_blocks, &state), Err(Refused(7)));
    assert_eq!(survey(&five_blocks, &state), Err(Refused(7)));
}
