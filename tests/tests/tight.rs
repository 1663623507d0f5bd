//! The tight recovery and the tight log against the second implementation: the
//! refusal, the state and the lists of each, on many media; the log also behind
//! the library's interface. They are a yardstick only while they agree.

mod common;

use common::{read_out, refused, some_lengths};
use journal_tests::grown::{some_blocks, some_grown};
use journal_tests::logs::each_medium;
use journal_tests::random::{self, Random};
use journal_tests::{reader, tight, tight_by_value};

/// How often each answer came: 0 and 1 to 6 of recovery, 17 of the log.
type Seen = [u32; 18];

/// All say the same of a medium, the log with lists of several lengths; the
/// refusal of recovery, or 0.
fn agree(random: &mut Random, seen: &mut Seen, medium: &[u8]) -> u8 {
    let expected = reader::recover(medium);
    assert_eq!(tight::recover(medium).map(|recovered| recovered.state()), expected);
    for lengths in some_lengths(random, medium) {
        let second = read_out(reader::log_into, medium, lengths);
        for log_into in [tight::log_into, tight_by_value::log_into] {
            let tight = read_out(log_into, medium, lengths);
            assert!(tight == second, "{lengths:?}: {:?}, not {:?}", tight.0, second.0);
        }
        seen[17] += u32::from(second.0 == refused(17));
    }
    let number = expected.map_or_else(|refused| refused.0, |_| 0);
    seen[usize::from(number)] += 1;
    number
}

#[test]
fn on_media_that_were_lived() {
    let (mut random, mut seen) = (Random::new(51), [0; 18]);
    for events in 0..1500 {
        let lived = random::lived(&mut random, events % 400).medium;
        agree(&mut random, &mut seen, &lived);
        let medium = random::medium(&mut random);
        assert_eq!(agree(&mut random, &mut seen, &medium), 0);
    }
    assert!(seen[17] >= 1000, "lists are often too short: {seen:?}");
}

#[test]
fn on_damaged_media() {
    let (mut random, mut seen) = (Random::new(52), [0; 18]);
    for _ in 0..5000 {
        let mut medium = random::medium(&mut random);
        for _ in 0..random.from_to(1, 4) {
            if medium.len() >= 256 {
                random::damage(&mut random, &mut medium);
            }
        }
        agree(&mut random, &mut seen, &medium);
        let sketched = random::sketched(&mut random);
        agree(&mut random, &mut seen, &sketched);
    }
    let often = |number: usize| seen[number] >= 40;
    assert!((0..=6).chain([17]).all(often), "each answer comes often: {seen:?}");
}

#[test]
fn on_each_way_to_be_refused() {
    let (mut random, mut seen) = (Random::new(53), [0; 18]);
    for number in 1..=6 {
        for way in 0..random::ways(number) {
            for _ in 0..40 {
                let medium = random::refused_medium(&mut random, number, way);
                assert_eq!(agree(&mut random, &mut seen, &medium), number);
            }
        }
    }
}

#[test]
fn on_media_of_many_blocks_and_with_pages_in_any_order() {
    let (mut random, mut seen) = (Random::new(54), [0; 18]);
    for _ in 0..150 {
        let blocks = some_blocks(&mut random);
        let mut medium = some_grown(&mut random, blocks).medium;
        agree(&mut random, &mut seen, &medium);
        for _ in 0..5 {
            random::swap_pages(&mut random, &mut medium);
            agree(&mut random, &mut seen, &medium);
        }
        random::damage(&mut random, &mut medium);
        agree(&mut random, &mut seen, &medium);
    }
}

/// Logs by chance and made for the purpose, the largest among them.
#[test]
fn on_media_made_for_the_log() {
    let (mut random, mut seen) = (Random::new(55), [0; 18]);
    each_medium(56, 200, |_, medium| {
        agree(&mut random, &mut seen, medium);
    });
    assert!(seen[0] >= 500 && seen[17] >= 300, "logs are often read: {seen:?}");
}
