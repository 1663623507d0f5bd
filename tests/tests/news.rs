//! What is new to an archive: `vj_news` against the second implementation, with
//! marks of every kind; and an archive that reads, files and commits by it, while
//! the power fails.

mod common;

use common::{append, begin_commit, finish, formatted, one_step, valves};
use journal_tests::random::{refused_medium, ways, Random};
use journal_tests::reader::{recover, replay, Entry};
use journal_tests::valve_journal::{news, Mark, News, Refusal};

/// What the call must answer, by the second implementation's recovery: the number
/// of its refusal, or the news.
fn expected(medium: &[u8], filed: Mark) -> Result<News, u8> {
    let replay = replay(medium).map_err(|refused| refused.0)?;
    let (base, serial) = (replay.state.first_base_serial, replay.state.next_serial);
    let mark = Mark { base, serial, count: replay.log_length() };
    let fits = if base == filed.base {
        filed.count <= mark.count
    } else {
        filed.base < base && filed.serial.saturating_sub(7) <= base
    };
    match (filed.serial <= serial, fits) {
        (false, _) => Err(28),
        (true, false) => Err(29),
        (true, true) => Ok(News { first: if base == filed.base { filed.count } else { 0 }, mark }),
    }
}

fn check(medium: &[u8], filed: Mark) -> Result<News, u8> {
    let answer = news(medium, filed).map_err(|refusal: Refusal| refusal as u8);
    assert_eq!(answer, expected(medium, filed), "{filed:?}");
    answer
}

/// Marks around that of a medium: each number as it is, and a little below and
/// above it; the least and the greatest.
fn marks_around(medium: &[u8]) -> Vec<Mark> {
    let around = |x: u64| {
        let below = [0, 1, 7, 8, 9].map(|less| x.saturating_sub(less));
        below.into_iter().chain([0, x + 1, x + 7, x + 8, u64::MAX])
    };
    let found = check(medium, Mark::default()).expect("a medium that recovery accepts").mark;
    let mut marks = Vec::new();
    for base in around(found.base) {
        for serial in around(found.base).chain(around(found.serial)) {
            for count in [0, 1, found.count, found.count + 1, usize::MAX] {
                marks.push(Mark { base, serial, count });
            }
        }
    }
    marks
}

#[test]
fn marks_of_every_kind() {
    let (mut medium, mut state) = formatted(4);
    let mut numbers = std::collections::BTreeSet::new();
    for round in 0..6u16 {
        for filed in marks_around(&medium) {
            numbers.insert(check(&medium, filed).err());
        }
        append(&mut medium, &mut state, &valves(1 + 30 * round, 30));
        if round % 2 == 1 {
            begin_commit(&medium, &mut state).expect("a commit");
            // A commit of several pages, read and filed while it is under way.
            while !one_step(&mut medium, &mut state).expect("a step").finished {
                for filed in marks_around(&medium) {
                    numbers.insert(check(&medium, filed).err());
                }
            }
        }
    }
    assert_eq!(numbers.into_iter().collect::<Vec<_>>(), [None, Some(28), Some(29)]);
}

#[test]
fn refused_as_recovery_is() {
    let mut random = Random::new(37);
    for number in 1..=6 {
        for way in 0..ways(number) {
            let medium = refused_medium(&mut random, number, way);
            for filed in [Mark::default(), Mark { base: 1, serial: 2, count: 0 }] {
                assert_eq!(check(&medium, filed), Err(number));
            }
        }
    }
}

/// An archive: what it has filed, and the mark.
#[derive(Default)]
struct Archive {
    filed: Vec<Entry>,
    mark: Mark,
}

impl Archive {
    /// Reads the medium and files what is new; the front is that filed before.
    fn file(&mut self, medium: &[u8]) {
        let News { first, mark } = check(medium, self.mark).expect("the archive's medium");
        let replay = replay(medium).expect("accepted");
        let log: Vec<Entry> = replay.changes().map(|change| change.entry).collect();
        assert!(self.filed.ends_with(&log[..first]), "the front is what was filed last");
        self.filed.extend_from_slice(&log[first..]);
        self.mark = mark;
    }
}

#[test]
fn each_change_is_filed_once() {
    for seed in 0..60 {
        let mut random = Random::new(seed);
        let (mut medium, mut state) = formatted(4 + seed as usize % 5);
        let (mut archive, mut made) = (Archive::default(), Vec::new());
        for round in 0..40 {
            if random.one_in(3) {
                archive.file(&medium);
            }
            let entries = valves(1 + (round * 7 % 150) as u16, 1 + (round % 40) as u16);
            let (keys, words) = common::lists(&entries);
            if common::begin_lists(&medium, &mut state, &keys, &words).is_ok() {
                finish(&mut medium, &mut state);
                made.extend(entries.iter().map(|&(key, word)| Entry { key, word }));
            }
            // A commit comes only where all is filed; the power may fail at any of
            // its steps, and the archive may read between them.
            if random.one_in(4) {
                archive.file(&medium);
                if begin_commit(&medium, &mut state).is_ok() {
                    while !one_step(&mut medium, &mut state).expect("a step").finished {
                        if random.one_in(2) {
                            archive.file(&medium);
                        }
                        if random.one_in(5) {
                            break;
                        }
                    }
                    state = recover(&medium).expect("accepted");
                }
            }
        }
        archive.file(&medium);
        assert!(archive.filed == made, "seed {seed}: {} of {}", archive.filed.len(), made.len());
    }
}
