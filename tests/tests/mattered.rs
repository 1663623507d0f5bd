//! Which one group mattered: the definition, the way in one pass, and the list.

mod common;

use common::{numbered, refused};
use journal_tests::effects::of_groups;
use journal_tests::logs::{
    self, each_medium, large, medium_of, removal, setting, small, some_log, Log, Pages, Shape,
};
use journal_tests::mattered::{by_definition, mattered_into, of_changes, without};
use journal_tests::proved;
use journal_tests::random::{refused_medium, ways, Random};
use journal_tests::reader::*;

/// The call of one implementation.
type Call = fn(&[u8], &mut [u32]) -> Result<usize, Refused>;

/// The call of both.
const CALLS: [Call; 2] = [mattered_into, proved::mattered_into];

/// The groups that mattered in a log, in one pass.
fn of_log(log: &[Vec<Entry>]) -> Vec<u32> {
    of_changes(&numbered(log).collect::<Vec<_>>())
}

/// What stands in a lent list before the call.
const PLACE: u32 = 0xA5A5_A5A5;

/// What the call answers with a list of so many places, and the list after that.
fn read_out(call: Call, medium: &[u8], places: usize) -> (Result<usize, Refused>, Vec<u32>) {
    let mut groups = vec![PLACE; places];
    (call(medium, &mut groups), groups)
}

/// What it must be: 25 where the list is too short, and then no place is written
/// to; else only those of the groups.
fn expected(mattered: &[u32], places: usize) -> (Result<usize, Refused>, Vec<u32>) {
    let mut groups = vec![PLACE; places];
    if places < mattered.len() {
        return (refused(25), groups);
    }
    groups[..mattered.len()].copy_from_slice(mattered);
    (Ok(mattered.len()), groups)
}

/// Every implementation lists these groups, in lists that are too short, exact
/// and longer.
fn check(name: &str, medium: &[u8], mattered: &[u32]) {
    let n = mattered.len();
    for places in [0, 1, n / 2, n.saturating_sub(1), n, n + 1, n + 100] {
        for call in CALLS {
            let (read, expected) = (read_out(call, medium, places), expected(mattered, places));
            assert!(read == expected, "{name}, {places} places: {:?}", read.0);
        }
    }
}

/// A log on a medium, and the groups that mattered there.
fn case(log: Log, mattered: &[u32]) {
    assert_eq!((by_definition(&log), of_log(&log)), (mattered.to_vec(), mattered.to_vec()));
    for pages in [Pages::Own, Pages::Gathered] {
        check("a case", &medium_of(4, &log, pages), mattered);
    }
}

#[test]
fn small_cases() {
    let (a, b) = (setting(5, 1), setting(5, 2));
    case(vec![], &[]);
    case(vec![vec![a]], &[0]);
    // Touched again with another word, with the same, and with the same as before.
    case(vec![vec![a], vec![b]], &[1]);
    case(vec![vec![a], vec![a]], &[]);
    case(vec![vec![a], vec![b], vec![a]], &[2]);
    case(vec![vec![b], vec![a], vec![a]], &[]);
    // Alone on a valve, also by removing what is not set; a removal again.
    case(vec![vec![a], vec![removal(6)]], &[0, 1]);
    case(vec![vec![removal(6)], vec![removal(6)]], &[]);
    case(vec![vec![setting(6, 0)], vec![removal(6)]], &[1]);
    case(vec![vec![removal(6)], vec![setting(6, 0)]], &[1]);
    // What a group did and undid itself does not count, its last entry does.
    case(vec![vec![a], vec![b, a]], &[]);
    case(vec![vec![a], vec![a, b]], &[1]);
    case(vec![vec![b, a], vec![a]], &[]);
    // A group that is the last on one valve only.
    case(vec![vec![a, setting(7, 1)], vec![b]], &[1, 0]);
    // Fewest entries first; a valve named twice counts twice; ties by number.
    let (two, three) = (vec![setting(1, 1), setting(1, 2)], vec![setting(2, 1); 3]);
    let (one, other) = (vec![setting(3, 1)], vec![setting(4, 1)]);
    case(vec![three.clone(), one.clone(), two.clone(), other.clone()], &[1, 3, 2, 0]);
    case(vec![two, other, three, one], &[1, 3, 0, 2]);
    case(vec![vec![setting(1, 1); 2], vec![setting(2, 1), setting(3, 1)]], &[0, 1]);
}

/// Every log of at most three groups of one or two entries on two valves with
/// two words.
#[test]
fn every_log_of_three_small_groups() {
    let words = [1, 2].map(|word| [5, 6].map(|valve| setting(valve, word)));
    let entries = [words.as_flattened(), &[removal(5), removal(6)]].concat();
    let pairs = entries.iter().flat_map(|&a| entries.iter().map(move |&b| vec![a, b]));
    let groups: Vec<Vec<Entry>> = entries.iter().map(|&e| vec![e]).chain(pairs).collect();
    assert_eq!(groups.len(), 42);
    // Two valves: at most two groups can be the last to touch one.
    let mut seen = [0; 3];
    let mut try_log = |log: &[&Vec<Entry>]| {
        let log: Log = log.iter().map(|&group| group.clone()).collect();
        let mattered = by_definition(&log);
        assert_eq!(of_log(&log), mattered, "{log:?}");
        seen[mattered.len()] += 1;
    };
    for a in &groups {
        try_log(&[a]);
        for b in &groups {
            try_log(&[a, b]);
            groups.iter().for_each(|c| try_log(&[a, b, c]));
        }
    }
    assert!(seen.iter().all(|&times| times > 0), "{seen:?}");
    assert_eq!(seen.iter().sum::<usize>(), 42 + 42 * 42 + 42 * 42 * 42);
}

/// Logs by chance, more than 192 valves among them: the definition and the way
/// in one pass, and on media the calls.
#[test]
fn logs_by_chance() {
    let (mut random, mut none, mut some, mut wide) = (Random::new(101), 0, 0, 0);
    for nth in 0..6000 {
        let shape = Shape::new(&mut random, 24);
        let log = some_log(&mut random, shape);
        let mattered = by_definition(&log);
        assert_eq!(of_log(&log), mattered, "{log:?}");
        none += usize::from(mattered.is_empty() && log.len() > 1);
        some += usize::from(!mattered.is_empty() && mattered.len() < log.len());
        wide += usize::from(of_groups(&log).len() > 192);
        if nth % 6 == 0 {
            let (log, medium) = logs::some_medium(&mut random, 40);
            check("by chance", &medium, &by_definition(&log));
        }
    }
    assert!(none > 50 && some > 1000 && wide > 50, "none {none}, some {some}, wide {wide}");
}

/// The logs made for the purpose, the small ones by the definition.
#[test]
fn logs_made_for_the_purpose() {
    for made in small() {
        let mattered = of_log(&made.log);
        assert!(made.log.len() > 250 || mattered == by_definition(&made.log), "{}", made.name);
        check(made.name, &made.medium, &mattered);
    }
}

/// The largest logs: each list is exact, in order, and of some groups in it and
/// out of it the definition is asked.
#[test]
fn large_logs() {
    let mut random = Random::new(102);
    for made in large() {
        let (log, mattered) = (&made.log, of_log(&made.log));
        check(made.name, &made.medium, &mattered);
        let order = |&group: &u32| (log[group as usize].len(), group);
        assert!(mattered.windows(2).all(|two| order(&two[0]) < order(&two[1])));
        println!("{}: {} of {} groups", made.name, mattered.len(), log.len());
        let whole = of_groups(log);
        let any = |random: &mut Random| random.below(log.len()) as u32;
        let last = log.len() as u32 - 1;
        let mut asked = vec![0, last, last - 1, any(&mut random), any(&mut random)];
        asked.extend((0..6).filter_map(|_| mattered.get(random.below(mattered.len())).copied()));
        // The last groups are those that can matter.
        asked.extend((0..6).map(|_| last - random.below(380.min(log.len())) as u32));
        for group in asked {
            let meant = without(log, group as usize) != whole;
            assert_eq!(mattered.contains(&group), meant, "{}: group {group}", made.name);
        }
    }
}

/// Which groups of this log mattered is known by its making: of the last 190
/// those that leave another word than the first 190 did.
#[test]
fn one_large_log_by_its_making() {
    let made = large().swap_remove(1);
    let last = made.log.len() as u32 - 190;
    let expected: Vec<u32> = (last..last + 190).filter(|group| group % 2 == 1).collect();
    assert_eq!(expected.len(), 95);
    check(made.name, &made.medium, &expected);
}

/// On media of every kind, in lists that are too short, exact and longer; short
/// logs by the definition.
#[test]
fn both_answer_the_same_on_all_media() {
    let (mut numbers, mut by_words) = ([0; 26], 0);
    each_medium(141, 400, |name, medium| {
        let log = replay(medium).map_or(vec![], |replay| replay.log());
        let mattered = of_log(&log);
        if log.len() <= 40 {
            assert_eq!(mattered, by_definition(&log), "{name}");
            by_words += 1;
        }
        let n = mattered.len();
        for places in [0, n / 2, n.saturating_sub(1), n, n + 1, n + 70] {
            let [second, proved] = CALLS.map(|call| read_out(call, medium, places));
            assert!(second == proved, "{name}, {places} places: {:?}, {:?}", second.0, proved.0);
            numbers[proved.0.map_or_else(|refused| refused.0.into(), |_| 0)] += 1;
        }
    });
    println!("answers by number: {numbers:?}, by the definition {by_words}");
    for number in [0, 1, 2, 3, 4, 5, 6, 25] {
        assert!(numbers[number] > 5, "{number}: {} times", numbers[number]);
    }
    assert!(by_words > 500, "{by_words}");
}

/// Recovery's refusals come before 25, and no list is written to.
#[test]
fn refused_media() {
    let mut random = Random::new(103);
    for number in 1..=6 {
        for way in 0..ways(number) {
            let medium = refused_medium(&mut random, number, way);
            for (call, places) in CALLS.iter().flat_map(|call| [0, 1, 100].map(|p| (call, p))) {
                let (answer, groups) = read_out(*call, &medium, places);
                assert_eq!((answer, groups), (refused(number), vec![PLACE; places]));
            }
        }
    }
}
