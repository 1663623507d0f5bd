//! What a span of the log did: joining, the effects of spans, and the whole log's
//! effect on the settings at the last counted commit.

mod common;

use common::{happening, refused};
use journal_tests::effects::{effect, join, of_group, of_groups, of_span, Effect};
use journal_tests::grown::BLOCK_COUNTS;
use journal_tests::history::{lay_on, History};
use journal_tests::logs::{self, large, removal, setting, small, some_log, Made, Shape};
use journal_tests::proved;
use journal_tests::random::{refused_medium, ways, Life, Random};
use journal_tests::reader::*;
use std::collections::BTreeMap;

/// The call of one implementation.
type Call = fn(&[u8], usize, usize) -> Result<Effect, Refused>;

/// The call of both.
const CALLS: [Call; 2] = [effect, proved::effect];

/// By the paper's words: for each valve touched, ascending, the last entry that
/// names it.
fn plain(groups: &[Vec<Entry>]) -> Effect {
    let mut last = BTreeMap::new();
    for &entry in groups.iter().flatten() {
        last.insert(entry.valve(), entry);
    }
    last.into_values().collect()
}

/// What the call must answer for a log.
fn expected(log: &[Vec<Entry>], first: usize, second: usize) -> Result<Effect, Refused> {
    if first > second || second > log.len() {
        return refused(21);
    }
    let effect = plain(&log[first..second]);
    if effect.len() > 192 {
        return refused(22);
    }
    Ok(effect)
}

/// Asks every implementation for a span, and the halving.
fn check(made: &Made, first: usize, second: usize) {
    let expected = expected(&made.log, first, second);
    assert_eq!(of_span(&made.log, first, second), expected, "{} {first} {second}", made.name);
    for call in CALLS {
        assert_eq!(call(&made.medium, first, second), expected, "{} {first} {second}", made.name);
    }
}

// ---------------------------------------------------------------------------
// Joining

/// Groups and effects by chance, on few valves or on many.
fn some_groups(random: &mut Random) -> Vec<Vec<Entry>> {
    let shape = Shape::new(random, 12);
    some_log(random, shape)
}

#[test]
fn joining_is_associative_and_an_empty_effect_changes_nothing() {
    let (mut random, mut met) = (Random::new(91), 0);
    for _ in 0..20000 {
        let valves = random.one_of(&[2, 6, 40, 500]);
        let effects: [Effect; 3] = std::array::from_fn(|_| {
            let shape = Shape { valves, groups: random.below(4), ..Shape::new(&mut random, 1) };
            of_groups(&some_log(&mut random, shape))
        });
        let [a, b, c] = &effects;
        assert_eq!(join(&join(a, b), c), join(a, &join(b, c)));
        assert_eq!((join(a, &[]), join(&[], a)), (a.clone(), a.clone()));
        assert!(a.windows(2).all(|two| two[0].valve() < two[1].valve()));
        met += usize::from(join(a, b) != join(b, a));
    }
    assert!(met > 5000, "the order mattered {met} times");
}

/// Each valve of a joined effect has the second one's entry, else the first's.
#[test]
fn of_a_valve_that_both_touch_the_later_stands() {
    let mut random = Random::new(92);
    for _ in 0..5000 {
        let (a, b) = (of_groups(&some_groups(&mut random)), of_groups(&some_groups(&mut random)));
        let joined = join(&a, &b);
        let of = |effect: &[Entry], valve| effect.iter().find(|e| e.valve() == valve).copied();
        for valve in joined.iter().chain(&a).chain(&b).map(|entry| entry.valve()) {
            assert_eq!(of(&joined, valve), of(&b, valve).or(of(&a, valve)));
        }
    }
}

/// Halving, from the left and from the right: the effect of the groups by the
/// paper's words.
#[test]
fn where_a_span_is_halved_does_not_matter() {
    let mut random = Random::new(93);
    for _ in 0..3000 {
        let groups = some_groups(&mut random);
        let expected = plain(&groups);
        assert_eq!(of_groups(&groups), expected);
        let one_by_one = groups.iter().map(|group| of_group(group));
        assert_eq!(one_by_one.clone().fold(vec![], |all, one| join(&all, &one)), expected);
        assert_eq!(one_by_one.rev().fold(vec![], |all, one| join(&one, &all)), expected);
        let (first, second) = groups.split_at(random.below(groups.len() + 1));
        assert_eq!(join(&of_groups(first), &of_groups(second)), expected);
    }
}

// ---------------------------------------------------------------------------
// Spans of media

#[test]
fn small_cases() {
    let groups = vec![
        vec![setting(5, 1000), setting(7, 20)],
        vec![removal(5)],
        vec![removal(9), setting(8, 1), setting(8, 2)],
        vec![setting(5, 3)],
    ];
    let medium = logs::medium_of(4, &groups, logs::Pages::Own);
    for call in CALLS {
        let effect = |first, second| call(&medium, first, second);
        assert_eq!(effect(0, 1), Ok(vec![setting(5, 1000), setting(7, 20)]));
        assert_eq!(effect(0, 2), Ok(vec![removal(5), setting(7, 20)]));
        assert_eq!(effect(1, 2), Ok(vec![removal(5)]));
        // A removal of a valve that is not set is in the effect.
        assert_eq!(effect(1, 3), Ok(vec![removal(5), setting(8, 2), removal(9)]));
        let all = vec![setting(5, 3), setting(7, 20), setting(8, 2), removal(9)];
        assert_eq!(effect(0, 4), Ok(all));
        for end in 0..=4 {
            assert_eq!(effect(end, end), Ok(vec![]));
        }
        for (first, second) in [(1, 0), (4, 3), (0, 5), (4, 5), (5, 5), (5, 4), (5, 6)] {
            assert_eq!(effect(first, second), refused(21));
        }
        assert_eq!(effect(usize::MAX, usize::MAX), refused(21));
        assert_eq!((effect(0, usize::MAX), effect(usize::MAX, 0)), (refused(21), refused(21)));
    }
}

/// Every span of the small logs, and ends past them.
#[test]
fn every_span_of_small_logs() {
    for made in small().iter().filter(|made| made.log.len() <= 60) {
        for first in 0..made.log.len() + 2 {
            for second in 0..made.log.len() + 2 {
                check(made, first, second);
            }
        }
    }
}

/// Spans of all the logs made for the purpose: empty, whole, one group, halves,
/// and by chance, in order or not.
#[test]
fn spans_of_small_and_large_logs() {
    let mut random = Random::new(94);
    for made in small().iter().chain(&large()) {
        let n = made.log.len();
        for (first, second) in [(0, n), (0, 0), (n, n), (0, n / 2), (n / 2, n), (0, n + 1), (n, 0)]
        {
            check(made, first, second);
        }
        for _ in 0..20 {
            check(made, random.below(n + 2), random.below(n + 2));
            let first = random.below(n + 1);
            check(made, first, first + 1);
        }
    }
}

/// What the logs at the limit of 192 answer.
#[test]
fn at_the_limit() {
    let of = |name: &str| small().into_iter().find(|made| made.name == name).expect("a log");
    let (exact, over) = (of("192 valves touched"), of("193 valves touched"));
    let (twice, again) =
        (of("192 valves touched twice"), of("193 valves touched, the last one twice"));
    for call in CALLS {
        let count = |made: &Made, first, second| call(&made.medium, first, second).map(|e| e.len());
        assert_eq!((count(&exact, 0, 2), count(&twice, 0, 4)), (Ok(192), Ok(192)));
        assert_eq!((count(&over, 0, 3), count(&over, 0, 2)), (refused(22), Ok(192)));
        assert_eq!((count(&over, 1, 3), count(&over, 2, 3)), (Ok(97), Ok(1)));
        assert_eq!((count(&again, 0, 5), count(&again, 3, 5)), (refused(22), Ok(2)));
        // 21 goes before 22.
        assert_eq!((count(&over, 0, 4), count(&over, 3, 0)), (refused(21), refused(21)));
    }
}

/// The effects of neighbouring spans are the effect of both, joined; where the
/// limit allows, of the calls' answers too.
#[test]
fn neighbouring_spans_join() {
    let (mut random, mut joined) = (Random::new(95), 0);
    for _ in 0..1500 {
        let (log, medium) = logs::some_medium(&mut random, 40);
        let mut ends = [0; 3].map(|_| random.below(log.len() + 1));
        ends.sort();
        let [a, b, c] = ends;
        for call in CALLS {
            let Ok(whole) = call(&medium, a, c) else { continue };
            let (one, other) = (call(&medium, a, b), call(&medium, b, c));
            assert_eq!(join(&one.expect("a part"), &other.expect("a part")), whole);
            assert_eq!(whole, plain(&log[a..c]));
            joined += usize::from(a < b && b < c);
        }
    }
    assert!(joined > 500, "{joined}");
}

/// Recovery's refusals come before 21.
#[test]
fn refused_media() {
    let mut random = Random::new(96);
    for number in 1..=6 {
        for way in 0..ways(number) {
            let medium = refused_medium(&mut random, number, way);
            for (call, ends) in CALLS.iter().flat_map(|call| [(0, 0), (1, 0)].map(|e| (call, e))) {
                assert_eq!(call(&medium, ends.0, ends.1), refused(number));
            }
        }
    }
}

// ---------------------------------------------------------------------------
// The whole log's effect on the settings at the last counted commit

/// Laid on the settings at the last counted commit, the whole log's effect gives
/// recovery's settings; and so do the effects of two spans, one after the other.
fn check_history(random: &mut Random, medium: &[u8], history: &History) {
    let replay = replay(medium).expect("recovery");
    let log = replay.log();
    assert_eq!(log, history.log());
    let (first, second) = log.split_at(random.below(log.len() + 1));
    for effects in [vec![of_groups(&log)], vec![of_groups(first), of_groups(second)]] {
        let mut settings = history.committed().clone();
        effects.iter().flatten().for_each(|&entry| lay_on(&mut settings, entry));
        let settings: Vec<Entry> = settings.iter().map(|(&v, &word)| setting(v, word)).collect();
        assert_eq!(settings, replay.settings());
    }
    for call in CALLS {
        assert_eq!(call(medium, 0, log.len()), expected(&log, 0, log.len()));
    }
}

/// Lives with cuts, on few blocks and on many: checked every few events.
#[test]
fn the_whole_log_on_the_settings_at_the_last_commit() {
    let (mut random, mut happened) = (Random::new(97), BTreeMap::new());
    let few = (4..=16).cycle().take(80).map(|blocks| (blocks, 800));
    let many = BLOCK_COUNTS.into_iter().cycle().take(14).map(|blocks| (blocks, 100));
    for (blocks, events) in few.chain(many) {
        let mut life = Life::on(&mut random, blocks);
        for _ in 0..events {
            let action = life.next_action(&mut random);
            let outcome = life.act(&action);
            *happened.entry(happening(&action, outcome)).or_insert(0) += 1;
            let Some(history) = life.history.as_ref().filter(|_| random.one_in(3)) else {
                continue;
            };
            check_history(&mut random, &life.medium, history);
            note(&mut happened, history);
        }
    }
    println!("{happened:#?}");
    for name in [
        "commit",
        "flush",
        "cut inside page complete",
        "cut inside page",
        "recover",
        "laid on settings",
        "laid on none",
        "a removal of what is not set",
        "a set valve is removed",
        "over 192 touched",
    ] {
        assert!(happened.get(name).is_some_and(|&times| times > 100), "rare: {name}");
    }
}

/// Notes what this history shows.
fn note(happened: &mut BTreeMap<String, usize>, history: &History) {
    let (effect, before) = (of_groups(history.log()), history.committed());
    let removes = |set: bool| {
        effect.iter().any(|entry| entry.removes() && before.contains_key(&entry.valve()) == set)
    };
    let shown = [
        ("laid on settings", !effect.is_empty() && !before.is_empty()),
        ("laid on none", !effect.is_empty() && before.is_empty()),
        ("a removal of what is not set", removes(false)),
        ("a set valve is removed", removes(true)),
        ("over 192 touched", effect.len() > 192),
    ];
    for (name, _) in shown.into_iter().filter(|(_, shown)| *shown) {
        *happened.entry(name.to_string()).or_insert(0) += 1;
    }
}
