//! The effects of spans by the proved library and by the second implementation, on
//! all media.

use journal_tests::effects::of_span;
use journal_tests::logs::each_medium;
use journal_tests::proved;
use journal_tests::random::Random;
use journal_tests::reader;

/// Spans of a log of `n` groups: empty, whole, of one group, past the log, out of
/// order, and by chance.
fn spans(random: &mut Random, n: usize) -> Vec<(usize, usize)> {
    let most = usize::MAX;
    let mut spans =
        vec![(0, 0), (0, n), (n, n), (0, n + 1), (n, n + 1), (n + 1, n + 1), (n + 1, n)];
    spans.extend([(1, 0), (0, most), (most, 0), (most, most), (n, 0), (0, n / 2), (n / 2, n)]);
    for _ in 0..6 {
        let first = random.below(n + 1);
        spans.push((first, first + random.below(n + 1 - first)));
        spans.push((random.below(n + 3), random.below(n + 3)));
        spans.push((first, first + 1));
    }
    spans
}

#[test]
fn both_answer_the_same_on_all_media() {
    let (mut random, mut numbers) = (Random::new(131), [0; 23]);
    each_medium(132, 300, |name, medium| {
        let log = reader::replay(medium).map(|replay| replay.log());
        for (first, second) in spans(&mut random, log.as_ref().map_or(0, Vec::len)) {
            let expected = log.as_ref().map_err(|&refused| refused);
            let expected = expected.and_then(|log| of_span(log, first, second));
            let answer = proved::effect(medium, first, second);
            assert_eq!(answer, expected, "{name}: {first} to {second}");
            numbers[answer.map_or_else(|refused| refused.0.into(), |_| 0)] += 1;
        }
    });
    println!("answers by number: {numbers:?}");
    for number in [0, 1, 2, 3, 4, 5, 6, 21, 22] {
        assert!(numbers[number] > 10, "{number}: {} times", numbers[number]);
    }
}
