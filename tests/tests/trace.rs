//! Recorded runs by the second implementation: the form, what is printed, and
//! the plain history.

use journal_tests::calls::{Proved, Second};
use journal_tests::corners::corners;
use journal_tests::random::{damaged_trace, some_calls, Random};
use journal_tests::reader::Refused;
use journal_tests::trace::{
    assert_is_history, bytes_of, play, read, rerun, Call, Came, LAST_CUT, MOST_BYTES,
};
use journal_tests::writer::Touched;
use std::collections::BTreeMap;

#[test]
fn what_is_made_by_hand() {
    for corner in corners() {
        assert_eq!(rerun(&corner.bytes), corner.text, "{}", corner.about);
    }
}

/// A name for a call and what came of it, to see that everything did.
fn name(call: &Call, came: &Came) -> String {
    let call = match call {
        Call::Format { .. } => "format",
        Call::Append { .. } => "append",
        Call::Commit => "commit",
        Call::Collect { .. } => "collect",
        Call::Step => "step",
        Call::Cut { .. } => "cut",
        Call::Recover => "recover",
        Call::Buffer { .. } => "buffer",
        Call::Flush => "flush",
    };
    match came {
        Came::Refused(number) => format!("{call} refused {number}"),
        Came::Stepped(step) if step.finished => format!("{call} finished"),
        Came::Cut { struck: Touched::Block(_), .. } => format!("{call} in an erase"),
        Came::Cut { complete: true, .. } => format!("{call} complete"),
        Came::Recovered(listing) if listing.settings.len() > 99 => format!("{call} over 99 set"),
        _ => call.to_string(),
    }
}

/// Both implementations' calls give the same, and what is listed after each
/// recovery, once formatting has finished, is what the history defines.
#[test]
fn what_is_listed_is_the_history() {
    let (mut random, mut happened) = (Random::new(130), BTreeMap::new());
    let mut count = |name: String| *happened.entry(name).or_insert(0) += 1;
    for _ in 0..3000 {
        let calls = some_calls(&mut random);
        let all = play::<Second>(&calls);
        assert_eq!(all, play::<Proved>(&calls));
        calls.iter().zip(&all).for_each(|(call, came)| count(name(call, came)));
        (0..assert_is_history(&calls, &all)).for_each(|_| count("defined".to_string()));
        if all.len() < calls.len() {
            count("ended before its last call".to_string());
        }
    }
    for (name, times) in &happened {
        println!("{times:7} {name}");
    }
    let often = [
        "append",
        "append refused 8",
        "append refused 10",
        "append refused 11",
        "append refused 12",
        "append refused 13",
        "append refused 24",
        "buffer",
        "buffer refused 8",
        "buffer refused 10",
        "buffer refused 11",
        "buffer refused 12",
        "buffer refused 13",
        "buffer refused 23",
        "collect",
        "collect refused 8",
        "collect refused 13",
        "collect refused 15",
        "collect refused 24",
        "commit",
        "commit refused 8",
        "commit refused 13",
        "commit refused 24",
        "cut",
        "cut complete",
        "cut in an erase",
        "cut refused 27",
        "defined",
        "ended before its last call",
        "flush",
        "flush refused 8",
        "flush refused 10",
        "format",
        "recover",
        "recover over 99 set",
        "recover refused 4",
        "step",
        "step finished",
        "step refused 9",
    ];
    for name in often {
        let times = happened.remove(name).unwrap_or(0);
        assert!(times >= 20, "{times} times: {name}");
    }
    assert_eq!(happened.keys().collect::<Vec<_>>(), [] as [&String; 0]);
}

/// What was found after a cut is a pattern of that cut.
#[test]
fn what_a_cut_left_is_its_pattern() {
    let (mut random, mut changed) = (Random::new(135), 0);
    for _ in 0..500 {
        let mut calls = some_calls(&mut random);
        let all = play::<Second>(&calls);
        for (call, came) in calls.iter_mut().zip(&all) {
            if let (Call::Cut { pattern, .. }, Came::Cut { found, .. }) = (call, came) {
                changed += usize::from(pattern != found);
                pattern.clone_from(found);
            }
        }
        assert_eq!(play::<Second>(&calls), all);
    }
    assert!(changed >= 100, "{changed} other patterns");
}

/// Every number and length of a call is one that the form allows.
fn in_form(calls: &[Call]) -> bool {
    let allowed = |call: &Call| match call {
        Call::Format { blocks } => (4..=16).contains(blocks),
        Call::Append { keys, words } | Call::Buffer { keys, words } => keys.len() == words.len(),
        Call::Cut { place, pattern } => {
            *place <= LAST_CUT && pattern.len() == if *place < 256 { 256 } else { 4096 }
        }
        _ => true,
    };
    let format = |call: &Call| matches!(call, Call::Format { .. });
    let cut = |call: &Call| matches!(call, Call::Cut { .. });
    let pairs = calls.windows(2).all(|pair| !cut(&pair[0]) || pair[1] == Call::Recover);
    calls.iter().all(allowed)
        && calls.first().is_some_and(format)
        && !calls[1..].iter().any(format)
        && !calls.last().is_some_and(cut)
        && pairs
}

/// A trace in form is exactly the bytes of calls in form, in at most 65536.
#[test]
fn the_form() {
    let (mut random, mut formed) = (Random::new(131), [0, 0]);
    for _ in 0..4000 {
        let calls = some_calls(&mut random);
        let bytes = bytes_of(&calls);
        assert!(in_form(&calls) && bytes.len() <= MOST_BYTES);
        assert_eq!(bytes.len(), 8 + calls.iter().map(Call::length).sum::<usize>());
        assert_eq!(read(&bytes), Ok(calls));
    }
    for _ in 0..20000 {
        let bytes = damaged_trace(&mut random);
        let read = read(&bytes);
        match &read {
            Ok(calls) => assert!(in_form(calls) && bytes_of(calls) == bytes),
            Err(Refused(number)) => {
                assert_eq!(*number, 26);
                assert_eq!(rerun(&bytes), "refused 26\n");
            }
        }
        formed[usize::from(read.is_ok())] += 1;
    }
    assert!(formed.iter().all(|&times| times >= 1000), "broken, in form: {formed:?}");
}
