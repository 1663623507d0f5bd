// Formats a medium of 4 blocks, appends the groups {5 -> 1000, 7 -> 20} and {remove 5}; then, as on the morning after a power cut, recovers,
// reads the log and the settings, which an archive files now, commits, and collects the block that the picker names.
// Prints what each step touched.
//
//   tools/build journal_archive
//   rustc --edition 2021 -O -L target/staticlib examples/journal.rs -o target/journal_rs
#[allow(dead_code)]
#[path = "../include/valve_journal.rs"]
mod valve_journal;
mod steps;

use valve_journal::*;

// The steps of an operation. The write buffer stays empty here: examples/buffer.rs uses it.
fn finish(medium: &mut [u8], state: &mut State) -> Result<(), Refusal> {
    steps::finish(medium, state, &mut { EMPTY_BUFFER })
}

// The state recovered, after the log and the settings are printed.
fn morning(medium: &[u8]) -> Result<State, Refusal> {
    let state = recover(medium)?;
    let most = state.head.blocks * BLOCK_ENTRIES;
    let (mut keys, mut words, mut groups) = (vec![0; most], vec![0; most], vec![0; most]);
    let changes = log(medium, &mut keys, &mut words, &mut groups)?;
    println!("log {changes}");
    for ((key, word), group) in keys.iter().zip(&words).zip(&groups).take(changes) {
        if *key < REMOVAL { println!("{group} {key} {word}") } else { println!("{group} {} -", key - REMOVAL) }
    }
    let (mut valves, mut openings) = ([0; MOST_VALVES], [0; MOST_VALVES]);
    let set = settings(medium, &state, &mut valves, &mut openings)?;
    println!("set {set}");
    for (valve, word) in valves.iter().zip(&openings).take(set) {
        println!("{valve} {word}");
    }
    Ok(state)
}

fn main() -> Result<(), Refusal> {
    let medium = &mut [0; 4 * BLOCK_BYTES];
    let mut state = format(medium)?;
    finish(medium, &mut state)?;
    append(medium, &mut state, &EMPTY_BUFFER, &[5, 7], &[1000, 20])?;
    finish(medium, &mut state)?;
    append(medium, &mut state, &EMPTY_BUFFER, &[5 + REMOVAL], &[0])?;
    finish(medium, &mut state)?;
    let mut state = morning(medium)?;
    commit(medium, &mut state, &EMPTY_BUFFER)?;
    finish(medium, &mut state)?;
    if let Some(block) = pick(medium, &state)? {
        collect(medium, &mut state, &EMPTY_BUFFER, block)?;
        finish(medium, &mut state)?;
    }
    morning(medium)?;
    Ok(())
}
