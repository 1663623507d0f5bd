// A grade change. On a medium of 4 blocks where {5 -> 1000, 7 -> 20, 9 -> 300} was appended, a control room recovers the journal, asks for the
// group that leads to the wanted openings {5 -> 1000, 8 -> 50, 9 -> 350}, and appends it. Asked again, nothing differs. Prints what each step
// touched.
//
//   tools/build journal_archive
//   rustc --edition 2021 -O -L target/staticlib examples/wanted.rs -o target/wanted_rs
#[allow(dead_code)]
#[path = "../include/valve_journal.rs"]
mod valve_journal;
mod steps;

use valve_journal::*;

// The steps of an operation. The write buffer stays empty here: examples/buffer.rs uses it.
fn finish(medium: &mut [u8], state: &mut State) -> Result<(), Refusal> {
    steps::finish(medium, state, &mut { EMPTY_BUFFER })
}

// The group that leads to the wanted openings, where at most 96 valves differ, is printed and appended. What is pending or in the buffer is not
// counted: whoever buffers moves flushes them first, and nothing else changes a valve between asking and appending.
fn lead(medium: &mut [u8], state: &mut State, records: &[Record]) -> Result<(), Refusal> {
    let Some(group) = wanted(medium, state, records)? else {
        println!("more than 96 valves differ");
        return Ok(());
    };
    println!("group of {}", group.count);
    for (&key, word) in group.keys().iter().zip(group.vals()) {
        if key < REMOVAL { println!("{key} {word}") } else { println!("{} -", key - REMOVAL) }
    }
    if group.count > 0 {
        append(medium, state, &EMPTY_BUFFER, group.keys(), group.vals())?;
        finish(medium, state)?;
    }
    Ok(())
}

fn main() -> Result<(), Refusal> {
    let records = [(5, 1000), (8, 50), (9, 350)].map(|(valve, word)| Record { valve, word });
    let medium = &mut [0; 4 * BLOCK_BYTES];
    let mut state = format(medium)?;
    finish(medium, &mut state)?;
    append(medium, &mut state, &EMPTY_BUFFER, &[5, 7, 9], &[1000, 20, 300])?;
    finish(medium, &mut state)?;
    let mut state = recover(medium)?;
    lead(medium, &mut state, &records)?;
    lead(medium, &mut state, &records)?;
    println!("set {}", state.index.count);
    Ok(())
}
