// Reads a medium of at most 65536 bytes from standard input; prints its log and the valves that are set, or the number of the refusal, 1 for
// more bytes.
//
// Exit status: 0 all is printed, a refusal too. 2 standard input or output failed, which is told on standard error; after a failed
// read nothing is printed.
//
//   tools/build journal_archive
//   rustc --edition 2021 -O -L target/staticlib examples/morning.rs -o target/morning_rs
#[allow(dead_code)]
#[path = "../include/valve_journal.rs"]
mod valve_journal;

use std::fmt::Write as _;
use std::io::{self, Read, Write};
use std::process::ExitCode;
use valve_journal::{log, recover, settings, Refusal, BLOCK_BYTES, BLOCK_ENTRIES, MOST_VALVES, REMOVAL};

// The longest medium that the program takes.
const LONGEST: usize = 16 * BLOCK_BYTES;

// The lines of the log and of the settings, or the refusal.
fn read(medium: &[u8]) -> Result<String, Refusal> {
    if medium.len() > LONGEST {
        return Err(Refusal::Length);
    }
    let most = 16 * BLOCK_ENTRIES;
    let (mut keys, mut words, mut groups) = (vec![0; most], vec![0; most], vec![0; most]);
    let changes = log(medium, &mut keys, &mut words, &mut groups)?;
    let (mut valves, mut openings) = ([0; MOST_VALVES], [0; MOST_VALVES]);
    let set = settings(medium, &recover(medium)?, &mut valves, &mut openings)?;
    let mut lines = format!("log {changes}\n");
    for ((key, word), group) in keys.iter().zip(&words).zip(&groups).take(changes) {
        if *key < REMOVAL {
            writeln!(lines, "{group} {key} {word}").expect("a line");
        } else {
            writeln!(lines, "{group} {} -", key - REMOVAL).expect("a line");
        }
    }
    writeln!(lines, "set {set}").expect("a line");
    for (valve, word) in valves.iter().zip(&openings).take(set) {
        writeln!(lines, "{valve} {word}").expect("a line");
    }
    Ok(lines)
}

// What failed, for an error of a stream.
fn failed(stream: &str) -> impl Fn(io::Error) -> String + '_ {
    move |error| format!("{stream}: {error}")
}

// Reads the medium, and prints.
fn run() -> Result<(), String> {
    let mut medium = Vec::new();
    io::stdin().take(LONGEST as u64 + 1).read_to_end(&mut medium).map_err(failed("standard input"))?;
    let lines = read(&medium).unwrap_or_else(|refusal| format!("refused {}\n", refusal as u8));
    let mut output = io::stdout();
    output.write_all(lines.as_bytes()).and_then(|()| output.flush()).map_err(failed("standard output"))
}

fn main() -> ExitCode {
    let Err(message) = run() else { return ExitCode::SUCCESS };
    let _ = writeln!(io::stderr(), "morning: {message}");
    ExitCode::from(2)
}
