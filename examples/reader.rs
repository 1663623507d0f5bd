// Reads a medium of at most 65536 bytes from standard input; prints its log change by change, each line as `morning` prints it, with no list of
// changes in memory; or the number of the refusal, 1 for more bytes.
//
// Exit status: 0 all is printed, a refusal too. 2 standard input or output failed, which is told on standard error; after a failed
// read nothing is printed.
//
//   tools/build journal_archive
//   rustc --edition 2021 -O -L target/staticlib examples/reader.rs -o target/reader_rs
#[allow(dead_code)]
#[path = "../include/valve_journal.rs"]
mod valve_journal;

use std::io::{self, BufWriter, Read, Write};
use std::process::ExitCode;
use valve_journal::{changes, Change, Refusal, BLOCK_BYTES, REMOVAL};

// The longest medium that the program takes.
const LONGEST: usize = 16 * BLOCK_BYTES;

// Prints a line for each change, or the refusal.
fn print_log(medium: &[u8], output: &mut impl Write) -> io::Result<()> {
    let log = if medium.len() > LONGEST { Err(Refusal::Length) } else { changes(medium) };
    match log {
        Err(refusal) => writeln!(output, "refused {}", refusal as u8)?,
        Ok(changes) => {
            for Change { key, word, group } in changes {
                if key < REMOVAL {
                    writeln!(output, "{group} {key} {word}")?;
                } else {
                    writeln!(output, "{group} {} -", key - REMOVAL)?;
                }
            }
        }
    }
    output.flush()
}

// What failed, for an error of a stream.
fn failed(stream: &str) -> impl Fn(io::Error) -> String + '_ {
    move |error| format!("{stream}: {error}")
}

// Reads the medium, and prints.
fn run() -> Result<(), String> {
    let mut medium = Vec::new();
    io::stdin().take(LONGEST as u64 + 1).read_to_end(&mut medium).map_err(failed("standard input"))?;
    print_log(&medium, &mut BufWriter::new(io::stdout())).map_err(failed("standard output"))
}

fn main() -> ExitCode {
    let Err(message) = run() else { return ExitCode::SUCCESS };
    let _ = writeln!(io::stderr(), "reader: {message}");
    ExitCode::from(2)
}
