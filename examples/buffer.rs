// Formats a medium of 4 blocks; then gathers an operator's single moves, each a group of its own, in the write buffer, and flushes it where it
// is full and at the end: 20 moves take 2 pages. Looks at valves before and after the last flush. Prints what each step touched.
//
//   tools/build journal_archive
//   rustc --edition 2021 -O -L target/staticlib examples/buffer.rs -o target/buffer_rs
#[allow(dead_code)]
#[path = "../include/valve_journal.rs"]
mod valve_journal;
mod steps;

use valve_journal::{Refusal, State, Word, BLOCK_BYTES, BUFFER_BYTES, EMPTY_BUFFER};

// A medium, the state of its journal and the write buffer beside it.
struct Journal {
    medium: Vec<u8>,
    state: State,
    buffer: [u8; BUFFER_BYTES],
}

impl Journal {
    // Formats a medium.
    fn format(medium: Vec<u8>) -> Result<Journal, Refusal> {
        let state = valve_journal::format(&medium)?;
        let mut journal = Journal { medium, state, buffer: EMPTY_BUFFER };
        journal.finish()?;
        Ok(journal)
    }

    // The steps of an operation.
    fn finish(&mut self) -> Result<(), Refusal> {
        steps::finish(&mut self.medium, &mut self.state, &mut self.buffer)
    }

    fn flush(&mut self) -> Result<(), Refusal> {
        valve_journal::flush(&self.medium, &mut self.state, &self.buffer)?;
        self.finish()
    }

    // One move, a group of its own. A full buffer is flushed first.
    fn make(&mut self, valve: u16, word: u64) -> Result<(), Refusal> {
        match valve_journal::buffer(&self.medium, &self.state, &mut self.buffer, &[valve], &[word]) {
            Err(Refusal::BufferFull) => {
                self.flush()?;
                valve_journal::buffer(&self.medium, &self.state, &mut self.buffer, &[valve], &[word])
            }
            answer => answer,
        }
    }

    // The word of a valve, flushed or not.
    fn look(&self, valve: u16) -> Result<(), Refusal> {
        let word = valve_journal::word(&self.medium, &self.state, &self.buffer, valve)?;
        let holder = if matches!(word, Word::InBuffer(_)) { "buffer" } else { "medium" };
        println!("valve {valve}: {} in the {holder}", word.value());
        Ok(())
    }
}

fn main() -> Result<(), Refusal> {
    let mut journal = Journal::format(vec![0; 4 * BLOCK_BYTES])?;
    for i in 0..20 {
        journal.make(5 + i % 16, 1000 + u64::from(i))?;
    }
    journal.look(5)?;
    journal.look(20)?;
    journal.flush()?;
    journal.look(5)
}
