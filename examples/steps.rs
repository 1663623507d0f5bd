// What the Rust examples share: the steps of an operation, each printed.
use super::valve_journal::{step, Refusal, State, Touched};

// Steps until the pending operation is finished. A driver carries each step to the chip before the next.
pub fn finish(medium: &mut [u8], state: &mut State, buffer: &mut [u8]) -> Result<(), Refusal> {
    loop {
        let step = step(medium, state, buffer)?;
        match step.touched {
            Touched::Page(page) => println!("program page {page}"),
            Touched::Block(block) => println!("erase block {block}"),
        }
        if step.finished {
            return Ok(());
        }
    }
}
