//! Media, lists of calls, states and buffers by chance. The same seed gives the
//! same ones.
//!
//! * [`Random`]: the generator.
//! * [`cut_mask`], [`cut_step`]: cuts inside a step.
//! * [`Life`]: a list of calls and cuts on one medium, chosen as it goes on.
//! * [`damage`]: damage to a medium.
//! * [`Sketch`]: media laid down page by page; [`refused_medium`]: one for each
//!   refusal of recovery.
//! * [`some_records`], [`damage_state`], [`some_buffer`]: what is lent to calls.
//! * [`some_calls`], [`damaged_trace`]: recorded runs.

mod buffers;
mod choices;
mod cuts;
mod damage;
mod generator;
mod lives;
mod records;
mod refused;
mod sketches;
mod states;
mod traces;

pub use buffers::some_buffer;
pub use choices::some_entry;
pub use cuts::{cut_mask, cut_step};
pub use damage::{
    change_length, copy_page, damage, flip_bits, random_bytes, resealed_change, swap_pages,
    wipe_page,
};
pub use generator::Random;
pub use lives::{lived, lived_on, medium, medium_on, Life};
pub use records::some_records;
pub use refused::{refused_medium, ways};
pub use sketches::{sketched, Sketch};
pub use states::damage_state;
pub use traces::{damaged_trace, some_calls, some_calls_within};
