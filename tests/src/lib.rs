//! The valve journal a second time, written from its documents alone, to test
//! the first one against.
//!
//! * [`reader`]: pages, recovery, the log, readings of a state, fitness.
//! * [`writer`]: format, append, commit, collect, buffer, flush and step.
//! * [`effects`]: what a span of the log did; [`mattered`]: which one group
//!   mattered.
//! * [`dispatcher`]: which operation comes next.
//! * [`history`]: the plain history that recovery is held to; [`fading`]: each
//!   moment of it, and media whose bits fade.
//! * [`before`]: pages that set valve 0, written by hand.
//! * [`disk`]: files on a disk, and what a power failure leaves of them.
//! * [`grown`]: journals of many blocks, written for long.
//! * [`logs`]: logs and media made for the readings of the log.
//! * [`random`]: media, lists of calls, cuts and damage made by chance, always
//!   the same ones for the same seed.
//! * [`valve_journal`]: the first one, the proved library, as users of Rust call
//!   it; [`proved`]: the same in the second implementation's terms.
//! * [`calls`]: the calls of either under one name; [`player`]: lists of calls and
//!   cuts played by either.
//! * [`run`]: whole operations from C, over a chip whose driver can fail.
//! * [`stack`]: how much stack a call takes.
//! * [`tight`]: recovery and the log as tight as they can be written, the yardstick
//!   for times; [`tight_writer`]: the calls of every day likewise;
//!   [`tight_by_value`]: these behind the library's interface.
//! * [`trace`]: recorded runs, their form, and what is printed for them;
//!   [`corners`]: those made by hand.

#![deny(unsafe_code)]

pub mod before;
pub mod calls;
pub mod corners;
pub mod disk;
pub mod dispatcher;
pub mod effects;
pub mod fading;
pub mod grown;
pub mod history;
pub mod logs;
pub mod mattered;
pub mod player;
pub mod proved;
pub mod random;
pub mod reader;
#[allow(unsafe_code)]
pub mod run;
#[allow(unsafe_code)]
pub mod stack;
pub mod tight;
#[allow(unsafe_code)]
pub mod tight_by_value;
pub mod tight_writer;
pub mod trace;
#[allow(unsafe_code)]
#[path = "../../include/valve_journal.rs"]
pub mod valve_journal;
pub mod writer;
