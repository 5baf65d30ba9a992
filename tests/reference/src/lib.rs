//! The reference machine: the handshake bench in plain safe Rust, kept for
//! comparison with the machine proper. This file names the parts and what
//! a caller may use.

#![forbid(unsafe_code)]

pub mod cases;
mod commands;
mod formed;
mod player;
pub mod search;
mod session;
mod single;
mod steps;
pub mod table;
#[cfg(test)]
mod shown;
#[cfg(test)]
mod tests;
pub mod wide;

pub use commands::{act, refusal, step, Answer, Record, Request};
pub use formed::well_formed;
pub use player::{play, play_call, play_call_in, play_in, put_lines, Mode, PLAYER_WORDS};
pub use session::{read_record, write_record, Read, Written};
pub use single::single;
pub use table::set_up;
