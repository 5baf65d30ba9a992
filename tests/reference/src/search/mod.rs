//! The search in the small: every sequence of requests up to a length, with
//! demand 3 checked at each acceptance. Used by the program `search` alone.

#[cfg(test)]
mod agree;
mod every;
mod form;
mod game;
mod history;
mod messages;
mod shape;
#[cfg(test)]
mod tests;
mod trim;
mod walk;
mod words;

pub use form::Form;
pub use walk::{walk, Guide, Level, Plan, Report};
pub use words::exchange;
