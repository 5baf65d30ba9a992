//! Seeded random cases for comparison with another machine, as text.

mod attacks;
pub(crate) mod bench;
pub(crate) mod files;
mod moves;
mod random;
pub(crate) mod records;
pub(crate) mod sessions;
pub(crate) mod singles;
pub(crate) mod tables;
mod text;

pub use random::Random;
pub use text::Tally;

/// The kinds of cases, by the names they are asked for with.
pub const KINDS: [&str; 5] = ["sessions", "tables", "files", "records", "singles"];

/// One more case of a kind, or nothing if there is no such kind.
pub fn case(kind: &str, random: &mut Random, tally: &mut Tally) -> Option<String> {
    Some(match kind {
        "sessions" => sessions::case(random, tally),
        "tables" => tables::case(random, tally),
        "files" => files::case(random, tally),
        "records" => records::case(random, tally),
        "singles" => singles::case(random, tally),
        _ => return None,
    })
}

/// A number of cases of a kind. The same seed gives the same text.
pub fn generate(kind: &str, seed: u64, count: u64, tally: &mut Tally) -> Option<String> {
    let mut random = Random::new(seed);
    (0..count).map(|_| case(kind, &mut random, tally)).collect()
}
