//! Prints seeded random cases: `cases KIND SEED COUNT [--tally]`.

use reference::cases::{case, Random, Tally, KINDS};
use std::io::{self, BufWriter, Write};
use std::process::ExitCode;

struct Wish {
    kind: String,
    seed: u64,
    count: u64,
    tally: bool,
}

fn wish() -> Option<Wish> {
    let (flags, plain): (Vec<String>, Vec<String>) =
        std::env::args().skip(1).partition(|word| word == "--tally");
    let [kind, seed, count] = plain.try_into().ok()?;
    KINDS.contains(&kind.as_str()).then_some(())?;
    Some(Wish {
        kind,
        seed: seed.parse().ok()?,
        count: count.parse().ok()?,
        tally: !flags.is_empty(),
    })
}

fn print(wish: &Wish) -> io::Result<()> {
    let mut out = BufWriter::new(io::stdout().lock());
    let mut random = Random::new(wish.seed);
    let mut tally = Tally::default();
    for _ in 0..wish.count {
        let text = case(&wish.kind, &mut random, &mut tally).unwrap_or_default();
        out.write_all(text.as_bytes())?;
    }
    if wish.tally {
        eprint!("{tally}");
    }
    out.flush()
}

fn main() -> ExitCode {
    let Some(wish) = wish() else {
        eprintln!("cases KIND SEED COUNT [--tally], KIND one of {KINDS:?}");
        return ExitCode::from(2);
    };
    match print(&wish) {
        Ok(()) => ExitCode::SUCCESS,
        Err(error) => {
            eprintln!("cases: {error}");
            ExitCode::FAILURE
        }
    }
}
