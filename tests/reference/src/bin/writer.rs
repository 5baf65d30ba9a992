//! The writer of records by the reference, and compared with a program:
//!
//! - `writer requests COUNT SEED` prints requests,
//! - `writer answers` reads requests and prints their answers,
//! - `writer compare PROGRAM COUNT SEED` gives requests to a program that
//!   answers them, such as `show_writer`, and compares. The status is 1 at
//!   the first answer that differs; that request is made small and printed.
//!   With the word `--fault` an answer is changed on the way.

use reference::cases::{Random, Tally};
use reference::wide::writer::{answer, count, request, smaller, Answer, Request};
use std::io::{self, Read, Write};
use std::process::{Command, ExitCode, Stdio};

/// Requests for one run of a program.
const BATCH: usize = 50_000;

fn requests(count: usize, random: &mut Random) -> Vec<Request> {
    (0..count).map(|_| request(random)).collect()
}

/// What a program answers to requests.
struct Program {
    path: String,
    fault: bool,
}

impl Program {
    fn answers(&self, requests: &[Request]) -> io::Result<Vec<Answer>> {
        let mut child = Command::new(&self.path)
            .stdin(Stdio::piped())
            .stdout(Stdio::piped())
            .spawn()?;
        let mut stdin = child.stdin.take().expect("a piped input");
        let bytes = requests.concat();
        let feeder = std::thread::spawn(move || stdin.write_all(&bytes));
        let output = child.wait_with_output()?.stdout;
        feeder.join().expect("no panic")?;
        let mut answers = output.as_chunks::<18>().0.to_vec();
        if self.fault {
            answers.iter_mut().for_each(spoil);
        }
        Ok(answers)
    }

    /// The first request that is answered otherwise than by the reference.
    fn differing(&self, requests: &[Request]) -> io::Result<Option<(Request, Answer)>> {
        let answers = self.answers(requests)?;
        let found = requests.iter().enumerate().find_map(|(place, request)| {
            let got = answers.get(place).copied().unwrap_or([0; 18]);
            (got != answer(request)).then_some((*request, got))
        });
        Ok(found)
    }

    /// The same with lower numbers, as long as it still differs.
    fn smallest(&self, mut found: (Request, Answer)) -> io::Result<(Request, Answer)> {
        while let Some(smaller) = self.differing(&smaller(&found.0))? {
            found = smaller;
        }
        Ok(found)
    }
}

/// A fault on purpose: lists of four lose the low byte of their last number.
fn spoil(answer: &mut Answer) {
    if answer[..3] == [0, 9, 5] && answer[16..] == [0, 11] {
        answer[10] = 0;
    }
}

fn hex(bytes: &[u8]) -> String {
    bytes.iter().map(|byte| format!("{byte:02x}")).collect()
}

fn compare(program: &Program, count_wanted: usize, seed: u64) -> io::Result<bool> {
    let mut random = Random::new(seed);
    let mut tally = Tally::default();
    let mut left = count_wanted;
    while left > 0 {
        let requests = requests(left.min(BATCH), &mut random);
        left -= requests.len();
        if let Some(found) = program.differing(&requests)? {
            let (request, got) = program.smallest(found)?;
            println!("request: {}", hex(&request));
            println!("reference: {}", hex(&answer(&request)));
            println!("proved code: {}", hex(&got));
            println!("writer: differs, seed {seed}");
            return Ok(false);
        }
        requests
            .iter()
            .for_each(|request| count(request, &mut tally));
    }
    print!("{tally}");
    println!("writer: {count_wanted} requests agree");
    Ok(true)
}

fn print_requests(count: usize, seed: u64) -> io::Result<bool> {
    let bytes = requests(count, &mut Random::new(seed)).concat();
    io::stdout().lock().write_all(&bytes)?;
    Ok(true)
}

fn print_answers() -> io::Result<bool> {
    let mut bytes = Vec::new();
    io::stdin().lock().read_to_end(&mut bytes)?;
    let answers: Vec<Answer> = bytes.as_chunks::<12>().0.iter().map(answer).collect();
    io::stdout().lock().write_all(&answers.concat())?;
    Ok(true)
}

fn run(words: &[&str], fault: bool) -> Option<io::Result<bool>> {
    Some(match words {
        ["answers"] => print_answers(),
        ["requests", count, seed] => print_requests(count.parse().ok()?, seed.parse().ok()?),
        ["compare", path, count, seed] => {
            let path = (*path).to_owned();
            compare(
                &Program { path, fault },
                count.parse().ok()?,
                seed.parse().ok()?,
            )
        }
        _ => return None,
    })
}

fn main() -> ExitCode {
    let (flags, words): (Vec<String>, Vec<String>) =
        std::env::args().skip(1).partition(|word| word == "--fault");
    let words: Vec<&str> = words.iter().map(String::as_str).collect();
    match run(&words, !flags.is_empty()) {
        Some(Ok(true)) => ExitCode::SUCCESS,
        Some(Ok(false)) => ExitCode::FAILURE,
        Some(Err(error)) => {
            eprintln!("writer: {error}");
            ExitCode::from(2)
        }
        None => {
            eprintln!(
                "writer requests COUNT SEED | answers | compare PROGRAM COUNT SEED [--fault]"
            );
            ExitCode::from(2)
        }
    }
}
