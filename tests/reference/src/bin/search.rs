//! Searches all short sequences of requests for a violation of demand 3:
//! `search present|1978 N MASK DEPTH [every]`, or `search short|long` for a
//! fixed row of searches. The depth counts the steps of honest participants,
//! with `every` single requests. The status is 0 only if the present form
//! shows no violation and the form of 1978 shows one; in a row of searches,
//! if each ends as it should.

use reference::search::{exchange, walk, Form, Guide, Level, Plan, Report};
use std::process::ExitCode;
use std::time::Instant;

const USE: &str = "search present|1978 N MASK DEPTH [every], or search short|long";

/// Searches, and whether each should find a violation: Lowe's exchange takes
/// two honest participants and one that isn't.
type Row = [(&'static str, bool)];

const SHORT: &Row = &[
    ("present 2 3 8", false),
    ("1978 2 3 8", false),
    ("present 3 3 6", false),
    ("1978 3 3 6", true),
    ("present 3 7 5", false),
    ("1978 3 7 5", false),
    ("present 2 3 3 every", false),
    ("1978 2 3 3 every", false),
    ("present 3 3 3 every", false),
    ("1978 3 3 3 every", false),
];

const LONG: &Row = &[
    ("present 2 3 10", false),
    ("1978 2 3 10", false),
    ("present 3 3 8", false),
    ("1978 3 3 8", true),
    ("present 3 5 6", false),
    ("present 3 6 6", false),
    ("present 3 7 7", false),
    ("1978 3 7 7", false),
    ("present 2 3 4 every", false),
    ("1978 2 3 4 every", false),
];

fn asked(words: &[&str]) -> Option<Plan> {
    let (numbers, guide) = match words {
        [numbers @ .., "every"] => (numbers, Guide::Every),
        numbers => (numbers, Guide::Messages),
    };
    let &[form, n, mask, depth] = numbers else {
        return None;
    };
    let form = match form {
        "present" => Form::Present,
        "1978" => Form::Of1978,
        _ => return None,
    };
    let (n, mask, depth) = (n.parse().ok()?, mask.parse().ok()?, depth.parse().ok()?);
    let fits = (2..=8).contains(&n) && mask >> n == 0 && (1..=40).contains(&depth);
    fits.then_some(Plan {
        form,
        n,
        mask,
        depth,
        guide,
    })
}

fn name(plan: &Plan) -> String {
    let form = match plan.form {
        Form::Present => "present",
        Form::Of1978 => "1978",
    };
    let every = match plan.guide {
        Guide::Messages => "",
        Guide::Every => " every",
    };
    format!("{form} {} {} {}{every}", plan.n, plan.mask, plan.depth)
}

fn show_level(plan: &Plan, depth: usize, level: &Level) {
    let states = match depth == plan.depth {
        true => "deliveries only".to_string(),
        false => format!("{} new states", level.states),
    };
    println!(
        "  depth {depth}: {} moves, {} requests, {states}, {} acceptances passed",
        level.moves, level.requests, level.passed
    );
}

/// Runs a search and prints its numbers, the last line in one.
fn run(plan: &Plan) -> Report {
    let begun = Instant::now();
    println!("search {}", name(plan));
    let report = walk(plan, |depth, level| show_level(plan, depth, level));
    if let Some(requests) = &report.shortest {
        println!(
            "  accepted, but not asked for, in {} requests:",
            requests.len()
        );
        print!("{}", exchange(plan, requests));
    }
    let sum = |of: fn(&Level) -> u64| report.levels.iter().map(of).sum::<u64>();
    println!(
        "{}: {} states, {} requests, {} acceptances passed, {} violations, {:.1} s",
        name(plan),
        1 + sum(|level| level.states),
        sum(|level| level.requests),
        sum(|level| level.passed),
        report.violations,
        begun.elapsed().as_secs_f64()
    );
    report
}

/// Whether a search ended as it should; one that is deep enough for a whole
/// run of two honest participants must have seen acceptances too.
fn ends_well(plan: &Plan, violated: bool) -> bool {
    let report = run(plan);
    let passed: u64 = report.levels.iter().map(|level| level.passed).sum();
    let seen = passed > 0 || plan.depth < 4 || plan.mask.count_ones() < 2;
    (report.violations > 0) == violated && seen
}

fn run_all(row: &Row) -> bool {
    let ended = row.iter().filter(|(words, violated)| {
        let words: Vec<&str> = words.split(' ').collect();
        asked(&words).is_some_and(|plan| ends_well(&plan, *violated))
    });
    let well = ended.count();
    println!("{well} of {} searches ended as they should", row.len());
    well == row.len()
}

fn main() -> ExitCode {
    let words: Vec<String> = std::env::args().skip(1).collect();
    let words: Vec<&str> = words.iter().map(String::as_str).collect();
    let well = match (words.as_slice(), asked(&words)) {
        (["short"], _) => run_all(SHORT),
        (["long"], _) => run_all(LONG),
        (_, Some(plan)) => (run(&plan).violations > 0) == (plan.form == Form::Of1978),
        _ => {
            eprintln!("{USE}");
            return ExitCode::from(2);
        }
    };
    ExitCode::from(u8::from(!well))
}
