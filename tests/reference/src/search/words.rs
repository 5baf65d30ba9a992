//! Requests and their answers in the words of a session's text.

use super::walk::Plan;
use crate::commands::{Answer, Request};
use crate::table::{head, CAPACITY};

/// A sequence of requests after the plan's set-up, a line for each, with
/// what the machine says to it.
pub fn exchange(plan: &Plan, requests: &[Request]) -> String {
    let mut game = plan.game();
    let capacity = head(&game.table, CAPACITY);
    let mut text = line(
        &words("set-up", &[plan.n, plan.mask, capacity]),
        Answer::Ready(2 * plan.n),
    );
    for &request in requests {
        let answer = game.ask(request);
        text += &line(&in_words(request), answer);
    }
    text
}

fn line(request: &str, answer: Answer) -> String {
    let answer = words(answer.word(), &answer.numbers()[1..]);
    format!("    {request:<16} # {answer}\n")
}

fn in_words(request: Request) -> String {
    match request {
        Request::Start(u, v) => words("start", &[u, v]),
        Request::Deliver(s, r, list) => words("deliver", &[s, r, list]),
        Request::Store(value) => words("store", &[value]),
        Request::Nonce => words("nonce", &[]),
        Request::List(count, handles) => words("list", &handles[..usize::from(count)]),
        Request::Project(list, place) => words("project", &[list, place]),
        Request::Encrypt(key, list) => words("encrypt", &[key, list]),
        Request::Decrypt(key, text) => words("decrypt", &[key, text]),
        Request::Parse(handle) => words("parse", &[handle]),
    }
}

fn words(word: &str, numbers: &[u16]) -> String {
    numbers
        .iter()
        .fold(word.to_string(), |text, number| format!("{text} {number}"))
}
