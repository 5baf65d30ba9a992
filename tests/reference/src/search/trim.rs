//! A found violation without the requests that it doesn't need.

use super::game::Game;
use super::walk::Plan;
use crate::commands::{Answer, Request};
use std::collections::HashMap;

/// Leaves out one request after another, from the last, as long as what is
/// left still ends in a violation.
pub fn trim(plan: &Plan, found: Vec<Request>) -> Vec<Request> {
    let mut kept = found;
    for place in (0..kept.len()).rev() {
        if let Some(fewer) = without(plan, &kept, place) {
            kept = fewer;
        }
    }
    kept
}

/// The requests without one of them, each handle replaced by the one that
/// is now given for the same thing, if they still end in a violation.
fn without(plan: &Plan, requests: &[Request], place: usize) -> Option<Vec<Request>> {
    let (mut old, mut new) = (plan.game(), plan.game());
    let keys = new.held().into_iter().map(|(handle, _)| (handle, handle));
    let mut now: HashMap<u16, u16> = keys.collect();
    now.insert(0, 0);
    for (at, &request) in requests.iter().enumerate() {
        let before = given(&mut old, request);
        if at != place {
            let after = given(&mut new, renamed(request, &now)?);
            now.extend(before.zip(after));
        }
    }
    new.history.violated.then_some(new.requests)
}

/// Performs a request and gives the handle in its answer.
fn given(game: &mut Game, request: Request) -> Option<u16> {
    match game.ask(request) {
        Answer::Handle(handle) | Answer::Sent(_, _, handle) => Some(handle),
        _ => None,
    }
}

fn renamed(request: Request, now: &HashMap<u16, u16>) -> Option<Request> {
    let of = |handle: u16| now.get(&handle).copied();
    Some(match request {
        Request::Deliver(s, r, list) => Request::Deliver(s, r, of(list)?),
        Request::List(count, [a, b, c, d]) => {
            Request::List(count, [of(a)?, of(b)?, of(c)?, of(d)?])
        }
        Request::Project(list, place) => Request::Project(of(list)?, place),
        Request::Encrypt(key, list) => Request::Encrypt(of(key)?, of(list)?),
        Request::Decrypt(key, text) => Request::Decrypt(of(key)?, of(text)?),
        Request::Parse(handle) => Request::Parse(of(handle)?),
        Request::Start(..) | Request::Store(_) | Request::Nonce => request,
    })
}
